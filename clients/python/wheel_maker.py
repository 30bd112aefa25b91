"""Makes the wheel that `pip install clients/python` installs.

It is the build backend that pyproject.toml names, by the standard library alone, so that pip needs no registry. The wheel has the package and the
completion for bash.
"""
import base64
import configparser
import hashlib
import pathlib
import re
import zipfile

HERE = pathlib.Path(__file__).resolve().parent
TAG = "py3-none-any"


def _metadata():
    """The tables of pyproject.toml that say what the project is, each of whose values is a string, with the version that the package has."""
    tables = configparser.ConfigParser()
    tables.optionxform = str
    tables.read(HERE / "pyproject.toml", encoding="utf-8")
    project, scripts = [{key: value.strip('"') for key, value in tables[name].items()} for name in ("project", "project.scripts")]
    text = (HERE / "blobseer" / "__init__.py").read_text(encoding="utf-8")
    return dict(project, version=re.search('^__version__ = "(.*)"$', text, re.MULTILINE).group(1)), scripts


def _files(info, project, scripts, editable):
    """The files of the wheel: the path and the bytes of each."""
    if editable:
        yield "blobseer.pth", (str(HERE) + "\n").encode()
    else:
        for path in [*sorted((HERE / "blobseer").glob("*.py")), HERE / "blobseer" / "py.typed"]:
            yield "blobseer/" + path.name, path.read_bytes()
    completion = info.replace("dist-info", "data/data/share/bash-completion/completions/blobseer")
    yield completion, (HERE / "completion.bash").read_bytes()
    told = "Metadata-Version: 2.1\nName: %(name)s\nVersion: %(version)s\nSummary: %(description)s\nRequires-Python: %(requires-python)s\n" % project
    yield info + "/METADATA", told.encode()
    yield info + "/WHEEL", ("Wheel-Version: 1.0\nGenerator: wheel_maker\nRoot-Is-Purelib: true\nTag: %s\n" % TAG).encode()
    yield info + "/entry_points.txt", ("[console_scripts]\n" + "".join("%s = %s\n" % script for script in scripts.items())).encode()


def _made(folder, editable):
    """Makes a wheel in a folder: its name."""
    project, scripts = _metadata()
    whole = "%(name)s-%(version)s" % project
    name = "%s-%s.whl" % (whole, TAG)
    record = []
    with zipfile.ZipFile(pathlib.Path(folder) / name, "w", zipfile.ZIP_DEFLATED) as wheel:
        for path, data in _files(whole + ".dist-info", project, scripts, editable):
            wheel.writestr(path, data)
            digest = base64.urlsafe_b64encode(hashlib.sha256(data).digest()).rstrip(b"=").decode()
            record.append("%s,sha256=%s,%d\n" % (path, digest, len(data)))
        path = whole + ".dist-info/RECORD"
        wheel.writestr(path, "".join(record) + path + ",,\n")
    return name


def build_wheel(wheel_directory, config_settings=None, metadata_directory=None):
    """What pip calls for `pip install`."""
    return _made(wheel_directory, False)


def build_editable(wheel_directory, config_settings=None, metadata_directory=None):
    """What pip calls for `pip install --editable`."""
    return _made(wheel_directory, True)
