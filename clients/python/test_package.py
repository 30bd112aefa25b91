"""Tests of the package: that pip installs it, and that what reads it finds what it needs."""
import ast
import importlib.util
import inspect
import os
import pathlib
import pydoc
import shutil
import subprocess
import sys
import tempfile
import unittest

import blobseer
from blobseer import aio
from helpers import HERE


class Package(unittest.TestCase):
    @unittest.skipUnless(importlib.util.find_spec("pip"), "pip is needed")
    def test_pip_installs_it_without_a_registry(self):
        with tempfile.TemporaryDirectory() as folder:
            source, target = pathlib.Path(folder, "python"), pathlib.Path(folder, "target")
            shutil.copytree(HERE, source, ignore=shutil.ignore_patterns("__pycache__"))
            words = ["install", "--quiet", "--no-index", "--no-compile", "--disable-pip-version-check", "--root-user-action=ignore", "--target", target, source]
            subprocess.run([sys.executable, "-m", "pip", *words], check=True)
            environment = {**os.environ, "PYTHONPATH": str(target)}
            for command in ([target / "bin" / "blobseer"], [sys.executable, "-m", "blobseer"]):
                told = subprocess.run([*command, "--version"], stdout=subprocess.PIPE, env=environment, cwd=folder, check=True).stdout
                self.assertEqual(told, b"blobseer %s\n" % blobseer.__version__.encode())
            self.assertEqual(sorted(path.name for path in (target / "blobseer").iterdir() if path.is_file()),
                             sorted(path.name for path in (HERE / "blobseer").iterdir() if path.is_file()))
            self.assertEqual((target / "share/bash-completion/completions/blobseer").read_bytes(), (HERE / "completion.bash").read_bytes())

    def test_the_older_versions_of_python(self):
        for path in (HERE / "blobseer").glob("*.py"):
            ast.parse(path.read_text(encoding="utf-8"), feature_version=(3, 8))
        told = subprocess.run([sys.executable, "-c", "import runpy, sys; sys.version_info = (3, 7, 0); runpy.run_path(sys.argv[1], run_name='__main__')",
                               str(HERE / "blobseer.py")], stderr=subprocess.PIPE)
        self.assertEqual((told.returncode, told.stderr), (2, b"blobseer: it needs Python 3.8 or later, and this is 3.7\n"))

    def test_everything_public_says_what_it_is(self):
        for module in (blobseer, aio):
            names = getattr(module, "__all__", ["Client", "BlobFile", "connect"])
            for one in [getattr(module, name) for name in names]:
                for part in [one, *vars(one).values()] if inspect.isclass(one) else [one] if callable(one) else []:
                    if inspect.isclass(part) or inspect.isfunction(part) and not part.__name__.startswith("_"):
                        self.assertTrue(inspect.getdoc(part), part)
        text = pydoc.plain(pydoc.render_doc(blobseer))
        for name in ("connect(", "class Client", "append_from(", "class Pool", "class NoBlob"):
            self.assertTrue(name in text, name)

    @unittest.skipUnless(importlib.util.find_spec("mypy"), "mypy is needed")
    def test_types(self):
        with tempfile.TemporaryDirectory() as folder:
            done = subprocess.run([sys.executable, "-m", "mypy", "--strict", "--cache-dir", folder, "-p", "blobseer"], cwd=HERE, stdout=subprocess.PIPE)
        self.assertEqual(done.returncode, 0, done.stdout.decode())


if __name__ == "__main__":
    unittest.main()
