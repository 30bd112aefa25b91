"""Tests of the disks by NBD clients that others wrote, against the built server and nbdkit.

The program is that of the variable BLOBSEER_PROGRAM, or crates/blobseer/out/blobseer of this repository. A test is skipped where its tools
aren't there; the Debian packages are nbdkit, nbdkit-plugin-python, qemu-utils, libnbd-bin and e2fsprogs.
"""
import concurrent.futures
import contextlib
import importlib
import json
import os
import pathlib
import random
import shutil
import subprocess
import sys
import tempfile
import threading
import time
import types
import unittest
import urllib.parse
from unittest import mock

HERE = pathlib.Path(__file__).resolve().parent
sys.path[:0] = [str(HERE), str(HERE.parent / "python")]
import blobseer  # noqa: E402
import helpers  # noqa: E402
from helpers import Server  # noqa: E402

PLUGIN = str(HERE / "blobseer_nbd.py")
FOLDERS = os.environ.get("PATH", "") + os.pathsep + "/usr/sbin" + os.pathsep + "/sbin"
MIB = 1 << 20
# Without a cache mode qemu-io would have each write flushed.
QEMU_IO = ["qemu-io", "-t", "writeback", "-f", "raw"]


def missing(tools):
    return " ".join(tool for tool in tools if shutil.which(tool, path=FOLDERS) is None)


def needs(*tools):
    """Skips a test where one of these programs isn't there."""
    return unittest.skipIf(missing(tools), "not there: " + missing(tools))


def has_plugin():
    with contextlib.suppress(OSError):
        return subprocess.run(["nbdkit", "python", "--dump-plugin"], stdout=subprocess.DEVNULL, stderr=subprocess.DEVNULL).returncode == 0
    return False


HAS_PLUGIN = has_plugin()


def run(*words, status=0, text=None, **more):
    """Runs a program to its end, and gives what it wrote on both outputs."""
    done = subprocess.run(words, input=text, stdout=subprocess.PIPE, stderr=subprocess.STDOUT, timeout=120, universal_newlines=True,
                          env={**os.environ, "PATH": FOLDERS, "LC_ALL": "C"}, **more)
    if done.returncode != status:
        raise AssertionError("%s ended with %d: %s" % (" ".join(words), done.returncode, done.stdout))
    return done.stdout


class Nbdkit:
    """nbdkit with the plugin, at a Unix socket of its own. What it says is in `said`."""

    def __init__(self, address, *options, flags=()):
        self._folder = tempfile.TemporaryDirectory()
        self._socket = os.path.join(self._folder.name, "nbd")
        self._log = pathlib.Path(self._folder.name, "log")
        words = ["nbdkit", "-f", "-v", *flags, "-U", self._socket, "python", PLUGIN, "server=" + address, *options]
        with self._log.open("w") as log:
            self.process = subprocess.Popen(words, stdout=log, stderr=log, env={**os.environ, "PYTHONDONTWRITEBYTECODE": "1"})

    def __enter__(self):
        for _ in range(1200):
            if os.path.exists(self._socket):
                return self
            if self.process.poll() is not None:
                break
            time.sleep(0.05)
        raise AssertionError("nbdkit doesn't listen: " + self.said)

    def __exit__(self, *_):
        self.process.terminate()
        self.process.wait(60)
        self._folder.cleanup()

    @property
    def said(self):
        return self._log.read_text()

    def uri(self, name):
        return "nbd+unix:///%s?socket=%s" % (urllib.parse.quote(str(name), safe=""), self._socket)

    def info(self, name):
        """What nbdinfo tells of an export."""
        return json.loads(run("nbdinfo", "--json", self.uri(name)))["exports"][0]

    def io(self, name, *commands, status=0):
        """What qemu-io writes for some commands."""
        return run(*QEMU_IO, self.uri(name), text="".join(command + "\n" for command in commands), status=status)


class Guest:
    """qemu-io with a disk, which does one command after another and keeps the disk open. It takes one command at a time from a pipe."""

    def __init__(self, uri):
        self.process = subprocess.Popen([*QEMU_IO, uri], stdin=subprocess.PIPE, stdout=subprocess.PIPE, universal_newlines=True)
        self._watch = threading.Timer(60, self.process.kill)
        self._watch.start()
        self._answer()

    def __enter__(self):
        return self

    def __exit__(self, *_):
        self._watch.cancel()
        self.process.kill()
        self.process.communicate()

    def does(self, command):
        """What it answers to a command."""
        self.process.stdin.write(command + "\n")
        self.process.stdin.flush()
        return self._answer()

    def _answer(self):
        said = ""
        while not said.endswith("qemu-io> "):
            one = self.process.stdout.read(1)
            if not one:
                raise AssertionError("qemu-io ended: " + said)
            said += one
        return said


def setUpModule():
    """Starts the server and the nbdkit that most tests share."""
    if HAS_PLUGIN:
        stack = contextlib.ExitStack()
        unittest.addModuleCleanup(stack.close)
        Disks.server = stack.enter_context(Server("--workers", "8", "--replicas", "1"))
        Disks.nbdkit = stack.enter_context(Nbdkit(Disks.server.address))


@unittest.skipUnless(HAS_PLUGIN, "nbdkit isn't there, or has no plugin for Python")
class Disks(unittest.TestCase):
    def setUp(self):
        self.store = blobseer.connect(self.server.address)
        self.addCleanup(self.store.close)
        folder = tempfile.TemporaryDirectory()
        self.addCleanup(folder.cleanup)
        self.folder = pathlib.Path(folder.name)

    def file(self, data, name="image"):
        path = self.folder / name
        path.write_bytes(data)
        return str(path)

    def blob(self, data):
        blob = self.store.create()
        for begin in range(0, len(data), MIB):
            self.store.append(blob, data[begin:begin + MIB])
        return blob

    def content(self, blob, version=None):
        found = self.store.recent(blob).version if version is None else version
        size = self.store.size(blob, found)
        return b"".join(self.store.read(blob, found, begin, min(MIB, size - begin)) for begin in range(0, size, MIB))


class Exports(Disks):
    @needs("nbdinfo")
    def test_what_each_name_opens(self):
        blob = self.blob(bytes(2 * MIB + 1))
        newest, old, branch = (self.nbdkit.info(str(blob) + rest) for rest in ("", "@1", "@1+"))
        self.assertEqual([one["export-size"] for one in (newest, old, branch)], [2 * MIB + 1, MIB, MIB])
        self.assertEqual([one["is_read_only"] for one in (newest, old, branch)], [False, True, False])
        self.assertEqual([one["can_multi_conn"] for one in (newest, old, branch)], [False, True, False])
        self.assertEqual(newest["description"], "blob %d from version 3 on" % blob)
        self.assertEqual(old["description"], "version 1 of blob %d" % blob)
        self.assertRegex(branch["description"], "^blob [0-9]+, a branch of version 1 of blob %d$" % blob)
        self.assertIn(branch["description"], self.nbdkit.said)
        for name in ("can_flush", "can_fua", "can_zero", "can_trim"):
            self.assertTrue(newest[name], name)
        self.assertFalse(newest["can_fast_zero"])
        sizes = [newest["block_size_" + name] for name in ("minimum", "preferred", "maximum")]
        self.assertEqual(sizes, [1, 4096, 16 * MIB])

    @needs("nbdinfo")
    def test_names_of_nothing(self):
        blob = self.blob(b"abc")
        for name in ("65535", "%d@2" % blob, "%d@2+" % blob, "%d@" % blob, "%d+" % blob, "x", "-1", "9" * 19, "9" * 20, ""):
            with self.subTest(name=name):
                self.assertIn("No such file or directory", run("nbdinfo", self.nbdkit.uri(name), status=1))

    @needs("nbdinfo")
    def test_options(self):
        blob = self.blob(b"abc")
        with Nbdkit(self.server.address, "blob=%d@1" % blob, "page=64K", "size=1M") as other:
            self.assertEqual(other.info("")["export-name"], "%d@1" % blob)
            self.assertEqual(other.info("")["block_size_preferred"], 65536)
            listed = json.loads(run("nbdinfo", "--list", "--json", other.uri("")))["exports"]
            self.assertEqual([one["export-name"] for one in listed], ["%d@1" % blob])
            self.assertEqual(self.store.recent(blob).size, 3)
            self.assertEqual(other.info(blob)["export-size"], MIB)
        self.assertEqual(self.content(blob), b"abc" + bytes(MIB - 3))
        with Nbdkit(self.server.address, "size=2M", flags=["-r"]) as other:
            for name in (blob, "%d@2+" % blob):
                self.assertEqual((other.info(name)["export-size"], other.info(name)["is_read_only"]), (MIB, True))
            listed = json.loads(run("nbdinfo", "--list", "--json", other.uri("")))["exports"]
            self.assertIn((str(blob), "version 2, %d bytes" % MIB), [(one["export-name"], one["description"]) for one in listed])

    def test_an_option_that_is_wrong(self):
        said = run("nbdkit", "-U", str(self.folder / "nbd"), "python", PLUGIN, "server=127.0.0.1:1", "gather=17M", "--run", "true", status=1)
        self.assertIn("gather is at most 16M", said)

    @needs("qemu-io")
    def test_a_version_is_for_reading_alone(self):
        blob = self.blob(b"\x11" * 4096)
        self.nbdkit.io(blob, "write -P 0x22 0 512")
        self.assertIn("Permission denied", self.nbdkit.io("%d@1" % blob, "write 0 512", status=1))
        self.assertNotIn("failed", run(*QEMU_IO, "-r", self.nbdkit.uri("%d@1" % blob), text="read -P 0x11 0 4096\n"))

    @needs("qemu-io")
    def test_each_connection_has_a_branch_of_its_own(self):
        blob = self.blob(b"\x11" * 4096)
        for _ in range(2):
            said = self.nbdkit.io("%d@1+" % blob, "read -P 0x11 0 4096", "write -P 0x22 0 512", "read -P 0x22 0 512", "read -P 0x11 512 3584")
            self.assertNotIn("failed", said)
        self.assertEqual(self.content(blob), b"\x11" * 4096)


def pieces(draw, size):
    """Some pieces of a disk, no two of which meet, in any order: pattern, offset and length."""
    ends = sorted(draw.sample(range(size), 2 * draw.randint(1, 12)))
    found = [(draw.randrange(256), begin, min(end - begin, draw.choice((1, 512, 4096, 70000, 300000)))) for begin, end in zip(ends[::2], ends[1::2])]
    draw.shuffle(found)
    return found


def commands(draw, size, rounds):
    """Commands of qemu-io: in each round writes that go on beside each other, then reads of what they wrote, and then something else."""
    for _ in range(rounds):
        written = pieces(draw, size)
        for piece in written:
            yield draw.choice(("aio_write -P %d %d %d", "aio_write -P %d %d %d", "aio_write -f -P %d %d %d")) % piece
        yield "aio_flush"
        for piece in draw.sample(written, draw.randint(0, len(written))):
            yield "read -P %d %d %d" % piece
        pattern, offset, count = draw.choice(written)
        yield draw.choice(("flush", "write -z %d %d" % (offset, count), "writev -P %d %d %d" % (255 - pattern, offset, count)))


class Contents(Disks):
    @needs("qemu-io", "qemu-img")
    def test_what_is_written_is_read_and_is_what_a_file_would_have(self):
        size = 3 * MIB + 512
        for seed, options in enumerate(((), ("gather=64K", "connections=3"), ("gather=1M", "connections=1"))):
            draw = random.Random(seed)
            blob, beside = self.blob(bytes(size)), self.file(bytes(size))
            with self.subTest(options=options), Nbdkit(self.server.address, *options) as nbdkit:
                for _ in range(2):
                    script = list(commands(draw, size, 8))
                    for said in (nbdkit.io(blob, *script), run(*QEMU_IO, beside, text="\n".join(script) + "\n")):
                        self.assertNotIn("failed", said)
                    run("qemu-img", "compare", "-f", "raw", "-F", "raw", nbdkit.uri(blob), beside)
                    kept, version = pathlib.Path(beside).read_bytes(), self.store.recent(blob).version
                    self.assertTrue(self.content(blob) == kept)
                nbdkit.io(blob, "write -P 254 0 %d" % size)
                beside = self.file(kept, "kept")
                run("qemu-img", "compare", "-f", "raw", "-F", "raw", nbdkit.uri("%d@%d" % (blob, version)), beside)

    @needs("qemu-img")
    def test_images_are_converted_both_ways(self):
        data = b"".join(draw * (MIB // 4) for draw in (os.urandom(4), bytes(4), os.urandom(4), bytes(4)))
        image, packed, back = self.file(data), str(self.folder / "packed"), str(self.folder / "back")
        run("qemu-img", "convert", "-f", "raw", "-O", "qcow2", image, packed)
        for form, source in (("raw", image), ("qcow2", packed)):
            with self.subTest(source=form):
                blob = self.blob(b"\xee" * len(data))
                run("qemu-img", "convert", "-n", "-f", form, "-O", "raw", source, self.nbdkit.uri(blob))
                self.assertTrue(self.content(blob) == data)
                run("qemu-img", "convert", "-f", "raw", "-O", form, self.nbdkit.uri(blob), back)
                run("qemu-img", "compare", "-f", form, "-F", "raw", back, image)
                run("qemu-img", "compare", "-f", "raw", "-F", form, self.nbdkit.uri(blob), source)

    @needs("nbdcopy")
    def test_copies_both_ways(self):
        data = os.urandom(5 * MIB + 1)
        blob, image, back = self.blob(bytes(len(data))), self.file(data), str(self.folder / "back")
        run("nbdcopy", "--flush", image, self.nbdkit.uri(blob))
        self.assertTrue(self.content(blob) == data)
        for name in (blob, "%d@%d" % (blob, self.store.recent(blob).version)):
            run("nbdcopy", self.nbdkit.uri(name), back)
            self.assertTrue(pathlib.Path(back).read_bytes() == data)

    @needs("qemu-io")
    def test_zeros_are_written_only_over_other_bytes(self):
        blob = self.blob(bytes(2 * MIB) + b"\x11" * MIB)
        for zeros, versions in (("write -z 0 2M", 0), ("discard 0 2M", 0), ("discard 2M 4K", 1), ("write -z 0 3M", 1), ("write -z 0 3M", 0)):
            with self.subTest(zeros=zeros):
                before = self.store.recent(blob).version
                self.nbdkit.io(blob, zeros)
                self.assertEqual(self.store.recent(blob).version - before, versions)
        self.assertTrue(self.content(blob) == bytes(3 * MIB))


class Gathered(Disks):
    @needs("qemu-io")
    def test_neighbours_are_one_version(self):
        script = ["write -P 7 %d 512" % offset for offset in range(0, 65536, 512)]
        blob, other = self.blob(bytes(131072)), self.blob(bytes(131072))
        self.nbdkit.io(blob, *script)
        with Nbdkit(self.server.address, "gather=256K") as nbdkit:
            nbdkit.io(other, *script)
        self.assertEqual(self.store.recent(blob).version, 129)
        self.assertLess(self.store.recent(other).version, 10)
        self.assertTrue(self.content(blob) == self.content(other) == b"\x07" * 65536 + bytes(65536))

    def wait_written(self, blob):
        end = time.monotonic() + 30
        while self.store.recent(blob).version == 1 and time.monotonic() < end:
            time.sleep(0.05)
        self.assertEqual(self.content(blob)[:513], b"\x07" * 512 + b"\0")

    @needs("qemu-io")
    def test_what_is_gathered_goes_out_after_a_second_and_at_the_end(self):
        later, closed, ended = (self.blob(bytes(4096)) for _ in range(3))
        with Nbdkit(self.server.address, "gather=64K") as nbdkit:
            with Guest(nbdkit.uri(later)) as guest:
                guest.does("write -P 7 0 512")
                self.wait_written(later)
            with Guest(nbdkit.uri(closed)) as guest:
                guest.does("write -P 7 0 512")
            self.wait_written(closed)
            with Guest(nbdkit.uri(ended)) as guest:
                guest.does("write -P 7 0 512")
                nbdkit.process.terminate()
        self.wait_written(ended)

    @needs("qemu-io")
    def test_a_new_connection_finds_what_is_gathered(self):
        blob = self.blob(bytes(4096))
        with Nbdkit(self.server.address, "gather=64K") as nbdkit, Guest(nbdkit.uri(blob)) as guest:
            guest.does("write -P 7 0 512")
            self.assertNotIn("failed", nbdkit.io(blob, "read -P 7 0 512"))


class OtherClients(Disks):
    @contextlib.contextmanager
    def waiting(self, guest, command):
        """Gives a command that isn't answered before the block has ended."""
        with concurrent.futures.ThreadPoolExecutor(1) as threads:
            answer = threads.submit(guest.does, command)
            self.assertRaises(concurrent.futures.TimeoutError, answer.result, 0.3)
            yield
            self.assertNotIn("failed", answer.result(30))

    @needs("qemu-io")
    def test_a_flush_waits_until_all_is_published(self):
        blob = self.blob(bytes(8192))
        with Guest(self.nbdkit.uri(blob)) as guest:
            for command in ("flush", "write -f -P 0x44 4096 512", "read -P 0x44 4096 512"):
                with self.subTest(command=command):
                    held = self.store.start_write(blob, 0, b"\x33" * 512)
                    guest.does("write -P 0x44 4096 512")
                    with self.waiting(guest, command):
                        self.assertEqual(self.store.recent(blob).version, held.version - 1)
                        self.store.finish(held.ticket)
                    self.assertEqual(self.content(blob)[4096:4608], b"\x44" * 512)

    @needs("qemu-io")
    def test_a_lost_writer_is_not_waited_for_without_an_end(self):
        blob = self.blob(bytes(8192))
        self.store.start_write(blob, 0, b"\x33" * 512)
        writes = ["write -P %d %d 100" % (number, number * 100) for number in range(6, 26)]
        said = self.nbdkit.io(blob, *writes, "read -P 0x33 0 512", "read -P 25 2500 100", "flush")
        self.assertNotIn("failed", said)
        self.assertEqual(self.store.status(blob), (22, 22, 0))

    @needs("qemu-io")
    def test_a_write_waits_where_as_many_updates_wait_as_may(self):
        with Server("--max-open", "1") as server, Nbdkit(server.address) as nbdkit, blobseer.connect(server.address) as store:
            blob = store.create()
            store.append(blob, bytes(4096))
            held = store.start_write(blob, 0, b"\x33" * 512)
            with Guest(nbdkit.uri(blob)) as guest, self.waiting(guest, "write -P 0x44 512 512"):
                store.finish(held.ticket)
            self.assertEqual(store.read(blob, 3, 0, 1024), b"\x33" * 512 + b"\x44" * 512)

    @needs("qemu-io")
    def test_a_server_with_few_places(self):
        with Server("--workers", "2") as server:
            with blobseer.connect(server.address) as store:
                store.append(store.create(), bytes(MIB))
            with Nbdkit(server.address, "connections=8", "timeout=2") as nbdkit:
                said = nbdkit.io(1, *("aio_write -P 9 %d 4096" % offset for offset in range(0, 65536, 4096)), "aio_flush", "read -P 9 0 65536")
                self.assertNotIn("failed", said)
                with blobseer.connect(server.address, timeout=30) as store:
                    self.assertEqual(store.recent(1).version, 17)


class Refusals(Disks):
    @needs("qemu-io")
    def test_a_blob_with_as_many_versions_as_it_may_have(self):
        with Server("--max-versions", "2") as server, blobseer.connect(server.address) as store:
            store.append(store.create(), bytes(4096))
            with Nbdkit(server.address) as nbdkit:
                said = nbdkit.io(1, "write -P 1 0 512", "write -P 2 512 512", "read -P 1 0 512", "read -P 0 512 512", status=1)
                self.assertEqual(said.count("failed"), 1)
                self.assertIn("write failed: No space left on device", said)
            branch = store.branch(1, 1)
            with Nbdkit(server.address, "gather=64K") as nbdkit:
                self.assertNotIn("failed", nbdkit.io(branch, "write -P 3 0 512", "flush"))
                # What was gathered is kept, and so what meets it is refused as often as it is asked.
                said = nbdkit.io(branch, "write -P 4 0 512", "flush", "read 0 512", "read 0 512", status=1)
                self.assertIn("wrote 512/512", said)
                self.assertEqual(said.count("read failed: No space left on device"), 2)

    @needs("nbdinfo")
    def test_a_blob_that_may_not_grow(self):
        with Server("--max-size", "4096") as server, blobseer.connect(server.address) as store, Nbdkit(server.address, "size=8K") as nbdkit:
            store.create()
            run("nbdinfo", nbdkit.uri(1), status=1)
            self.assertIn("blob-too-big", nbdkit.said)

    @needs("qemu-io")
    def test_a_server_that_is_lost_and_comes_again(self):
        with Server() as server, Nbdkit(server.address) as nbdkit:
            with blobseer.connect(server.address) as store:
                store.append(store.create(), b"\x11" * 4096)
            with Guest(nbdkit.uri(1)) as guest:
                self.assertIn("wrote 512/512", guest.does("write -P 0x12 0 512"))
                server.__exit__()
                self.assertIn("read failed: Input/output error", guest.does("read -P 0x11 512 512"))
                port = int(server.address.split(":")[1])
                with mock.patch.object(helpers, "free_port", return_value=port), Server() as again, blobseer.connect(again.address) as store:
                    store.append(store.create(), b"\x22" * 4096)
                    self.assertIn("write failed: Input/output error", guest.does("write 0 512"))
                    self.assertIn("read failed: Input/output error", guest.does("read -P 0x22 0 512"))
                    self.assertEqual(store.recent(1).version, 1)
            self.assertIn("version 2 of blob 1 is gone", nbdkit.said)


class Ext4(Disks):
    """A file system with two files, and a branch of it for each of two guests, of which each writes a file and removes one."""

    def setUp(self):
        super().setUp()
        files = self.folder / "files"
        files.mkdir()
        for name in ("kept", "removed"):
            (files / name).write_bytes(name.encode() * 5000)
        self.image = str(self.folder / "image")
        run("mke2fs", "-q", "-F", "-t", "ext4", "-b", "1024", "-d", str(files), self.image, "8M")
        self.base = pathlib.Path(self.image).read_bytes()
        self.blob_of_base = self.blob(self.base)
        version = self.store.recent(self.blob_of_base).version
        self.guests = {name: self.store.branch(self.blob_of_base, version) for name in ("one", "two")}

    def change(self, name, disk):
        """What a guest does with its disk, which is a file."""
        own = self.file(name.encode() * 100000, name)
        said = run("debugfs", "-w", "-f", "-", disk, text="write %s %s\nrm removed\n" % (own, name))
        self.assertNotIn("rror", said)

    def files_of(self, disk):
        run("e2fsck", "-f", "-n", disk)
        lines = run("debugfs", "-R", "ls -p /", disk).splitlines()
        return {line.split("/")[5] for line in lines if line.startswith("/")} - {".", "..", "lost+found"}

    def check(self):
        """The base is as it was, and each guest has its own file and not the other's."""
        self.assertTrue(self.content(self.blob_of_base) == self.base)
        self.assertEqual(self.files_of(self.image), {"kept", "removed"})
        for name, blob in self.guests.items():
            disk = self.file(self.content(blob), "disk")
            self.assertEqual(self.files_of(disk), {"kept", name})
            for file, content in ((name, name * 100000), ("kept", "kept" * 5000)):
                self.assertTrue(run("debugfs", "-R", "cat " + file, disk).endswith(content))

    @needs("mke2fs", "debugfs", "e2fsck", "nbdcopy", "qemu-io")
    def test_guests_that_write_what_they_changed(self):
        for name, blob in self.guests.items():
            disk = str(self.folder / "copy")
            run("nbdcopy", self.nbdkit.uri(blob), disk)
            self.change(name, disk)
            changed, script = pathlib.Path(disk).read_bytes(), []
            for begin in range(0, len(changed), 65536):
                piece = changed[begin:begin + 65536]
                if piece != self.base[begin:begin + 65536]:
                    script.append("write -s %s %d %d" % (self.file(piece, "piece%d" % begin), begin, len(piece)))
            self.assertNotIn("failed", self.nbdkit.io(blob, *script))
            self.assertTrue(self.content(blob) == changed)
        self.check()

    @needs("mke2fs", "debugfs", "e2fsck", "nbdfuse")
    def test_guests_on_disks_that_are_files(self):
        with Nbdkit(self.server.address, "gather=64K") as nbdkit, contextlib.ExitStack() as mounted:
            disks = [(name, mounted.enter_context(self.mounted(nbdkit.uri(blob), name))) for name, blob in self.guests.items()]
            for name, disk in disks:
                self.change(name, disk)
            for name, disk in disks:
                self.assertEqual(self.files_of(disk), {"kept", name})
        self.check()

    @contextlib.contextmanager
    def mounted(self, uri, name):
        disk = self.folder / ("mount-" + name) / "disk"
        disk.parent.mkdir()
        with subprocess.Popen(["nbdfuse", str(disk), uri], stderr=subprocess.PIPE) as process:
            try:
                while not disk.exists():
                    if process.poll() is not None:
                        self.skipTest("nbdfuse can't mount here: %s" % process.stderr.read().decode())
                    time.sleep(0.02)
                yield str(disk)
            finally:
                process.terminate()


class WithoutNbdkit(unittest.TestCase):
    @classmethod
    def setUpClass(cls):
        # Without what is nbdkit's own, the plugin is a module as others are.
        nbdkit = types.ModuleType("nbdkit")
        nbdkit.parse_size = int
        with mock.patch.dict(sys.modules, nbdkit=nbdkit):
            cls.plugin = importlib.import_module("blobseer_nbd")

    def test_options_that_are_wrong(self):
        for key, value in (("page", "1000"), ("page", "2"), ("gather", "16777217"), ("size", "1099511627777"), ("connections", "0"), ("timeout", "0"), ("size", "x"),
                           ("server", ""), ("colour", "red")):
            with self.subTest(option=key, value=value), self.assertRaises(ValueError):
                settings = self.plugin.Settings()
                settings.put("server", "127.0.0.1:1")
                settings.put(key, value)
                settings.check()

    def test_a_connection_is_left_before_the_server_ends_it(self):
        with Server() as server, blobseer.connect(server.address) as store:
            blob = store.create()
            store.append(blob, bytes(8192))
            for limit, value in (("MOST_SENT", 4096), ("LONGEST_SILENCE", 0), ("MOST_SENT", 1 << 30)):
                with self.subTest(limit=limit, value=value), mock.patch.object(self.plugin, limit, value):
                    with mock.patch.object(blobseer, "connect", side_effect=blobseer.connect) as connect:
                        pool = self.plugin.Pool(server.address, 1, 30)
                        disk = self.plugin.Disk(pool, self.plugin.Opened(blob, 1, 8192, True, False, ""))
                        for number in range(1, 5):
                            disk.write(0, memoryview(bytes([number]) * 8192))
                            room = bytearray(8192)
                            disk.read(memoryview(room), 0)
                            self.assertEqual(room, bytes([number]) * 8192)
                        pool.rest()
                        self.assertEqual(connect.call_count, {4096: 5, 0: 8, 1 << 30: 1}[value])

    def test_pieces_are_joined(self):
        for seed in range(60):
            draw, pieces, beside = random.Random(seed), self.plugin.Pieces(), {}
            for _ in range(draw.randint(1, 60)):
                offset, data = draw.randrange(200), os.urandom(draw.randint(1, 20))
                pieces.put(offset, memoryview(data))
                beside.update(zip(range(offset, offset + len(data)), data))
                begins = pieces.meeting(0, 1000)
                ends = [begin + len(pieces.get(begin)) for begin in begins]
                self.assertTrue(all(end < begin for end, begin in zip(ends, begins[1:])))
                self.assertEqual({begin + i: byte for begin in begins for i, byte in enumerate(pieces.get(begin))}, beside)
                self.assertEqual(pieces.count, len(beside))
                low = draw.randrange(220)
                self.assertEqual(pieces.meeting(low, low + 3), [one for one, end in zip(begins, ends) if one < low + 3 and low < end])


if __name__ == "__main__":
    unittest.main()
