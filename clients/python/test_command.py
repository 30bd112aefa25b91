"""Tests of the program: what it says where something is wrong, and what it prints."""
import contextlib
import io
import json
import os
import pty
import re
import socket
import subprocess
import time
import unittest

import blobseer
from blobseer import command, terminal
from helpers import CLIENT, HERE, ProgramCase, Relay, Server, free_port, played


class Words(unittest.TestCase):
    """Wrong words: one line on the error output, nothing on the other, and status 2."""

    def said(self, *words):
        out, error = io.StringIO(), io.StringIO()
        with contextlib.redirect_stdout(out), contextlib.redirect_stderr(error):
            status = blobseer.main(words)
        self.assertEqual(out.getvalue(), "")
        self.assertRegex(error.getvalue(), r"\Ablobseer: [^\n]+\n\Z")
        return status, error.getvalue()

    def test_wrong_numbers(self):
        for words in (("read", "-1"), ("read", "1", "-1"), ("read", "1", "1", "-1"), ("read", "1", "1", "0", "-3"), ("read", "18446744073709551616"),
                      ("read", "1" * 5000), ("status", "1.5"), ("status", "1_0"), ("status", "+1"), ("status", "٣"), ("status", ""), ("status", "a\nb"),
                      ("write", "1", "-1"), ("wait", "1", "-1"), ("wait", "1"), ("repair", "1", "-1"), ("follow", "1", "--from", "-1"),
                      ("read", "1", "--last", "-1"), ("read", "1", "1", "2", "--last", "3"), ("follow", "1", "--from", "1", "--last", "1")):
            with self.subTest(words=words):
                self.assertEqual(self.said("127.0.0.1:1", *words)[0], 2)

    def test_wrong_times(self):
        for option in ("--timeout", "--repair-after"):
            for time_ in ("-1", "nan", "inf", "-inf", "1e300", "1000001", "x", ""):
                with self.subTest(option=option, time=time_):
                    self.assertEqual(self.said("127.0.0.1:1", option, time_, "create")[0], 2)
                    self.assertEqual(self.said("127.0.0.1:1", "create", option, time_)[0], 2)
        self.assertEqual(self.said("127.0.0.1:1", "--timeout", "0", "create")[0], 2)
        self.assertEqual(self.said("127.0.0.1:1", "create", "--timeout")[0], 2)

    def test_wrong_addresses(self):
        for address in ("nowhere", "127.0.0.1:99999", "127.0.0.1:0", "127.0.0.1:-1", "127.0.0.1:", ":7440", "127.0.0.1:x", "127.0.0.1:²", "a..b:1",
                        "x" * 100 + ":1", "127.0.0.1:" + "9" * 5000, ""):
            with self.subTest(address=address):
                self.assertEqual(self.said(address, "create")[0], 2)
                self.assertRaises(ValueError, blobseer.connect, address)

    def test_other_wrong_words(self):
        for words in ((), ("127.0.0.1:1",), ("127.0.0.1:1", "size"), ("127.0.0.1:1", "create", "1"), ("create",), ("127.0.0.1:1", "--no", "create"),
                      ("127.0.0.1:1", "read", "1", "--json"), ("127.0.0.1:1", "follow", "1", "--json"), ("127.0.0.1:1", "blobs", "--dot")):
            with self.subTest(words=words):
                self.assertEqual(self.said(*words)[0], 2)

    def test_no_connection(self):
        status, told = self.said("127.0.0.1:%d" % free_port(), "create")
        self.assertEqual(status, 3)
        self.assertIn("no connection to", told)


class Ends(ProgramCase, unittest.TestCase):
    @classmethod
    def setUpClass(cls):
        cls.server = Server("--workers", "8").__enter__()
        cls.addClassCleanup(cls.server.__exit__)
        cls.address = cls.server.address

    def setUp(self):
        self.store = blobseer.connect(self.address)
        self.addCleanup(self.store.close)
        self.blob = self.store.create()

    def shell(self, line, **words):
        """Runs a line of bash, in which $client is the client with its address, and $blob the blob: the status and the two outputs."""
        done = subprocess.run(["bash", "-c", "set -o pipefail\n" + line], capture_output=True, timeout=60, env={
            **os.environ, "client": " ".join([*CLIENT, self.address]), "blob": str(self.blob), **words})
        return done.returncode, done.stdout.decode(), done.stderr.decode()

    def test_closed_streams(self):
        for line, told in (("$client append $blob <&-", "the standard input is closed"),
                           ("$client write $blob 0 <&-", "the standard input is closed"),
                           ("$client create >&-", "the standard output is closed"),
                           ("$client read $blob >&-", "the standard output is closed")):
            with self.subTest(line=line):
                self.assertEqual(self.shell(line), (4, "", "blobseer: %s\n" % told))
        self.assertEqual(self.shell("$client create 2>&- >&-"), (4, "", ""))
        self.assertEqual(self.shell("$client status 65535 2>&-"), (1, "", ""))
        self.assertEqual(self.store.recent(self.blob), (0, 0))
        self.assertRaises(blobseer.NoBlob, self.store.recent, self.blob + 1)

    def test_an_output_that_takes_nothing_more(self):
        self.store.append(self.blob, bytes(1 << 20))
        self.assertEqual(self.shell("$client read $blob | head -c 1 | tr '\\0' x"), (4, "x", "blobseer: nobody reads the standard output any more\n"))
        self.assertEqual(self.shell("$client status $blob >/dev/full"), (4, "", "blobseer: [Errno 28] No space left on device\n"))
        self.assertEqual(self.shell("$client --help >/dev/full"), (4, "", "blobseer: [Errno 28] No space left on device\n"))

    def test_a_server_that_answers_wrongly_or_not_at_all(self):
        with socket.create_server(("127.0.0.1", 0)) as listener:
            address = "127.0.0.1:%d" % listener.getsockname()[1]
            told = self.ran(address, "--timeout", "0.1", "create", status=3)
            self.assertEqual(told, "blobseer: the server didn't reply in time\n")
        for reply, line in ((b"\xff" * 8, "blobseer: a frame of 4294967295 bytes\n"),
                            (b"", "blobseer: the connection was lost: the server ended it\n")):
            with played(reply) as (host, port):
                self.assertEqual(self.ran("%s:%d" % (host, port), "create", status=3), line)

    def test_a_timeout_is_kept_by_every_wait(self):
        other = blobseer.connect(self.address)
        held = other.start_append(self.blob, b"a")
        self.store.append(self.blob, b"b")
        blob = str(self.blob)
        told = "blobseer: version 2 of blob %s isn't published\n" % blob
        self.assertEqual(self.ran(self.address, "wait", blob, "2", "--timeout", "0.1", status=3), told)
        for _ in range(62):
            other.start_append(self.blob, b"c")
        began = time.monotonic()
        told = self.ran(self.address, "append", blob, "--timeout", "0.2", data=b"d", status=3)
        self.assertEqual(told, "blobseer: version 1 of blob %s isn't published\n" % blob)
        self.assertLess(time.monotonic() - began, 20)
        other.finish(held.ticket)
        other.close()

    def test_repair_of_nothing_that_waits(self):
        blob = str(self.blob)
        self.assertEqual(self.ran(self.address, "repair", blob), b"nothing waits, published 0\n")
        self.store.start_append(self.blob, b"a")
        self.assertEqual(self.ran(self.address, "repair", blob), b"published 1\n")
        self.assertEqual(self.ran(self.address, "repair", blob, "--json"), b'{"repaired": null, "published": 1}\n')
        self.assertEqual(self.ran(self.address, "repair", blob, "1", status=1), "blobseer: refused: already 1\n")
        self.assertEqual(self.ran(self.address, "repair", blob, "2", status=1), "blobseer: refused: not-published 2 1\n")

    def test_a_repair_for_which_another_client_is_faster(self):
        self.store.start_append(self.blob, b"a")

        def cuts(_, operation):
            if operation == 16:
                self.store.repair(self.blob, 1)
            return False

        with Relay(self.server, cuts) as relay:
            self.assertEqual(self.ran(relay.address, "repair", str(self.blob)), b"nothing waits, published 1\n")

    def test_how_far_it_came(self):
        with Server("--max-versions", "2") as server:
            self.ran(server.address, "create")
            told = self.ran(server.address, "append", "1", data=bytes(3 << 20), status=1)
            self.assertEqual(told, "blobseer: refused: too-many-versions 2; done before: versions 1 to 2 bytes 2097152 size 2097152\n")

    def test_a_write_that_is_several_versions(self):
        data, blob = os.urandom((1 << 24) + 5), str(self.blob)
        done = subprocess.run([*CLIENT, self.address, "write", blob, "0"], input=data, capture_output=True)
        self.assertEqual(done.stdout, b"versions 1 to 2 at 0 bytes 16777221 size 16777221\n")
        self.assertRegex(done.stderr, rb"\Ablobseer: this isn't one version: [^\n]*\n\Z")
        self.assertTrue(self.ran(self.address, "read", blob) == data)
        self.assertEqual(self.ran(self.address, "write", blob, "16777221", "--json", data=b"x"),
                         b'{"offset": 16777221, "first": 3, "last": 3, "bytes": 1, "size": 16777222}\n')
        self.assertEqual(self.ran(self.address, "write", blob, "0", status=1), "blobseer: refused: empty-update\n")
        self.assertEqual(self.ran(self.address, "write", blob, "16777223", data=b"x", status=1),
                         "blobseer: refused: offset-past-size 16777223 16777222\n")


class Prints(ProgramCase, unittest.TestCase):
    @classmethod
    def setUpClass(cls):
        cls.server = Server().__enter__()
        cls.addClassCleanup(cls.server.__exit__)
        cls.address = cls.server.address
        # Blob 1 has a version that is written over and two that wait, and blob 2 is a branch.
        cls.store = blobseer.connect(cls.address)
        cls.addClassCleanup(cls.store.close)
        cls.store.create()
        cls.store.append(1, b"one log")
        cls.store.write(1, 0, b"ONE")
        cls.store.branch(1, 1)
        cls.store.start_append(1, b"!")
        cls.store.append(1, b"?")

    def test_what_there_is(self):
        said = (("versions", "1"), "1 size 7 grew 7\n2 size 7 grew 0\n3 unfinished\n4 waiting\n"), (("log", "1"), "1 7\n2 7\n"), \
            (("blobs",), "blob 1 version 2 size 7\nblob 2 version 1 size 7\n"), \
            (("tree", "--quiet"), "%s\n|-- blob 1 version 2 size 7\n`-- blob 2 version 1 size 7\n" % self.address), \
            (("tree", "--dot", "--quiet"), 'digraph blobs {\n    node [shape=box];\n    blob1 [label="blob 1\\nversion 2\\nsize 7"];\n'
                                           '    blob2 [label="blob 2\\nversion 1\\nsize 7"];\n}\n')
        for words, text in said:
            with self.subTest(words=words):
                self.assertEqual(self.ran(self.address, *words).decode(), text)

    def test_the_tree_says_what_it_does_not_know(self):
        done = subprocess.run([*CLIENT, self.address, "tree"], capture_output=True)
        self.assertIn(b"doesn't tell which blobs are branches", done.stderr)

    def test_objects_of_json(self):
        for words, lines in ((("status", "1"), [{"assigned": 4, "published": 2, "held": 3}]),
                             (("log", "1"), [{"version": 1, "size": 7}, {"version": 2, "size": 7}]),
                             (("versions", "1"), [{"version": 1, "size": 7, "grown": 7, "state": "published"},
                                                  {"version": 2, "size": 7, "grown": 0, "state": "published"},
                                                  {"version": 3, "size": None, "grown": None, "state": "unfinished"},
                                                  {"version": 4, "size": None, "grown": None, "state": "waiting"}]),
                             (("blobs",), [{"blob": 1, "version": 2, "size": 7}, {"blob": 2, "version": 1, "size": 7}]),
                             (("tree",), [{"blob": 1, "version": 2, "size": 7}, {"blob": 2, "version": 1, "size": 7}]),
                             (("wait", "1", "2"), [{"published": 2}])):
            with self.subTest(words=words):
                self.assertEqual([json.loads(line) for line in self.ran(self.address, *words, "--json").splitlines()], lines)
        with Server() as server:
            for words, data, told in ((("create",), b"", {"blob": 1}), (("append", "1"), b"abc", {"first": 1, "last": 1, "bytes": 3, "size": 3}),
                                      (("append", "1"), b"", {"first": None, "last": None, "bytes": 0, "size": 3}), (("branch", "1"), b"", {"blob": 2})):
                self.assertEqual(json.loads(self.ran(server.address, "--json", *words, data=data)), told)

    def test_the_last_bytes(self):
        self.assertEqual(self.ran(self.address, "read", "1", "--last", "3"), b"log")
        self.assertEqual(self.ran(self.address, "read", "1", "1", "--last", "100"), b"one log")
        self.assertEqual(self.ran(self.address, "read", "1", "--last", "0"), b"")

    def test_the_address_of_the_environment(self):
        self.assertEqual(self.ran(None, "--timeout", "9", "log", "1", BLOBSEER=self.address), b"1 7\n2 7\n")
        self.assertEqual(self.ran(self.address, "log", "1", BLOBSEER="nowhere"), b"1 7\n2 7\n")
        self.assertIn("HOST:PORT", self.ran(None, "create", status=2, BLOBSEER="nowhere"))
        self.assertIn("usage:", self.ran(None, "append", "--help").decode())
        os.environ["BLOBSEER"] = self.address
        try:
            with blobseer.connect() as store:
                self.assertEqual(store.size(1, 1), 7)
        finally:
            del os.environ["BLOBSEER"]
        self.assertRaises(ValueError, blobseer.connect)

    def test_help_and_version(self):
        self.assertEqual(self.ran(None, "--version"), b"blobseer %s\n" % blobseer.__version__.encode())
        told = self.help()
        for name in command._COMMANDS:
            self.assertIn("\n    %s" % name, told)

    @staticmethod
    def help(*words):
        """What --help prints, with some words before it."""
        out = io.StringIO()
        with contextlib.redirect_stdout(out):
            blobseer.main([*words, "--help"])
        return out.getvalue()

    def completed(self, *words):
        script = 'source "$0"; COMP_WORDS=("$@"); COMP_CWORD=$(($# - 1)); _blobseer; printf "%s\\n" "${COMPREPLY[@]}"'
        return subprocess.run(["bash", "-c", script, str(HERE / "completion.bash"), *words], stdout=subprocess.PIPE, check=True).stdout.decode().split()

    def test_completion(self):
        self.assertEqual(self.completed("blobseer", "h:1", "re"), ["read", "repair"])
        self.assertEqual(self.completed("blobseer", "read", "--l"), ["--last"])
        self.assertEqual(self.completed("blobseer", "127.0.0.1", ":", "7440", "follow", "1", "--f"), ["--from"])
        for name in ("", *command._COMMANDS):
            offered = set(self.completed("blobseer", *([name] if name else []), ""))
            told = set(re.findall("--[a-z-]+", self.help(*([name] if name else []))))
            with self.subTest(command=name):
                self.assertEqual(offered, told | set(() if name else command._COMMANDS))


class Terminal(unittest.TestCase):
    """The line of progress."""

    class Screen(io.StringIO):
        def isatty(self):
            return True

    def shown(self, total, *counts, **words):
        """What a transfer shows that is told of counts, one a second."""
        now = [0.0]
        screen = words.pop("stream", self.Screen())
        progress = terminal.Progress("read", total, stream=screen, clock=lambda: now[0], **words)
        for count in counts:
            now[0] += 1.0
            progress(count)
        progress.end()
        return screen.getvalue().replace("\x1b[K", "").split("\r")

    def test_bytes_rate_and_time_left(self):
        self.assertEqual(self.shown(30000000, 10000000, 20000000), [
            "", "read 10.0 MB of 30.0 MB, 10.0 MB a second, 2 s left", "read 20.0 MB of 30.0 MB, 10.0 MB a second, 1 s left", ""])
        self.assertEqual(self.shown(None, 500, 2000), ["", "read 500 B, 500 B a second", "read 2.0 kB, 1.0 kB a second", ""])
        self.assertEqual(self.shown(100, 0), ["", "read 0 B of 100 B, 0 B a second, ? left", ""])
        self.assertEqual(self.shown(10**15, 10**11)[1], "read 100 GB of 1000 TB, 100 GB a second, 2:46:39 left")
        self.assertEqual(self.shown(90, 1)[1], "read 1 B of 90 B, 1 B a second, 1:29 min left")

    def test_nothing_where_nobody_looks(self):
        self.assertEqual(self.shown(None, 1, stream=io.StringIO()), [""])
        self.assertEqual(self.shown(None, 1, quiet=True), [""])

    def test_a_message_has_a_line_of_its_own(self):
        with Server("--max-versions", "1") as server, blobseer.connect(server.address) as store:
            store.create()
            screen, end = pty.openpty()
            with subprocess.Popen([*CLIENT, server.address, "append", "1"], stdin=subprocess.PIPE, stdout=subprocess.DEVNULL, stderr=end) as process:
                os.close(end)
                process.stdin.write(b"slow")
                process.stdin.flush()
                shown = b""
                while b"appended" not in shown:
                    shown += os.read(screen, 4096)
                process.stdin.write(b"more")
                process.stdin.close()
                with contextlib.suppress(OSError):
                    while True:
                        shown += os.read(screen, 4096)
            os.close(screen)
        self.assertEqual(process.returncode, 1)
        self.assertRegex(shown, b"\\A\rappended 4 B, \\d B a second\x1b\\[K\r\x1b\\[Kblobseer: refused: [^\r\n]*\r\n\\Z")
