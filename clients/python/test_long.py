"""Tests of what is long: files of any length, connections that are used up or lost, inputs that come slowly, and logs that are followed."""
import array
import io
import itertools
import mmap
import os
import pickle
import shutil
import signal
import subprocess
import tarfile
import tempfile
import threading
import time
import unittest

import blobseer
from blobseer import errors
from helpers import CLIENT, ProgramCase, Relay, Server, eventually

APPEND, WRITE, READ, SIZE, STATUS, HELLO = 2, 3, 7, 9, 11, 14


class Short(blobseer.Client):
    """A client of a server that takes a mebibyte from a connection."""

    MOST_SENT = 1 << 20


class Hurried(blobseer.Client):
    """A client of a server that cuts a connection after a second of silence."""

    PATIENCE = 1.0


class LongCase(unittest.TestCase):
    @classmethod
    def setUpClass(cls):
        cls.server = Server("--workers", "16", "--page", "256").__enter__()
        cls.addClassCleanup(cls.server.__exit__)

    def setUp(self):
        self.store = blobseer.connect(self.server.address)
        self.addCleanup(self.store.close)
        self.blob = self.store.create()

    def relay(self, **words):
        relay = Relay(self.server, **words).__enter__()
        self.addCleanup(relay.__exit__)
        return relay

    def client(self, relay, kind=blobseer.Client, **words):
        client = kind(relay.address, **words)
        self.addCleanup(client.close)
        return client

    def content(self):
        version, size = self.store.recent(self.blob)
        out = io.BytesIO()
        self.store.read_to(out, self.blob, version)
        self.assertEqual(len(out.getvalue()), size)
        return out.getvalue()


def once(operation):
    """Cuts a connection before the first frame of an operation."""
    left = [1]

    def cuts(_, one):
        if one == operation and left:
            left.pop()
            return True
        return False

    return cuts


class Calls(LongCase):
    """Calls that are wrong, and errors as values."""

    def test_wrong_numbers_raise(self):
        store, blob = self.store, self.blob
        store.append(blob, b"abc")
        out = io.BytesIO()
        for call in (lambda: store.read(blob, 1, 0, -3), lambda: store.read(blob, 1, -1, 1), lambda: store.read(1 << 64, 1, 0, 1),
                     lambda: store.write(blob, -1, b"x"), lambda: store.finish(-1), lambda: store.pipeline().recent(-1),
                     lambda: store.read_to(out, blob, 1, 0, -3), lambda: store.read_to(out, blob, 1, -1), lambda: store.read_to(out, blob, 1, piece=0),
                     lambda: store.read_to(out, blob, 1, piece=(1 << 24) + 1), lambda: store.append_from(blob, io.BytesIO(b"x"), piece=0),
                     lambda: store.append_from(blob, io.BytesIO(b"x"), piece=-1), lambda: store.write_from(blob, 0, io.BytesIO(b"x"), piece=1 << 25),
                     lambda: next(store.follow(blob, -1)), lambda: store.wait_published(blob, 1, -1), lambda: store.open(blob, 1).seek(-1),
                     lambda: store.open(blob, 1).seek(0, 7), lambda: blobseer.connect(self.server.address, timeout=0),
                     lambda: blobseer.connect(self.server.address, timeout=float("nan")), lambda: blobseer.connect(self.server.address, repair_after=-1),
                     lambda: blobseer.connect(("127.0.0.1", 0)), lambda: blobseer.Pool(self.server.address, size=0)):
            self.assertRaises(ValueError, call)
        self.assertRaises(TypeError, store.read, blob, 1, 0, 1.5)
        self.assertEqual(store.recent(blob), (1, 3))

    def test_ranges_past_the_end_write_nothing(self):
        self.store.append(self.blob, b"abc")
        for offset, length, end in ((4, None, 4), (0, 4, 4), (3, 1, 4), (1 << 63, 1 << 63, 1 << 64)):
            out = io.BytesIO()
            with self.assertRaises(blobseer.RangePastSize) as caught:
                self.store.read_to(out, self.blob, 1, offset, length, piece=1)
            self.assertEqual(caught.exception.numbers, (end, 3))
            self.assertEqual(out.getvalue(), b"")
        self.assertEqual(self.store.read_to(io.BytesIO(), self.blob, 1, 3), 0)

    def test_an_update_that_is_too_long_has_one_name(self):
        with tempfile.TemporaryFile() as file:
            file.truncate((1 << 32) + 5)
            with mmap.mmap(file.fileno(), 0, access=mmap.ACCESS_READ) as long:
                for data in (bytes(16777217), bytes(17825792), bytes(17825793), long):
                    for call in (self.store.append, self.store.start_append, lambda blob, data: self.store.write(blob, 0, data),
                                 lambda blob, data: self.store.pipeline().append(blob, data).result()):
                        with self.assertRaises(blobseer.UpdateTooLong) as caught:
                            call(self.blob, data)
                        self.assertEqual(caught.exception.bytes, len(data))
                        del caught
        with blobseer.connect(self.server.address, version=1) as older:
            for count in (1048577, 2097152 - 9, 2097152 - 8, 2097153):
                self.assertRaises(blobseer.UpdateTooLong, older.append, self.blob, bytes(count))
            self.assertEqual(older.append_from(self.blob, io.BytesIO(bytes(1048577)), piece=1 << 24).last, 2)
        self.assertEqual(self.store.recent(self.blob), (2, 1048577))

    def test_errors_are_pickled(self):
        for kind in errors.REFUSALS.values():
            error = kind(*range(5, 5 + len(kind.fields)))
            again = pickle.loads(pickle.dumps(error))
            self.assertIs(type(again), kind)
            self.assertEqual((again.numbers, str(again), vars(again)), (error.numbers, str(error), vars(error)))
            self.assertIs(getattr(blobseer, kind.__name__), kind)
        error = blobseer.ConnectionLost("gone")
        error.done = blobseer.Appended(1, 2, 3, 4)
        again = pickle.loads(pickle.dumps(error))
        self.assertEqual((type(again), str(again), again.done), (blobseer.ConnectionLost, "gone", (1, 2, 3, 4)))

    def test_other_buffers(self):
        numbers = array.array("I", range(100))
        self.store.append(self.blob, numbers)
        again = array.array("I", bytes(400))
        self.store.read_into(self.blob, 1, 0, again)
        self.assertEqual(numbers, again)

    def test_a_file_that_does_not_wait(self):
        inner, outer = os.pipe()
        os.set_blocking(inner, False)
        with open(inner, "rb") as file, open(outer, "wb"):
            self.assertRaises(BlockingIOError, self.store.append_from, self.blob, file)

    def test_a_file_without_a_buffer(self):
        data = os.urandom(300000)
        self.store.append(self.blob, data)
        inner, outer = os.pipe()
        came = []
        with open(inner, "rb") as pipe:
            thread = threading.Thread(target=lambda: came.append(pipe.read()))
            thread.start()
            with open(outer, "wb", buffering=0) as file:
                self.store.read_to(file, self.blob, 1)
            thread.join()
        self.assertTrue(came == [data])


class UsedUp(LongCase):
    """Connections that have sent all that they may, or that were silent."""

    def test_more_bytes_than_a_connection_may_send(self):
        relay = self.relay()
        store = self.client(relay, Short)
        data = os.urandom(5000000)
        self.assertEqual(store.append_from(self.blob, io.BytesIO(data), piece=300000)[1:3], (17, len(data)))
        self.assertTrue(self.content() == data)
        self.assertEqual(store.write_from(self.blob, 7, io.BytesIO(data), piece=500000)[1:3], (27, len(data)))
        self.assertTrue(self.content() == data[:7] + data)
        with store.pipeline() as requests:
            replies = [requests.append(self.blob, bytes(100000)) for _ in range(40)]
        self.assertEqual([reply.result().version for reply in replies], list(range(28, 68)))
        self.assertGreater(len(relay.sent()), 12)
        self.assertLessEqual(max(relay.sent()), Short.MOST_SENT)
        self.assertEqual(relay.operations().count(APPEND), 57)

    def test_tickets_stay_on_their_connection(self):
        relay = self.relay()
        store = self.client(relay, Short)
        held = store.start_append(self.blob, bytes(900000))
        store.append(self.blob, bytes(120000))
        self.assertRaisesRegex(blobseer.Error, "holds tickets", store.append, self.blob, bytes(100000))
        self.assertEqual(store.finish(held.ticket), 2)
        store.append(self.blob, bytes(100000))
        self.assertEqual(len(relay.sent()), 2)

    def test_a_silence(self):
        relay = self.relay(patience=1.0)
        store = self.client(relay, Hurried)
        self.assertEqual(store.append(self.blob, b"before").version, 1)
        time.sleep(1.2)
        self.assertEqual(store.append(self.blob, b"after").version, 2)
        self.assertEqual(relay.operations(), [HELLO, APPEND, HELLO, APPEND])
        store.start_append(self.blob, b"held")
        time.sleep(1.2)
        self.assertRaises(blobseer.ConnectionLost, store.append, self.blob, b"never")
        self.assertTrue(store.closed)

    def test_a_pipeline_is_bounded_by_bytes(self):
        self.assertEqual(blobseer.Pipeline.AHEAD_BYTES, 64 << 20)
        requests, channel = self.store.pipeline(), self.store._session.live()
        channel.AHEAD_BYTES = 1 << 20
        most, replies = [], []
        for count in range(3, 300000, 9999):
            requests.append(self.blob, bytes(count))
            most.append(sum(reply.request.weight for reply in channel.awaited))
        for count in range(3, 300000, 9999):
            replies.append(requests.read(self.blob, 30, 0, count))
            most.append(sum(reply.request.weight for reply in channel.awaited))
        self.assertLessEqual(max(most), channel.AHEAD_BYTES)
        for _ in range(3000):
            requests.recent(self.blob)
            self.assertLessEqual(len(channel.awaited), requests.AHEAD)
        requests.wait()
        self.assertEqual([len(reply.result()) for reply in replies], list(range(3, 300000, 9999)))


class Lost(LongCase):
    """Connections that are lost while a file is sent or received."""

    def appended(self, cuts, count=3, **words):
        """A relay, after pieces were appended over it."""
        relay = self.relay(cuts=cuts)
        store = self.client(relay, **words)
        pieces = [b"piece %d;" % number for number in range(count)]
        self.assertEqual([update.version for update in store.append_each(self.blob, pieces)], list(range(1, count + 1)))
        self.assertEqual(self.content(), b"".join(pieces))
        return relay

    def test_an_append_whose_reply_is_lost_was_done(self):
        relay = self.appended(once(130))
        self.assertEqual(relay.operations().count(APPEND), 3)

    def test_an_append_that_is_lost_itself_is_sent_again(self):
        relay = self.appended(once(APPEND))
        self.assertEqual(relay.operations().count(APPEND), 4)

    def test_an_append_that_fails_is_told_with_how_far_it_came(self):
        relay = self.relay(cuts=lambda connection, operation: operation == APPEND and connection >= 1 or connection == 0 and len(relay.frames) > 3)
        store = self.client(relay)
        with self.assertRaises(blobseer.ConnectionLost) as caught:
            list(store.append_each(self.blob, [b"a", b"b", b"c"]))
        self.assertEqual(caught.exception.done, (1, 1, 1, 1))
        self.assertEqual(self.content(), b"a")

    def test_other_updates_in_between_are_told_apart(self):
        for others, again in (([b"other"], 4), ([b"pieceX0;"], 4), ([b"piece 0;"], 3)):
            with self.subTest(others=others):
                self.blob = self.store.create()

                def cuts(_, operation, first=once(APPEND)):
                    lost = first(_, operation)
                    if lost:
                        for data in others:
                            self.store.append(self.blob, data)
                    return lost

                relay = self.relay(cuts=cuts)
                pieces = [b"piece %d;" % number for number in range(3)]
                list(self.client(relay).append_each(self.blob, pieces))
                self.assertEqual(relay.operations().count(APPEND), again)
                self.assertEqual(self.content(), b"".join([*others, *pieces] if again == 4 else pieces))

    def test_what_cannot_be_told_apart_is_unknown(self):
        def cuts(_, operation, first=once(APPEND)):
            lost = first(_, operation)
            if lost:
                self.store.append(self.blob, b"same")
                self.store.append(self.blob, b"same")
            return lost

        store = self.client(self.relay(cuts=cuts))
        with self.assertRaisesRegex(blobseer.ConnectionLost, "whether 4 bytes behind version 0 were stored isn't known") as caught:
            store.append_from(self.blob, io.BytesIO(b"same"))
        self.assertEqual(caught.exception.done, (None, None, 0, None))
        self.assertEqual(self.content(), b"samesame")

    def test_a_write_whose_reply_is_lost(self):
        self.store.append(self.blob, bytes(20))
        data = bytes(range(1, 31))
        for operation, count in ((131, 3), (WRITE, 4)):
            with self.subTest(operation=operation):
                relay = self.relay(cuts=once(operation))
                done = self.client(relay).write_from(self.blob, 5, io.BytesIO(data), piece=10)
                self.assertEqual((done.last - done.first, done.bytes, done.size), (2, 30, 35))
                self.assertEqual(relay.operations().count(WRITE), count)
                self.assertEqual(self.content(), bytes(5) + data)
                data = data[::-1]

    def test_a_write_of_what_was_there_before(self):
        self.store.append(self.blob, b"abc")
        with self.assertRaisesRegex(blobseer.ConnectionLost, "isn't known"):
            self.client(self.relay(cuts=once(131))).write_from(self.blob, 0, io.BytesIO(b"abc"))
        done = self.client(self.relay(cuts=once(WRITE))).write_from(self.blob, 0, io.BytesIO(b"abc"))
        self.assertEqual(done, (3, 3, 3, 3))

    def test_a_read_goes_on(self):
        data = os.urandom(3000000)
        self.store.append(self.blob, data)
        counts = itertools.count()
        relay = self.relay(cuts=lambda _, operation: operation == 135 and next(counts) in (2, 9))
        out, told = io.BytesIO(), []
        self.assertEqual(self.client(relay).read_to(out, self.blob, 1, 1000, piece=100000, progress=told.append), 2999000)
        self.assertTrue(out.getvalue() == data[1000:])
        self.assertEqual(told, sorted(set(told)))
        self.assertEqual(relay.operations().count(HELLO), 3)

    def test_a_server_that_was_started_anew(self):
        with Server() as server:
            relay = Relay(server, cuts=lambda connection, operation: operation == 135)
            with relay, blobseer.connect(relay.address) as store:
                store.append_from(store.create(), io.BytesIO(b"abc"))
                relay._server = ("127.0.0.1", int(self.server.address.split(":")[1]))
                self.store.append(1, b"other") if self.blob == 1 else None
                with self.assertRaises(blobseer.ConnectionLost):
                    store.read_to(io.BytesIO(), 1, 1)
                store.close()

    def test_a_server_that_is_gone(self):
        with Server() as server:
            store = blobseer.connect(server.address)
            store.create()

            def pieces():
                yield b"a"
                server.process.kill()
                server.process.wait()
                yield b"b"

            with self.assertRaisesRegex(blobseer.ConnectionLost, "no new connection") as caught:
                list(store.append_each(1, pieces()))
            self.assertEqual(caught.exception.done, (1, 1, 1, 1))


class Slow(ProgramCase, LongCase):
    """Inputs that come slowly."""

    def test_a_slow_job_s_lines_appear(self):
        blob = str(self.blob)
        with self.running(self.server.address, "append", blob) as process:
            process.stdin.write(b"one\n")
            process.stdin.flush()
            self.assertTrue(eventually(lambda: self.content() == b"one\n"))
            process.stdin.write(b"two\n")
            process.stdin.flush()
            self.assertTrue(eventually(lambda: self.content() == b"one\ntwo\n"))
            out, error = process.communicate(b"three", timeout=60)
        self.assertEqual((process.returncode, out, error), (0, b"versions 1 to 3 bytes 13 size 13\n", b""))

    def test_ctrl_c_loses_nothing(self):
        blob = str(self.blob)
        with self.running(self.server.address, "append", blob) as process:
            process.stdin.write(b"first;")
            process.stdin.flush()
            self.assertTrue(eventually(lambda: self.content() == b"first;"))
            process.stdin.write(b"last;")
            process.stdin.flush()
            process.send_signal(signal.SIGINT)
            self.assertEqual(process.wait(60), 130)
            self.assertEqual((process.stdout.read(), process.stderr.read()), (b"versions 1 to 2 bytes 11 size 11\n", b""))
        self.assertEqual(self.content(), b"first;last;")

    def test_a_connection_is_kept_alive(self):
        code = "import sys, blobseer.terminal as t; t.ALIVE = 0.2; import blobseer; sys.exit(blobseer.main())"
        relay = self.relay(patience=2.0)
        words = [CLIENT[0], "-c", code, relay.address, "append", str(self.blob)]
        with subprocess.Popen(words, stdin=subprocess.PIPE, stdout=subprocess.PIPE, cwd=os.path.dirname(CLIENT[1])) as process:
            self.assertTrue(eventually(lambda: relay.operations().count(STATUS) > 12))
            self.assertEqual(process.communicate(b"end", timeout=60)[0], b"versions 1 to 1 bytes 3 size 3\n")
        self.assertEqual(relay.operations().count(HELLO), 1)


class Follows(ProgramCase, LongCase):
    def followed(self, store, count, first=1):
        return list(itertools.islice(store.follow(self.blob, first), count))

    def test_each_version_with_its_bytes(self):
        self.store.append(self.blob, b"one ")
        self.store.append(self.blob, b"two ")
        self.store.write(self.blob, 0, b"ONE")
        self.store.write(self.blob, 6, b"O  three")
        told = [(1, b"one "), (2, b"two "), (3, b""), (4, b" three"), (5, b"five")]
        threading.Timer(0.3, self.store.append, [self.blob, b"five"]).start()
        self.assertEqual(self.followed(self.client(self.relay()), 5), told)

    def test_it_looks_seldom_and_asks_for_nothing_twice(self):
        relay = self.relay()
        store = self.client(relay)
        appends = [threading.Timer(0.1 * number, self.store.append, [self.blob, b"%d;" % number]) for number in range(12)]
        for one in appends:
            one.start()
            one.join() if one is appends[-1] else None
        versions = self.followed(store, 12)
        self.assertEqual(len(versions), 12)
        self.assertEqual(b"".join(data for _, data in versions), self.content())
        looks = [one[1] for one in relay.frames if one[2] == STATUS]
        self.assertLessEqual(0.1 * (len(looks) - 1), looks[-1] - looks[0] + 0.3)
        self.assertEqual(relay.operations().count(READ), 12)
        self.assertEqual(relay.operations().count(SIZE), 12)

    def test_it_goes_on_where_a_connection_is_lost(self):
        for number in range(300):
            self.store.append(self.blob, b"%d;" % number)
        counts = itertools.count()
        relay = self.relay(cuts=lambda _, operation: operation == 135 and next(counts) == 100)
        told = self.followed(self.client(relay), 290, first=11)
        self.assertEqual(told, [(number + 1, b"%d;" % number) for number in range(10, 300)])

    def test_a_version_that_is_not_there_yet(self):
        threading.Timer(0.2, lambda: [self.store.append(self.blob, data) for data in (b"a", b"b", b"c")]).start()
        self.assertEqual(self.followed(self.client(self.relay()), 2, first=2), [(2, b"b"), (3, b"c")])

    def test_it_repairs_what_holds_it_back(self):
        self.store.start_append(self.blob, b"held")
        store = self.client(self.relay(), repair_after=0.2)
        self.assertEqual(self.followed(store, 1), [(1, b"held")])

    def test_the_program_follows_until_ctrl_c(self):
        self.store.append(self.blob, b"before ")
        for words, old, new in (((), b"before ", b"one "), (("--from", "2"), b"one ", b"two "), (("--last", "5"), b" two ", b"three")):
            with self.running(self.server.address, "follow", str(self.blob), *words) as process:
                self.assertEqual(process.stdout.read(len(old)), old)
                self.store.append(self.blob, new)
                self.assertEqual(process.stdout.read(len(new)), new)
                process.send_signal(signal.SIGINT)
                self.assertEqual(process.wait(60), 130)
                self.assertEqual(process.stderr.read(), b"")


class Files(LongCase):
    """Versions as files."""

    def test_a_file_over_a_version(self):
        data = os.urandom(100000)
        self.store.append(self.blob, data)
        self.store.append(self.blob, b"later")
        with self.store.open(self.blob, 1) as file:
            self.assertIsInstance(file, io.RawIOBase)
            self.assertEqual((file.readable(), file.seekable(), file.writable(), file.size), (True, True, False, 100000))
            self.assertEqual((file.read(10), file.tell(), file.seek(-5, 2), file.read(10), file.read(10)), (data[:10], 10, 99995, data[-5:], b""))
            self.assertEqual((file.seek(5), file.seek(5, 1), file.seek(1, 2), file.read(), file.seek(99990), file.readall()),
                             (5, 10, 100001, b"", 99990, data[-10:]))
            room = bytearray(20)
            file.seek(99990)
            self.assertEqual((file.readinto(room), bytes(room)), (10, data[-10:] + bytes(10)))
        self.assertRaises(ValueError, file.read)
        self.assertRaises(ValueError, file.tell)
        self.assertEqual(self.store.open(self.blob).readall(), data + b"later")

    def test_what_takes_files(self):
        lines = b"".join(b"line %d\n" % number for number in range(5000))
        archive = io.BytesIO()
        with tarfile.open(fileobj=archive, mode="w:gz") as tar:
            for name in ("a", "b"):
                member = tarfile.TarInfo(name)
                member.size = len(lines)
                tar.addfile(member, io.BytesIO(lines))
        self.store.append(self.blob, archive.getvalue())
        with tarfile.open(fileobj=self.store.open(self.blob)) as tar:
            self.assertEqual(tar.getnames(), ["a", "b"])
            self.assertEqual(tar.extractfile("b").read(), lines)
        out = io.BytesIO()
        shutil.copyfileobj(self.store.open(self.blob), out)
        self.assertEqual(out.getvalue(), archive.getvalue())
        self.blob = self.store.create()
        self.store.append(self.blob, lines)
        self.assertEqual(list(io.BufferedReader(self.store.open(self.blob))), lines.splitlines(True))
        self.assertEqual(io.TextIOWrapper(io.BufferedReader(self.store.open(self.blob))).read(), lines.decode())


class Pools(LongCase):
    def test_threads_share_clients(self):
        with blobseer.Pool(self.server.address, size=3) as pool:
            used = set()

            def work(number):
                for _ in range(20):
                    with pool.client() as store:
                        used.add(store)
                        store.append(self.blob, b"%d;" % number)

            threads = [threading.Thread(target=work, args=[number]) for number in range(8)]
            for thread in threads:
                thread.start()
            for thread in threads:
                thread.join()
        self.assertLessEqual(len(used), 3)
        self.assertTrue(all(store.closed for store in used))
        self.assertEqual(sorted(self.content().split(b";")[:-1]), sorted([b"%d" % number for number in range(8)] * 20))

    def test_a_client_is_not_lent_again(self):
        with blobseer.Pool(self.server.address, size=1) as pool:
            with pool.client() as first:
                pass
            with pool.client() as same:
                self.assertIs(first, same)
                same.start_append(self.blob, b"held")
            self.assertTrue(same.closed)
            with pool.client() as other:
                self.assertIsNot(other, same)
                self.assertEqual(other.wait_published(self.blob, 1), 1)
                other.pipeline().recent(self.blob)
            self.assertTrue(other.closed)
            with self.assertRaises(ZeroDivisionError), pool.client() as third:
                raise ZeroDivisionError
            with pool.client() as again:
                self.assertIs(third, again)
                pool.close()
                self.assertFalse(again.closed)
            self.assertTrue(again.closed)
            with self.assertRaises(ValueError), pool.client():
                pass


if __name__ == "__main__":
    unittest.main()
