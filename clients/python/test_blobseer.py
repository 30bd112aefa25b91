"""Tests of the client against the built server, and against servers that answer wrongly.

The program is that of the variable BLOBSEER_PROGRAM, or crates/blobseer/out/blobseer of this repository.
"""
import concurrent.futures
import contextlib
import io
import os
import random
import socket
import struct
import subprocess
import threading
import time
import unittest

import blobseer
from helpers import CLIENT, PROGRAM, ProgramCase, Server, frame, free_port, host_and_port, played


class Requests(unittest.TestCase):
    @classmethod
    def setUpClass(cls):
        cls.server = Server("--workers", "8").__enter__()
        cls.addClassCleanup(cls.server.__exit__)

    def setUp(self):
        self.store = blobseer.connect(self.server.address)
        self.addCleanup(self.store.close)

    def refused(self, kind, numbers, call, *arguments):
        with self.assertRaises(kind) as caught:
            call(*arguments)
        self.assertEqual(caught.exception.numbers, numbers)
        return caught.exception

    def test_each_request(self):
        store = self.store
        log = store.create()
        self.assertEqual(store.append(log, b"one log"), (1, 0, 7))
        self.assertEqual(store.write(log, 0, b"ONE"), (2, 0, 7))
        self.assertEqual(store.read(log, 1, 0, 7), b"one log")
        self.assertEqual(store.read(log, 2, 0, 7), b"ONE log")
        self.assertEqual(store.recent(log), blobseer.Recent(2, 7))
        self.assertEqual(store.size(log, 1), 7)
        self.assertEqual(store.sync(log, 2), 2)
        started = store.start_append(log, b"!")
        self.assertEqual(started, (1, 3, 7, 8))
        self.assertEqual(store.status(log), blobseer.Status(3, 2, 3))
        self.assertEqual(store.start_write(log, 7, b"?"), (2, 4, 7, 8))
        self.assertEqual(store.finish(1), 3)
        self.assertEqual(store.finish(2), 4)
        branch = store.branch(log, 1)
        self.assertEqual(store.append(branch, b", one past"), (2, 7, 17))
        room = bytearray(5)
        store.read_into(branch, 2, 3, room)
        self.assertEqual(bytes(room), b" log,")
        self.assertEqual(list(store.log(log)), [(1, 7), (2, 7), (3, 8), (4, 8)])

    def test_each_refusal_of_a_session(self):
        store = self.store
        log = store.create()
        store.append(log, b"abc")
        self.assertEqual(self.refused(blobseer.NoBlob, (65535,), store.recent, 65535).blob, 65535)
        self.refused(blobseer.NotPublished, (5, 1), store.read, log, 5, 0, 1)
        self.refused(blobseer.OffsetPastSize, (4, 3), store.write, log, 4, b"x")
        self.refused(blobseer.EmptyUpdate, (), store.append, log, b"")
        self.refused(blobseer.UpdateTooLong, (16777217,), store.append, log, bytes(16777217))
        with blobseer.connect(self.server.address, version=1) as older:
            self.refused(blobseer.UpdateTooLong, (1048577,), older.append, log, bytes(1048577))
            self.refused(blobseer.BadFrame, (), older.repair, log, 1)
        self.refused(blobseer.RangePastSize, (4, 3), store.read, log, 1, 3, 1)
        self.refused(blobseer.RangePastSize, (2**64, 3), store.read, log, 1, 2**64 - 1, 1)
        self.refused(blobseer.ReadTooLong, (16777217,), store.read, log, 1, 0, 16777217)
        self.refused(blobseer.NoTicket, (9,), store.finish, 9)
        for _ in range(64):
            store.start_append(log, b"x")
        self.refused(blobseer.TooManyTickets, (64,), store.start_append, log, b"x")
        self.refused(blobseer.Pending, (3, 2), store.sync, log, 3)
        self.refused(blobseer.Pending, (3, 2), store.wait_published, log, 3)
        self.assertEqual(self.store.status(log).held, 2)

    def test_frames_that_are_no_request(self):
        with socket.create_connection(host_and_port(self.server)) as peer:
            stream = peer.makefile("rb")
            peer.sendall(struct.pack(">I", 2097153) + bytes(2097153) + frame(14, 2) + frame(1)[:5])
            self.assertEqual(stream.read(4 + 17), frame(255, 18, 2097153))
            self.assertEqual(stream.read(4 + 9), frame(255, 19))
            self.assertEqual(stream.read(5)[4], 129)

    def test_frames_of_version_2(self):
        with socket.create_connection(host_and_port(self.server)) as peer:
            stream = peer.makefile("rb")
            peer.sendall(frame(14, 2) + frame(1))
            self.assertEqual(stream.read(13), frame(142, 2))
            blob = struct.unpack(">IBQ", stream.read(13))[2]
            peer.sendall(frame(2, blob, data=b"abc") + frame(15, blob, 1, 2, 1, 0, 2) + frame(15, blob, 1) + frame(15, blob, 1, 2)
                         + frame(15, blob, 1, *range(130)) + frame(14, 2))
            self.assertEqual(stream.read(29), frame(130, 1, 0, 3))
            self.assertEqual(stream.read(8), frame(143, data=b"cab"))
            for _ in range(4):
                self.assertEqual(stream.read(13), frame(255, 19))
            peer.sendall(struct.pack(">I", 17825793) + bytes(17825793) + frame(13))
            self.assertEqual(stream.read(4 + 17), frame(255, 18, 17825793))
            self.assertEqual(stream.read(5), frame(141))

    def test_many_ranges(self):
        data = os.urandom(1 << 20)
        blob = self.store.create()
        self.store.append(blob, data)
        self.assertEqual(self.store.version, 2)
        ranges = [(number * 4099 % (len(data) - 64), 64) for number in range(1000)] + [(0, 0), (len(data), 0)]
        parts = [data[begin:begin + count] for begin, count in ranges]
        self.assertEqual(self.store.read_many(blob, 1, ranges), parts)
        self.assertEqual(self.store.read_many(blob, 1, []), [])
        self.assertEqual(b"".join(self.store.read_many(blob, 1, [(0, len(data))] * 40)), data * 40)
        with blobseer.connect(self.server.address, version=1) as older:
            self.assertEqual(older.version, 1)
            self.assertEqual(older.read_many(blob, 1, ranges), parts)
        self.refused(blobseer.RangePastSize, (len(data) + 1, len(data)), self.store.read_many, blob, 1, [(0, 1), (len(data), 1)])
        self.refused(blobseer.ReadTooLong, (2,), self.store.pipeline().read_many(blob, 1, [(0, 16777215), (0, 2)]).result)

    def test_a_long_update(self):
        data = os.urandom(1 << 24)
        blob = self.store.create()
        self.assertEqual(self.store.append(blob, data), (1, 0, 1 << 24))
        self.assertTrue(self.store.read(blob, 1, 0, 1 << 24) == data)

    def test_what_another_client_left_is_repaired(self):
        log = self.store.create()
        other = blobseer.connect(self.server.address)
        self.assertEqual(other.start_append(log, b"left ").version, 1)
        self.assertEqual(self.store.append(log, b"behind").version, 2)
        self.refused(blobseer.Pending, (2, 1), self.store.sync, log, 2)
        self.assertEqual(self.store.repair(log, 1), 2)
        self.assertEqual(self.store.read(log, 2, 0, 11), b"left behind")
        self.refused(blobseer.Already, (1,), other.finish, 1)
        self.refused(blobseer.Already, (1,), self.store.repair, log, 1)
        self.refused(blobseer.NotPublished, (3, 2), self.store.repair, log, 3)
        other.close()

    def test_what_a_lost_client_left_is_repaired_by_one_that_waits(self):
        log = self.store.create()
        self.store.append(log, bytes(2))
        for number in range(14):
            self.store.write(log, 0, b"\xff")
        held = self.store.start_write(log, 0, b"\xaa")
        with socket.create_connection(host_and_port(self.server)) as lost:
            lost.sendall(frame(3, log, 1, data=b"\xbb") + frame(13))
            while lost.recv(4096):
                pass
        self.assertEqual(self.store.append(log, b"behind").version, 18)
        self.assertEqual(self.store.finish(held.ticket), 16)
        self.assertRaises(TimeoutError, self.store.wait_published, log, 18, timeout=0.05)
        with blobseer.connect(self.server.address, repair_after=0.05) as other:
            self.assertEqual(other.wait_published(log, 18), 18)
            self.assertEqual(other.read(log, 18, 0, 8), b"\xaa\xbbbehind")

    def test_an_update_of_its_own_is_repaired(self):
        log = self.store.create()
        self.store.start_append(log, b"a")
        self.assertEqual(self.store.repair(log, 1), 1)
        self.refused(blobseer.NoTicket, (1,), self.store.finish, 1)

    def test_a_page_that_is_changed_in_small_parts(self):
        log = self.store.create()
        self.store.append(log, bytes(2))
        for number in range(1, 40):
            self.assertEqual(self.store.write(log, number % 2, bytes([number])).version, number + 1)
        for number in range(1, 40):
            even, odd = number - number % 2, number - (number + 1) % 2
            self.assertEqual(self.store.read(log, number + 1, 0, 2), bytes([even, odd]))

    def test_an_update_is_held_back(self):
        log = self.store.create()
        self.store.append(log, bytes(2))
        for number in range(14):
            self.store.write(log, 0, b"\xff")
        with blobseer.connect(self.server.address) as other:
            held = other.start_write(log, 0, b"\xaa")
            reply = self.store.pipeline().write(log, 0, b"\xbb")
            if isinstance(reply.result(), blobseer.Started):
                self.refused(blobseer.Pending, (16, 16), self.store.finish, reply.result().ticket)
                self.assertEqual(other.finish(held.ticket), 16)
                self.assertEqual(self.store.finish(reply.result().ticket), 17)
            else:
                self.assertEqual(other.finish(held.ticket), 17)
            threading.Timer(0.1, other.finish, [other.start_write(log, 0, b"\xcc").ticket]).start()
            self.assertEqual(self.store.write(log, 1, b"\xdd").version, 19)
            self.store.wait_published(log, 19)
            self.assertEqual(self.store.read(log, 19, 0, 2), b"\xcc\xdd")
            time.sleep(0.2)

    def test_an_update_waits_for_another_client(self):
        with blobseer.connect(self.server.address) as other:
            log = other.create()
            first = other.start_append(log, b"slow")
            second = self.store.append(log, b"fast")
            with self.assertRaises(TimeoutError):
                self.store.wait_published(log, second.version, timeout=0.05)
            waiting = threading.Timer(0.1, other.finish, [first.ticket])
            waiting.start()
            self.assertEqual(self.store.wait_published(log, second.version), second.version)
            waiting.join()
            self.assertEqual(self.store.read(log, 2, 0, 8), b"slowfast")

    def test_a_hundred_thousand_requests_in_a_row(self):
        log = self.store.create()
        with self.store.pipeline() as requests:
            replies = [requests.append(log, b"%015d\n" % number) for number in range(100000)]
        self.assertEqual(replies[-1].result(), (100000, 1599984, 1600000))
        with self.store.pipeline() as requests:
            parts = [requests.read(log, 100000, begin, 1600) for begin in range(0, 1600000, 1600)]
        self.assertEqual(b"".join(part.result() for part in parts), b"".join(b"%015d\n" % number for number in range(100000)))

    def test_large_requests_and_large_replies_cross(self):
        blob = self.store.create()
        piece = os.urandom(1 << 20)
        with self.store.pipeline() as requests:
            replies = [requests.append(blob, piece), *(requests.write(blob, 0, piece) for _ in range(30))]
            reads = [requests.read(blob, 1, 0, 1 << 20) for _ in range(30)]
        self.assertTrue(all(read.result() == piece for read in reads))
        self.assertEqual(replies[-1].result().version, 31)

    def test_a_refusal_in_a_row_stands_alone(self):
        log = self.store.create()
        with self.store.pipeline() as requests:
            first, bad, last = requests.append(log, b"a"), requests.append(log, b""), requests.append(log, b"b")
        self.assertEqual((first.result().version, last.result().version), (1, 2))
        self.assertRaises(blobseer.EmptyUpdate, bad.result)

    def test_files_both_ways(self):
        for count in (0, 1, 4096, 50000000):
            with self.subTest(bytes=count):
                data = os.urandom(count)
                log = self.store.create()
                done = self.store.append_from(log, io.BytesIO(data))
                self.assertEqual((done.bytes, done.size), (count, count))
                self.assertEqual(done.last, (count + (1 << 20) - 1) // (1 << 20) or None)
                out = io.BytesIO()
                self.assertEqual(self.store.read_to(out, log, done.last or 0), count)
                self.assertTrue(out.getvalue() == data)

    def test_an_append_waits_where_too_many_updates_wait(self):
        with Server("--max-open", "1") as server, blobseer.connect(server.address) as one, blobseer.connect(server.address) as other:
            log = other.create()
            held = other.start_append(log, b"first ")
            threading.Timer(0.1, other.finish, [held.ticket]).start()
            self.assertEqual(one.append_from(log, io.BytesIO(b"second")), (2, 2, 6, 12))


class Limits(unittest.TestCase):
    def test_each_refusal_of_a_small_store(self):
        words = "--max-size 8 --max-versions 3 --max-open 1 --max-blobs 2".split()
        with Server(*words) as server, blobseer.connect(server.address) as store:
            log = store.create()
            for kind, numbers, call in (
                (blobseer.BlobTooBig, (9, 8), lambda: store.append(log, bytes(9))),
                (None, (1, 0, 1), lambda: store.append(log, b"a")),
                (None, (1, 2, 1, 2), lambda: store.start_append(log, b"b")),
                (blobseer.TooManyOpen, (1,), lambda: store.append(log, b"c")),
                (None, 2, lambda: store.finish(1)),
                (None, (3, 2, 3), lambda: store.append(log, b"c")),
                (blobseer.TooManyVersions, (3,), lambda: store.append(log, b"d")),
                (None, 2, store.create),
                (blobseer.TooManyBlobs, (2,), store.create),
                (blobseer.TooManyBlobs, (2,), lambda: store.branch(log, 1)),
            ):
                if kind is None:
                    self.assertEqual(call(), numbers)
                else:
                    with self.assertRaises(kind) as caught:
                        call()
                    self.assertEqual(caught.exception.numbers, numbers)


class Together(unittest.TestCase):
    """Many clients at once, some of which are lost: all that they are told belongs to one history over flat bytes."""

    BLOBS = (1, 2, 3)

    # What an update or its finish may be told here.
    REFUSALS = (blobseer.OffsetPastSize, blobseer.BlobTooBig, blobseer.TooManyOpen, blobseer.TooManyTickets, blobseer.Already, blobseer.Pending)

    def update(self, requests, draw):
        """Asks for an update: its blob, its bytes and its reply to come."""
        blob, data = draw.choice(self.BLOBS), bytes([draw.randrange(256)]) * draw.choice((1, 3, 16, 40))
        kind = draw.randrange(4)
        if kind < 2:
            return blob, data, (requests.append, requests.start_append)[kind](blob, data)
        return blob, data, (requests.write, requests.start_write)[kind - 2](blob, draw.randrange(100), data)

    def session(self, store, draw, updates, reads):
        requests = store.pipeline()
        for _ in range(draw.randint(1, 12)):
            for blob, data, reply in [self.update(requests, draw) for _ in range(draw.randint(1, 6))]:
                with contextlib.suppress(*self.REFUSALS):
                    done = reply.result()
                    updates.append((blob, done.version, done.offset, done.size, data))
                    if isinstance(done, blobseer.Started) and draw.random() < 0.8:
                        store.finish(done.ticket)
            blob = draw.choice(self.BLOBS)
            with contextlib.suppress(blobseer.Pending):
                store.wait_published(blob, store.status(blob).assigned)
            version = draw.randint(0, store.recent(blob).version)
            begin, end = sorted(draw.randint(0, store.size(blob, version)) for _ in range(2))
            reads.append((blob, version, begin, store.read(blob, version, begin, end - begin)))

    def client(self, address, seed, updates, reads):
        draw = random.Random(seed)
        for _ in range(10):
            store = blobseer.connect(address, repair_after=0.02)
            self.session(store, draw, updates, reads)
            if draw.random() < 0.3:
                store.quit()
            elif draw.random() < 0.5:
                store._session.live().socket.sendall(frame(2, 1, data=b"cut")[:-1])
            store.close()

    def check(self, store, blob, updates, reads):
        """Reads every version of a blob, and compares it with the updates and the reads that the clients were told of."""
        told = {update[1]: update for update in updates if update[0] == blob}
        self.assertEqual(len(told), sum(update[0] == blob for update in updates))
        before = b""
        for version in range(store.wait_published(blob, store.status(blob).assigned) + 1):
            content = store.read(blob, version, 0, store.size(blob, version))
            if version in told:
                _, _, offset, size, data = told[version]
                self.assertEqual(content, before[:offset] + data + before[offset + len(data):])
                self.assertEqual(size, len(content))
            for _, _, begin, part in filter(lambda read: read[:2] == (blob, version), reads):
                self.assertEqual(part, content[begin:begin + len(part)])
            before = content

    def test_all_belongs_to_one_history(self):
        with Server("--page", "16", "--max-size", "4096", "--workers", "16") as server:
            with blobseer.connect(server.address, repair_after=0.02) as store:
                self.assertEqual(tuple(store.create() for _ in self.BLOBS), self.BLOBS)
                told = [([], []) for _ in range(8)]
                with concurrent.futures.ThreadPoolExecutor(len(told)) as clients:
                    running = [clients.submit(self.client, server.address, seed, *lists) for seed, lists in enumerate(told)]
                for client in running:
                    client.result()
                for updates, _ in told:
                    for blob in self.BLOBS:
                        versions = [update[1] for update in updates if update[0] == blob]
                        self.assertEqual(versions, sorted(versions))
                updates, reads = ([one for lists in told for one in lists[kind]] for kind in range(2))
                for blob in self.BLOBS:
                    self.check(store, blob, updates, reads)


class Settings(unittest.TestCase):
    def test_as_many_blobs_as_were_allowed(self):
        with Server("--max-blobs", "1") as server, blobseer.connect(server.address) as store:
            self.assertEqual(store.create(), 1)
            self.assertRaises(blobseer.TooManyBlobs, store.create)

    def test_as_many_workers_as_were_asked_for(self):
        for workers in (2, 3, 5):
            with self.subTest(workers=workers), contextlib.ExitStack() as open_peers, Server("--workers", str(workers)) as server:
                peers = [open_peers.enter_context(socket.create_connection(host_and_port(server))) for _ in range(workers)]
                for peer in peers:
                    peer.sendall(frame(1))
                for peer in peers[:-1]:
                    peer.settimeout(60)
                    self.assertTrue(peer.recv(64))
                peers[-1].settimeout(1)
                self.assertRaises(socket.timeout, peers[-1].recv, 64)
                peers[0].close()
                peers[-1].settimeout(60)
                self.assertTrue(peers[-1].recv(64))

    def test_as_many_connections_as_were_asked_for(self):
        address = "127.0.0.1:%d" % free_port()
        words = ["serve", "--listen", address, "--connections", "2"]
        with subprocess.Popen([*PROGRAM, *words], stdout=subprocess.PIPE) as served:
            for _ in range(2):
                for _ in range(600):
                    with contextlib.suppress(ConnectionRefusedError):
                        blobseer.connect(address).close()
                        break
                    time.sleep(0.05)
            self.assertEqual(served.communicate(timeout=60)[0], b"served 2\n")
        self.assertEqual(served.returncode, 0)

    @unittest.skipUnless(os.path.exists("/proc/self/status"), "the memory of a process is read in /proc")
    def test_pages_and_replicas_by_the_memory_that_they_take(self):
        def held(count, size, *words):
            with Server("--providers", "4", *words) as server, blobseer.connect(server.address) as store:
                store.create()
                before = server.memory()
                for _ in range(count):
                    store.append(1, os.urandom(size))
                return server.memory() - before

        one, two, four = (held(32, 1048576, "--replicas", replicas) for replicas in ("1", "2", "4"))
        self.assertGreater(two, 1.5 * one)
        self.assertGreater(four, 1.5 * two)
        small, large = (held(1024, 1024, "--replicas", "1", "--page", page) for page in ("1024", "1048576"))
        self.assertGreater(large, 4 * small)


class WrongServers(unittest.TestCase):
    def test_refusals_that_the_program_seldom_gives(self):
        for reply, kind, numbers in (
            (frame(255, 8, 7), blobseer.Already, (7,)),
            (frame(255, 9), blobseer.NoMemory, ()),
            (frame(255, 15, 3), blobseer.PageFault, (3,)),
            (frame(255, 17), blobseer.Malformed, ()),
            (frame(255, 18, 9), blobseer.FrameTooLong, (9,)),
            (frame(255, 19), blobseer.BadFrame, ()),
            (frame(255, 22, 5), blobseer.NoMemoryTicket, (5,)),
        ):
            with self.subTest(name=kind.name), played(reply) as address:
                with self.assertRaises(kind) as caught, blobseer.connect(address, version=1) as store:
                    store.create()
                self.assertEqual(caught.exception.numbers, numbers)

    def test_replies_that_are_none(self):
        for reply in (frame(130, 1, 2, 3), frame(129), frame(129, 1, 2), frame(255, 21), frame(255, 8), struct.pack(">I", 0) + b"x", b"\xff" * 8):
            with self.subTest(reply=reply.hex()), played(reply) as address, blobseer.connect(address, version=1) as store:
                self.assertRaises(blobseer.ProtocolError, store.create)
                self.assertTrue(store.closed)

    def test_a_reply_that_ends_too_early(self):
        whole = frame(129, 1)
        for cut in range(len(whole)):
            with self.subTest(cut=cut), played(whole[:cut]) as address, blobseer.connect(address, version=1) as store:
                self.assertRaises(blobseer.ConnectionLost, store.create)

    def test_a_reply_byte_by_byte(self):
        with socket.create_server(("127.0.0.1", 0)) as listener:
            def serve():
                peer, _ = listener.accept()
                with peer:
                    peer.setsockopt(socket.IPPROTO_TCP, socket.TCP_NODELAY, 1)
                    for one in frame(129, 7) + frame(135, data=b"abc"):
                        peer.sendall(bytes([one]))
                        time.sleep(0.001)
                    peer.recv(65536)

            thread = threading.Thread(target=serve)
            thread.start()
            store = blobseer.connect(listener.getsockname(), version=1)
            requests = store.pipeline()
            created, read = requests.create(), requests.read(7, 1, 0, 3)
            self.assertEqual((created.result(), read.result()), (7, b"abc"))
            store.close()
            thread.join()

    def test_an_append_and_a_write_that_another_client_repaired(self):
        told = frame(255, 8, 7), frame(255, 16, 7, 6), frame(138, 7), frame(137, 100), frame(141)
        with played(*told) as address, blobseer.connect(address, version=1) as store:
            self.assertEqual(store.append(1, b"abc"), (7, 97, 100))
        with played(*told) as address, blobseer.connect(address, version=1) as store:
            self.assertEqual(store.write(1, 5, b"abc"), (7, 5, 100))

    def test_an_append_that_another_client_repaired_while_it_was_held_back(self):
        told = frame(132, 2, 7, 97, 100), frame(138, 6), frame(255, 8, 7), frame(141)
        with played(*told) as address, blobseer.connect(address, version=1) as store:
            self.assertEqual(store.append(1, b"abc"), (7, 97, 100))

    def test_a_server_of_version_1(self):
        with played(frame(255, 19) + frame(129, 7)) as address:
            store = blobseer.connect(address)
            self.assertEqual(store.create(), 7)
            self.assertEqual(store.version, 1)
            store.close()

    def test_a_server_that_is_silent(self):
        with socket.create_server(("127.0.0.1", 0)) as listener:
            store = blobseer.connect(listener.getsockname(), timeout=0.05)
            self.assertRaises(TimeoutError, store.create)
            store.close()

    def test_a_server_that_dies(self):
        with Server() as server:
            store = blobseer.connect(server.address)
            log = store.create()
            requests = store.pipeline()
            replies = [requests.append(log, bytes(65536)) for _ in range(64)]
            replies[0].result()
            server.process.kill()
            with self.assertRaises(blobseer.ConnectionLost):
                while True:
                    replies.append(requests.append(log, bytes(65536)))
            self.assertTrue(all(reply.done for reply in replies))
            self.assertRaises(blobseer.ConnectionLost, store.recent, log)


class Program(ProgramCase, unittest.TestCase):
    def test_each_command(self):
        with Server() as server:
            data = os.urandom(3000000)
            address = server.address
            self.assertEqual(self.ran(address, "create"), b"blob 1\n")
            self.assertEqual(self.ran(address, "append", "1", data=data), b"versions 1 to 3 bytes 3000000 size 3000000\n")
            self.assertEqual(self.ran(address, "append", "1"), b"bytes 0 size 3000000\n")
            self.assertTrue(self.ran(address, "read", "1") == data)
            self.assertTrue(self.ran(address, "read", "1", "2") == data[:2097152])
            self.assertTrue(self.ran(address, "read", "1", "3", "2999990") == data[-10:])
            self.assertTrue(self.ran(address, "read", "1", "3", "5", "7") == data[5:12])
            self.assertEqual(self.ran(address, "write", "1", "0", data=b"abc"), b"version 4 at 0 size 3000000\n")
            self.assertEqual(self.ran(address, "log", "1"), b"1 1048576\n2 2097152\n3 3000000\n4 3000000\n")
            self.assertEqual(self.ran(address, "status", "1"), b"assigned 4 published 4 held 0\n")
            self.assertEqual(self.ran(address, "branch", "1", "1"), b"blob 2\n")
            self.assertEqual(self.ran(address, "wait", "1", "4"), b"published 4\n")
            self.assertEqual(self.ran(address, "size", "1", status=2).split(":")[:2], ["blobseer", " argument COMMAND"])
            self.assertEqual(self.ran(address, "read", "9", status=1), "blobseer: refused: no-blob 9\n")
            self.assertEqual(self.ran(address, "read", "1", "9", status=1), "blobseer: refused: not-published 9 4\n")
            self.assertEqual(self.ran(address, "read", "1", "1", "1048577", status=1), "blobseer: refused: range-past-size 1048577 1048576\n")
            self.assertEqual(self.ran("nowhere", "create", status=2).split(":")[:2], ["blobseer", " argument HOST"])

    def test_a_wait_ends_or_repairs(self):
        with Server() as server, blobseer.connect(server.address) as other:
            address, log = server.address, other.create()
            for data in (b"a", b"b"):
                other.start_append(log, data)
            self.assertEqual(self.ran(address, "--timeout", "0.2", "wait", "1", "2", status=3), "blobseer: version 2 of blob 1 isn't published\n")
            self.assertEqual(self.ran(address, "repair", "1"), b"published 1\n")
            self.assertEqual(self.ran(address, "--repair-after", "0.1", "wait", "1", "2"), b"published 2\n")
            self.assertEqual(self.ran(address, "repair", "1", "2", status=1), "blobseer: refused: already 2\n")

    def test_no_server(self):
        address = "127.0.0.1:%d" % free_port()
        self.assertTrue(self.ran(address, "create", status=3).startswith("blobseer: no connection to " + address))

    def test_help(self):
        done = subprocess.run([*CLIENT, "--help"], capture_output=True)
        self.assertEqual(done.returncode, 0)
        for name in ("create", "append", "write", "read", "branch", "status", "log", "wait", "repair"):
            self.assertIn(name, done.stdout.decode())


if __name__ == "__main__":
    unittest.main()
