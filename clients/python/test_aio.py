"""Tests of the client for asyncio."""
import asyncio
import inspect
import io
import os
import socket
import unittest

import blobseer
from blobseer import aio
from helpers import Relay, Server, frame, played
from test_long import APPEND, once


class Short(aio.Client):
    MOST_SENT = 1 << 20


class Hurried(aio.Client):
    PATIENCE = 1.0


class Requests(unittest.IsolatedAsyncioTestCase):
    @classmethod
    def setUpClass(cls):
        cls.server = Server("--workers", "8", "--page", "256").__enter__()
        cls.addClassCleanup(cls.server.__exit__)

    async def asyncSetUp(self):
        asyncio.get_running_loop().set_debug(False)
        self.store = await aio.connect(self.server.address)
        self.blob = await self.store.create()

    async def asyncTearDown(self):
        self.store.close()

    def test_it_has_the_methods_of_the_blocking_client(self):
        ours = {name for name in dir(aio.Client) if not name.startswith("_")}
        self.assertEqual({name for name in dir(blobseer.Client) if not name.startswith("_")} - ours, {"pipeline"})
        for name in ours & {name for name, _ in inspect.getmembers(blobseer.Client, inspect.isfunction)}:
            with self.subTest(name=name):
                of = [inspect.signature(getattr(kind, name)).parameters.items() for kind in (aio.Client, blobseer.Client)]
                self.assertEqual(*([(name, one.default) for name, one in parameters] for parameters in of))

    async def test_each_request(self):
        store, blob = self.store, self.blob
        self.assertEqual(await store.append(blob, b"one log"), (1, 0, 7))
        self.assertEqual(await store.write(blob, 0, b"ONE"), (2, 0, 7))
        self.assertEqual(await store.read(blob, 2, 0, 7), b"ONE log")
        self.assertEqual((await store.recent(blob), await store.size(blob, 1), await store.sync(blob, 2)), ((2, 7), 7, 2))
        self.assertEqual(await store.start_append(blob, b"!"), (1, 3, 7, 8))
        self.assertEqual(await store.start_write(blob, 7, b"?"), (2, 4, 7, 8))
        self.assertEqual(await store.status(blob), (4, 2, 3))
        self.assertEqual([one.state for one in [one async for one in store.versions(blob)]], ["published", "published", "unfinished", "waiting"])
        self.assertEqual((await store.finish(1), await store.repair(blob, 4)), (3, 4))
        branch = await store.branch(blob, 1)
        self.assertEqual([one async for one in store.log(blob)], [(1, 7), (2, 7), (3, 8), (4, 8)])
        self.assertIn((branch, 1, 7), [one async for one in store.blobs()])
        room = bytearray(5)
        await store.read_into(blob, 4, 3, room)
        self.assertEqual(room, b" log?")
        self.assertEqual(await store.read_many(blob, 4, [(0, 3), (7, 1)] * 100), [b"ONE", b"?"] * 100)
        self.assertEqual((await store.version(), await store.wait_published(blob, 4)), (2, 4))
        with self.assertRaises(blobseer.NoBlob):
            await store.recent(65535)
        with self.assertRaises(ValueError):
            await store.recent(-1)
        await store.quit()
        with self.assertRaises(blobseer.ConnectionLost):
            await store.recent(blob)

    async def test_tasks_needn_t_wait_for_one_another(self):
        updates = await asyncio.gather(*(self.store.append(self.blob, b"%07d\n" % number) for number in range(3000)))
        self.assertEqual([update.version for update in updates], list(range(1, 3001)))
        parts = await asyncio.gather(*(self.store.read(self.blob, 3000, begin, 8) for begin in range(0, 24000, 8)))
        self.assertEqual(parts, [b"%07d\n" % number for number in range(3000)])
        data = os.urandom(1 << 22)
        await asyncio.gather(*(self.store.write(self.blob, 0, data) for _ in range(4)), self.store.write(self.blob, 0, bytes(10)))
        self.assertTrue(await self.store.read(self.blob, 3004, 0, 1 << 22) == data)

    async def test_a_task_that_is_cancelled_disturbs_no_other(self):
        await self.store.append(self.blob, bytes(1 << 22))
        reads = [asyncio.ensure_future(self.store.read(self.blob, 1, number, 1 << 18)) for number in range(8)]
        await asyncio.sleep(0)
        for one in reads[::2]:
            one.cancel()
        for one in reads[1::2]:
            self.assertEqual(await one, bytes(1 << 18))
        self.assertEqual(await self.store.recent(self.blob), (1, 1 << 22))

    async def test_files_both_ways(self):
        data = os.urandom(3000000)
        told = []
        self.assertEqual(await self.store.append_from(self.blob, io.BytesIO(data), progress=told.append), (1, 3, 3000000, 3000000))
        self.assertEqual(told, [1 << 20, 2 << 20, 3000000])
        stream = asyncio.StreamReader()
        stream.feed_data(data[:100])
        stream.feed_eof()
        self.assertEqual(await self.store.write_from(self.blob, 50, stream), (4, 4, 100, 3000000))
        out = io.BytesIO()
        self.assertEqual(await self.store.read_to(out, self.blob, 4), 3000000)
        self.assertTrue(out.getvalue() == data[:50] + data[:100] + data[150:])

        async def pieces():
            yield b"a"
            yield b"b"

        self.assertEqual([update.version async for update in self.store.append_each(self.blob, pieces())], [5, 6])
        file = await self.store.open(self.blob)
        self.assertEqual((file.seek(-3, 2), await file.read(2), file.tell(), await file.read(), await file.read()), (2999999, data[-1:] + b"a", 3000001, b"b", b""))

    async def test_it_follows(self):
        async def append():
            for number in range(5):
                await asyncio.sleep(0.05)
                await self.store.append(self.blob, b"%d;" % number)

        appending = asyncio.ensure_future(append())
        told = []
        async for one in self.store.follow(self.blob):
            told.append(one)
            if len(told) == 5:
                break
        await appending
        self.assertEqual(told, [(number + 1, b"%d;" % number) for number in range(5)])

    async def test_it_waits_and_repairs(self):
        async with aio.Client(self.server.address, timeout=0.1) as other:
            await other.start_append(self.blob, b"held ")
            await self.store.append(self.blob, b"behind")
            async with aio.Client(self.server.address, timeout=0.1) as third:
                with self.assertRaises(TimeoutError):
                    await third.wait_published(self.blob, 2)
            with self.assertRaises(blobseer.Pending):
                await other.wait_published(self.blob, 2)
            async with aio.Client(self.server.address, repair_after=0.05) as third:
                self.assertEqual(await third.wait_published(self.blob, 2), 2)
            with self.assertRaises(blobseer.Already):
                await other.finish(1)

    async def test_connections_that_are_used_up_silent_or_lost(self):
        with Relay(self.server) as relay:
            async with Short(relay.address) as store:
                await store.append_from(self.blob, io.BytesIO(bytes(3000000)), piece=300000)
                await asyncio.gather(*(store.append(self.blob, bytes(100000)) for _ in range(20)))
        self.assertEqual(await self.store.recent(self.blob), (30, 5000000))
        self.assertLessEqual(max(relay.sent()), Short.MOST_SENT)
        with Relay(self.server, patience=1.0) as relay:
            async with Hurried(relay.address) as store:
                for version in (31, 32):
                    self.assertEqual((await store.append(self.blob, b"x")).version, version)
                    await asyncio.sleep(1.2)
        for operation, count in ((130, 2), (APPEND, 3)):
            with Relay(self.server, cuts=once(operation)) as relay:
                async with aio.Client(relay.address) as store:
                    self.assertEqual((await store.append_from(self.blob, io.BytesIO(b"a%d;b%d;" % (count, count)), piece=3)).bytes, 6)
            self.assertEqual(relay.operations().count(APPEND), count)

    async def test_a_server_that_says_nothing_or_is_gone(self):
        with socket.create_server(("127.0.0.1", 0)) as listener:
            store = await aio.connect(listener.getsockname(), timeout=0.1)
            with self.assertRaises(blobseer.TimedOut):
                await store.create()
            store.close()
            address = listener.getsockname()
        with self.assertRaises(OSError):
            await aio.connect(address)
        with Server() as server:
            store = await aio.connect(server.address)
            await store.create()
            server.process.kill()
            server.process.wait()
            with self.assertRaises(blobseer.ConnectionLost):
                await store.create()
            self.assertTrue(store.closed)
        with played(frame(129, 1, 2)) as address:
            async with aio.Client(address, version=1) as store:
                with self.assertRaises(blobseer.ProtocolError):
                    await store.create()


if __name__ == "__main__":
    unittest.main()
