"""The client for asyncio.

    import asyncio
    from blobseer import aio

    async def main():
        async with aio.Client("127.0.0.1:7440") as store:
            log = await store.create()
            await asyncio.gather(*(store.append(log, b"record %d;" % number) for number in range(1000)))
            async for version, size in store.log(log):
                print(version, size)

    asyncio.run(main())

It has the methods of `blobseer.Client` as coroutines, and `log`, `versions`, `blobs`, `append_each` and `follow` as asynchronous iterators. There is no
pipeline, since tasks needn't wait for one another: their requests are sent in the order in which they are made, over one connection.
"""
from __future__ import annotations

import asyncio
import inspect
import io
import os
from types import TracebackType
from typing import Any, Callable, Optional, Tuple, Type, TypeVar, cast

from .errors import ConnectionLost, TimedOut
from .files import moved
from .session import Address, Session, Settings, address_of, seconds
from .wire import Channel, Reply, Request

T = TypeVar("T")
C = TypeVar("C", bound="Client")


class Connection(Channel, asyncio.BufferedProtocol):
    """A connection of the event loop."""

    def __init__(self) -> None:
        super().__init__()
        self.transport: Optional[asyncio.Transport] = None

    def connection_made(self, transport: asyncio.BaseTransport) -> None:
        self.transport = cast(asyncio.Transport, transport)

    def connection_lost(self, error: Optional[Exception]) -> None:
        self.lose(ConnectionLost("the connection was lost: %s" % (error or "the server ended it")))

    def get_buffer(self, sizehint: int) -> bytearray:
        return cast(bytearray, self.room())

    def buffer_updated(self, count: int) -> None:
        self.took(count)

    def hang_up(self) -> None:
        if self.transport is not None:
            self.transport.abort()

    def put(self, request: Request[T]) -> Reply[T]:
        reply = super().put(request)
        if self.transport is not None:
            while self.out:
                self.transport.write(self.out.popleft())
        return reply

    def unsent(self) -> int:
        """How many bytes the system hasn't taken yet."""
        return self.transport.get_write_buffer_size() if self.transport is not None else 0


async def connect(address: Address = None, timeout: Optional[float] = None, version: int = 2, repair_after: Optional[float] = None) -> Client:
    """A client that is connected. The arguments are those of `blobseer.connect`."""
    client = Client(address, timeout, version, repair_after)
    await client.connect()
    return client


class Client(Session):
    """One connection after another, as of `blobseer.Client`, for the tasks of one event loop. `connect` gives one that is connected; otherwise an
    `async with` block connects it."""

    MOST_SENT = (1 << 32) - 1
    PATIENCE = 300.0

    def __init__(self, address: Address = None, timeout: Optional[float] = None, version: int = 2, repair_after: Optional[float] = None) -> None:
        super().__init__(Settings(address_of(address), seconds(timeout, "above"), version, seconds(repair_after), self.MOST_SENT, self.PATIENCE))
        self._locks: Optional[Tuple[asyncio.Lock, asyncio.Lock]] = None

    async def __aenter__(self: C) -> C:
        if self._channel is None:
            await self.connect()
        return self

    async def __aexit__(self, kind: Optional[Type[BaseException]], value: Optional[BaseException], trace: Optional[TracebackType]) -> None:
        if kind is None and not self.closed:
            await self.quit()
        self.close()

    async def open(self, blob: int, version: Optional[int] = None) -> BlobFile:
        """A published version as a file that is read: see BlobFile. It is the last one unless said otherwise."""
        version = (await self.recent(blob)).version if version is None else version
        return BlobFile(self, blob, version, await self.size(blob, version))

    async def send(self, request: Request[T]) -> Reply[T]:
        # Whoever comes first takes care that there is a connection with room, and the others follow in their order.
        async with self._lock(0):
            return await super().send(request)

    async def recover(self, lost: ConnectionLost, blob: int, version: int = 0, size: Optional[int] = None) -> None:
        async with self._lock(1):
            await super().recover(lost, blob, version, size)

    def _lock(self, number: int) -> asyncio.Lock:
        """A lock of the running event loop."""
        if self._locks is None:
            self._locks = asyncio.Lock(), asyncio.Lock()
        return self._locks[number]

    # ---- how a Session waits here

    async def _connected(self) -> Channel:
        host, port = self._settings.address
        making = asyncio.get_running_loop().create_connection(Connection, host, port)
        try:
            _, connection = await asyncio.wait_for(making, self.timeout)
        except asyncio.TimeoutError:
            raise TimedOut("the server didn't answer in time") from None
        return connection

    async def _wait(self, reply: Reply[Any]) -> None:
        if reply.done:
            return
        come: asyncio.Future[None] = asyncio.get_running_loop().create_future()
        reply.then(lambda: None if come.done() else come.set_result(None))
        connection = cast(Connection, self.live())
        seen = None
        while not come.done():
            now = connection.received, connection.unsent()
            if now == seen:
                raise TimedOut("the server didn't reply in time")
            seen = now
            await asyncio.wait([come], timeout=self.timeout)

    async def pause(self, duration: float) -> None:
        await asyncio.sleep(duration)

    async def _call(self, function: Callable[..., Any], *arguments: Any) -> Any:
        if inspect.iscoroutinefunction(function):
            return await function(*arguments)
        return await asyncio.get_running_loop().run_in_executor(None, function, *arguments)


class BlobFile:
    """A published version of a blob as a file that coroutines read. It never changes."""

    def __init__(self, client: Client, blob: int, version: int, size: int) -> None:
        self.blob, self.version, self.size = blob, version, size
        self._client, self._at = client, 0

    def tell(self) -> int:
        """The position: from which byte on the next read is."""
        return self._at

    def seek(self, offset: int, whence: int = os.SEEK_SET) -> int:
        """Moves the position, also past the end, where nothing is read."""
        self._at = moved(self._at, self.size, offset, whence)
        return self._at

    async def read(self, count: int = -1) -> bytes:
        """The next bytes, fewer than asked for only at the end; below 0 all that are left."""
        left = max(0, self.size - self._at)
        count = left if count < 0 else min(count, left)
        out = io.BytesIO()
        await self._client.read_to(out, self.blob, self.version, min(self._at, self.size), count)
        self._at += count
        return out.getvalue()
