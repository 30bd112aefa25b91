"""What both clients do in the same way: the requests, what takes several of them, and a new connection where an old one is used up.

It is written once, as coroutines. The client of asyncio is a Session as it stands. The blocking one runs the coroutines of a Session that
blocks wherever the one of asyncio would suspend, so that each of them ends at its first step.
"""
from __future__ import annotations

import abc
import collections
import contextlib
import io
import itertools
import os
import time
from typing import Any, AsyncIterable, AsyncIterator, Callable, Deque, Iterable, Iterator, List, NamedTuple, Optional, Tuple, TypeVar, Union

from . import wire
from .errors import Already, BadFrame, ConnectionLost, Error, NoBlob, NotPublished, Pending, RangePastSize, TimedOut
from .transfer import Losses, Updates
from .values import LONGEST_READ, LONGEST_UPDATE, PIECE, Appended, Blob, Data, Readable, Recent, Started, Status, Update, Version, Writable
from .wire import Channel, Reply, Request

T = TypeVar("T")
Address = Union[None, str, Tuple[str, int]]
Progress = Callable[[int], object]

# A connection with frames of version 1 takes no longer update.
_LONGEST_UPDATE_1 = 1 << 20
_LONGEST_WAIT = 1e6
# The seconds between two looks at what other clients do.
_LOOK = 0.1
# How much of what takes several requests is on its way at a time.
_AHEAD, _AHEAD_BYTES = 256, 8 << 20
# What a connection that holds tickets may still send, to finish them, once others would be left for a new one.
_SLACK = 1 << 16


def address_of(address: Address) -> Tuple[str, int]:
    """The host and the port of `HOST:PORT`; a host that has colons itself stands in brackets. None stands for the variable BLOBSEER."""
    if address is None:
        address = os.environ.get("BLOBSEER") or None
        if address is None:
            raise ValueError("no address is given, and the variable BLOBSEER has none")
    if isinstance(address, str):
        host, _, port = address.rpartition(":")
        if not host or not (port.isascii() and port.isdigit()):
            raise ValueError("an address is HOST:PORT, and not %r" % address)
        address = (host[1:-1] if host.startswith("[") and host.endswith("]") else host, int(port[-6:]) if len(port) < 7 else 65536)
    host, number = address[:2]
    if not 1 <= number <= 65535:
        raise ValueError("a port is a number from 1 to 65535")
    try:
        host.encode("idna")
    except UnicodeError:
        raise ValueError("%r is no host" % host) from None
    return host, number


def seconds(value: Optional[float], least: str = "from") -> Optional[float]:
    """A time to wait: a number of seconds `from` 0 or `above` 0, or None."""
    if value is not None and not (0 < value <= _LONGEST_WAIT or value == 0 and least == "from"):
        raise ValueError("a time to wait is a number of seconds %s 0, and at most a million" % least)
    return value


class Settings(NamedTuple):
    """How a client was made."""

    address: Tuple[str, int]
    timeout: Optional[float]
    version: int
    repair_after: Optional[float]
    most_sent: int
    patience: float


class _Wait:
    """A wait for other clients: how long it lasts, and at which update it stands."""

    def __init__(self, limit: Optional[float]) -> None:
        self._limit, self._pause = limit, 0.001
        self._began = self._since = time.monotonic()
        self._held: Optional[int] = None

    def stands(self, held: int) -> float:
        """For how many seconds it has stood at this unfinished version."""
        if held != self._held:
            self._held, self._since = held, time.monotonic()
        return time.monotonic() - self._since

    def pause(self) -> Optional[float]:
        """The seconds until the next look, or None where the wait has lasted too long."""
        pause, self._pause = self._pause, min(2 * self._pause, _LOOK)
        if self._limit is None:
            return pause
        left = self._limit - (time.monotonic() - self._began)
        return min(pause, left) if left > 0 else None


class Session(abc.ABC):
    """A client's session of the store. Its connection ends where the server says so: after 4 GiB that were sent, and after a long silence. A
    new one, which is a new session, takes its place before that, unless the old one holds tickets."""

    def __init__(self, settings: Settings) -> None:
        self._settings = settings
        # After so many bytes a connection is left for a new one.
        self._enough = max(settings.most_sent - _SLACK, settings.most_sent // 2)
        self._channel: Optional[Channel] = None
        self._hello: Optional[Reply[int]] = None

    # ---- what each client does in a way of its own

    @abc.abstractmethod
    async def _connected(self) -> Channel:
        """A new connection."""

    @abc.abstractmethod
    async def _wait(self, reply: Reply[Any]) -> None:
        """Waits until a reply has come."""

    @abc.abstractmethod
    async def pause(self, duration: float) -> None:
        """Does nothing for some seconds."""

    @abc.abstractmethod
    async def _call(self, function: Callable[..., Any], *arguments: Any) -> Any:
        """Calls what may block, such as a read of a file."""

    # ---- the connection

    @property
    def timeout(self) -> Optional[float]:
        """After so many seconds a wait is given up, or None."""
        return self._settings.timeout

    @property
    def closed(self) -> bool:
        """Whether the connection was closed or lost."""
        return self._channel is None or self._channel.lost is not None

    @property
    def idle(self) -> bool:
        """Whether it is open, no reply to a request is awaited, and no ticket is held."""
        if self._channel is None or self._channel.lost is not None or self._channel.tickets:
            return False
        return not self._channel.awaited or self._channel.awaited[-1] is self._hello

    def close(self) -> None:
        """Ends the connection without a word. The session's tickets are finished by the server, as far as they can be."""
        if self._channel is not None:
            self._channel.close()
            self._channel = None

    async def version(self) -> int:
        """The version of the frames that the server speaks on this connection."""
        if self._hello is None:
            return 1
        await self._wait(self._hello)
        try:
            return self._hello.result()
        except BadFrame:
            return 1

    def live(self) -> Channel:
        """The connection, unless it was closed."""
        if self._channel is None:
            raise ConnectionLost("the connection is closed")
        return self._channel

    async def connect(self) -> None:
        """Connects. The first frame says hello. Nobody waits for its reply: a server that doesn't know it refuses it, and speaks version 1."""
        self._channel = await self._connected()
        self._hello = self._channel.put(wire.hello()) if self._settings.version == 2 else None

    async def send(self, request: Request[T]) -> Reply[T]:
        """Sends a request as soon as there is room for it, and gives the reply to come."""
        return (await self._ready(request)).put(request)

    async def ask(self, request: Request[T]) -> T:
        """Sends a request, and waits for what it is answered."""
        return await self.result(await self.send(request))

    async def result(self, reply: Reply[T]) -> T:
        """Waits for a reply: its value, or its refusal is raised."""
        await self._wait(reply)
        return reply.result()

    def free(self, request: Request[Any]) -> Optional[Channel]:
        """The connection for a request, or None where there has to be a wait or a new connection before."""
        channel = self.live()
        if channel.full(request) or channel.sent + request.length > self._enough:
            return None
        if not channel.awaited and not channel.tickets and time.monotonic() - channel.used > 0.9 * self._settings.patience:
            return None
        return channel

    async def _ready(self, request: Request[Any]) -> Channel:
        """The connection for a request: a new one, where the old one is used up or was silent for so long that the server has ended it."""
        channel = self.live()
        while channel.full(request):
            await self._wait(channel.awaited[0])
        if self.free(request) is not None:
            return channel
        while channel.awaited:
            await self._wait(channel.awaited[0])
        if not channel.tickets:
            return await self._renewed()
        if channel.sent + request.length > self._settings.most_sent:
            raise Error("the connection has sent as many bytes as one may, and its session holds tickets")
        return channel

    async def _renewed(self) -> Channel:
        """A new connection in place of one that still stands."""
        self.live().close()
        try:
            await self.connect()
        except OSError as error:
            raise ConnectionLost("there is no new connection: %s" % error) from error
        return self.live()

    async def recover(self, lost: ConnectionLost, blob: int, version: int = 0, size: Optional[int] = None) -> None:
        """A new connection in place of one that was lost, to a server that still has a version with its size. Raises what tells the loss
        where the session held tickets, where there is no connection, or where the server was started anew and so all blobs are gone."""
        channel = self.live()
        if channel.tickets:
            raise ConnectionLost("%s; its session held tickets" % lost) from lost
        try:
            if channel.lost is not None:
                await self.connect()
            same = size in (None, await self.size(blob, version))
        except OSError as error:
            raise ConnectionLost("%s; there is no new connection: %s" % (lost, error)) from lost
        except (NoBlob, NotPublished):
            same = False
        if not same:
            raise ConnectionLost("%s; the server was started anew, without its blobs" % lost) from lost

    async def values(self, requests: Iterable[Request[T]]) -> AsyncIterator[T]:
        """What requests are answered that don't wait for one another, in their order."""
        waiting: Deque[Tuple[int, Reply[T]]] = collections.deque()
        load = 0
        for request in requests:
            while waiting and (len(waiting) >= _AHEAD or load + request.weight > _AHEAD_BYTES):
                weight, reply = waiting.popleft()
                load -= weight
                yield await self.result(reply)
            waiting.append((request.weight, await self.send(request)))
            load += request.weight
        for _, reply in waiting:
            yield await self.result(reply)

    # ---- requests

    async def create(self) -> int:
        """Makes an empty blob, and gives its id."""
        return await self.ask(wire.create())

    async def append(self, blob: int, data: Data) -> Update:
        """Adds bytes at the end of a blob: an Update. That it is numbered doesn't mean that it is published.

        Where the server holds the update back until the version before it is published, this waits for that and finishes it. If the
        version before waits for an update that this client holds itself, Pending is raised, and the update's ticket is held too. If
        another client repairs the update before the server has finished it, this waits until it is published. A wait that takes longer
        than the client's timeout raises TimedOut."""
        return await self._finished(wire.append(blob, data), blob, None)

    async def write(self, blob: int, offset: int, data: Data) -> Update:
        """Puts bytes over those at an offset: an Update. It may be held back as an append."""
        return await self._finished(wire.write(blob, offset, data), blob, offset)

    async def start_append(self, blob: int, data: Data) -> Started:
        """An append that waits for its finish: a Started."""
        return await self.ask(wire.start_append(blob, data))

    async def start_write(self, blob: int, offset: int, data: Data) -> Started:
        """A write that waits for its finish: a Started."""
        return await self.ask(wire.start_write(blob, offset, data))

    async def finish(self, ticket: int) -> int:
        """Finishes the update of a ticket, and gives the last published version of its blob. If another client has repaired it, it is
        refused as Already, and the ticket is given up."""
        return await self.ask(wire.finish(ticket))

    async def read(self, blob: int, version: int, offset: int, length: int) -> bytes:
        """Bytes of a published version, at most LONGEST_READ of them."""
        return await self.ask(wire.read(blob, version, offset, length))

    async def read_into(self, blob: int, version: int, offset: int, buffer: Data) -> None:
        """Fills a buffer with bytes of a published version, a long one without a copy."""
        await self.ask(wire.read_into(blob, version, offset, buffer))

    async def read_many(self, blob: int, version: int, ranges: Iterable[Tuple[int, int]]) -> List[bytes]:
        """The bytes of many ranges of a published version, pairs of offset and length: a list with the bytes of each. At most MOST_RANGES of
        them, of LONGEST_READ bytes together, are asked for in one request; more, and a server that speaks version 1, take several."""
        ranges = list(ranges)
        if await self.version() == 1:
            return [data async for data in self.values(wire.read(blob, version, *one) for one in ranges)]
        groups = list(wire.groups(ranges))
        parts: List[bytes] = []
        coming = iter(groups)
        async for joined in self.values(wire.read_many(blob, version, group) for group in groups):
            begin = 0
            for _, length in next(coming):
                parts.append(joined[begin:begin + length])
                begin += length
        return parts

    async def recent(self, blob: int) -> Recent:
        """The last published version and its size: a Recent."""
        return await self.ask(wire.recent(blob))

    async def size(self, blob: int, version: int) -> int:
        """The size of a published version."""
        return await self.ask(wire.size(blob, version))

    async def sync(self, blob: int, version: int) -> int:
        """The version, if it is published; else it is refused as Pending or NotPublished."""
        return await self.ask(wire.sync(blob, version))

    async def status(self, blob: int) -> Status:
        """The last numbered version, the last published one, and the least unfinished one or 0: a Status."""
        return await self.ask(wire.status(blob))

    async def branch(self, blob: int, version: int) -> int:
        """Makes a blob that shares the versions up to a published one, and gives its id."""
        return await self.ask(wire.branch(blob, version))

    async def repair(self, blob: int, version: int) -> int:
        """Finishes the update of a version that its client left unfinished, and gives the last published version of its blob. Whoever is first
        finishes it; for the other it is refused as Already."""
        return await self.ask(wire.repair(blob, version))

    async def quit(self) -> None:
        """Ends the session and the connection."""
        await self.ask(wire.quit())
        self.close()

    # ---- waits

    async def wait_published(self, blob: int, version: int, timeout: Optional[float] = None) -> int:
        """Waits until a version is published, and gives it. It asks again and again, in the end ten times a second. Where the version waits
        for an update that this client holds itself it raises Pending at once, and TimedOut after `timeout` seconds, or after those of the
        client. Where it waits for another client's update for too long, it repairs this (see `connect`)."""
        wait = _Wait(self.timeout if timeout is None else seconds(timeout))
        while True:
            try:
                return await self.sync(blob, version)
            except Pending as pending:
                if (blob, pending.held) in self.live().tickets.values():
                    raise
                held = pending.held
            await self._stand(wait, blob, held, "version %d of blob %d isn't published" % (version, blob))

    async def wait_for_room(self, blob: int, timeout: Optional[float] = None) -> None:
        """Waits until the least unfinished version of a blob is published, if there is one: then a further update may be numbered."""
        held = (await self.status(blob)).held
        if held:
            await self.wait_published(blob, held, timeout)

    async def _stand(self, wait: _Wait, blob: int, held: int, told: str) -> None:
        """Stands at another client's update for a moment, or repairs it, where that has taken too long."""
        if await self._repaired(wait, blob, held):
            return
        pause = wait.pause()
        if pause is None:
            raise TimedOut(told)
        await self.pause(pause)

    async def _repaired(self, wait: _Wait, blob: int, held: int) -> bool:
        after = self._settings.repair_after
        if after is None or wait.stands(held) < after or await self.version() == 1:
            return False
        with contextlib.suppress(Already):
            await self.repair(blob, held)
        return True

    async def _finished(self, request: Request[Union[Update, Started]], blob: int, offset: Optional[int]) -> Update:
        """The update that a request makes, finished."""
        try:
            update = await self.ask(request)
        except Already as repaired:
            size = await self.size(blob, await self.wait_published(blob, repaired.version))
            return Update(repaired.version, size - len(request.data) if offset is None else offset, size)
        while isinstance(update, Started):
            await self.wait_published(blob, update.version - 1)
            with contextlib.suppress(Pending):
                with contextlib.suppress(Already):
                    await self.finish(update.ticket)
                update = Update(*update[1:])
        return update

    # ---- bytes of any length

    async def append_from(self, blob: int, file: Readable, piece: int = PIECE, progress: Optional[Progress] = None) -> Appended:
        """Appends what a binary file object has, in updates of `piece` bytes, one after another: an Appended. Other clients' updates may fall
        between them. Where as many updates of the blob wait as may, it waits for the first of them. `progress` is called with the bytes
        that are appended.

        Nothing is appended twice. Where a connection is lost, it goes on over a new one. It looks whether the last update was done: whether
        one of the versions since then added as many bytes, and the same ones. If none did, it asks for the update once more; if one did, that
        was it. (It may also have been another client's, with the same bytes. Nothing tells these apart.) If several did, ConnectionLost is
        raised, and says so. Any Error has in `done` how far it came."""
        return await self._from(Updates(self, blob), file, piece, progress)

    async def write_from(self, blob: int, offset: int, file: Readable, piece: int = LONGEST_UPDATE, progress: Optional[Progress] = None) -> Appended:
        """Writes what a binary file object has over the bytes from an offset on: an Appended. Up to `piece` bytes are one version. More are
        several, one after another, and whoever reads one of them but the last sees only a part of the bytes written. Otherwise it is as
        `append_from`. Where the bytes were there before, a lost connection leaves unknown whether the last update was done. A file
        without bytes is refused as EmptyUpdate."""
        done = await self._from(Updates(self, blob, offset), file, piece, progress)
        if done.first is None:
            await self.write(blob, offset, b"")
        return done

    async def append_each(self, blob: int, pieces: Union[Iterable[Data], AsyncIterable[Data]]) -> AsyncIterator[Update]:
        """Appends each of some bytes as an update of its own, as `append_from` does: the Update of each."""
        updates = Updates(self, blob)
        if isinstance(pieces, collections.abc.AsyncIterable):
            async for data in pieces:
                yield await updates.put(data)
        else:
            for data in pieces:
                yield await updates.put(data)

    async def _from(self, updates: Updates, file: Readable, piece: int, progress: Optional[Progress]) -> Appended:
        piece = _piece(piece, LONGEST_UPDATE)
        if await self.version() == 1:
            piece = min(piece, _LONGEST_UPDATE_1)
        while True:
            data = await self._filled(file, piece)
            if not data:
                break
            await updates.put(data)
            if progress:
                progress(updates.done.bytes)
        done = updates.done
        return done if done.first is not None else done._replace(size=(await self.recent(updates.blob)).size)

    async def _filled(self, file: Readable, count: int) -> bytes:
        """The next bytes of a file, fewer than asked for only at its end."""
        parts: List[bytes] = []
        left = count
        while left:
            part = await self._call(file.read, left)
            if part is None:
                raise BlockingIOError("the file has nothing to read now, and doesn't wait")
            if not part:
                break
            parts.append(part)
            left -= len(part)
        return parts[0] if len(parts) == 1 else b"".join(parts)

    async def read_to(self, file: Writable, blob: int, version: int, offset: int = 0, length: Optional[int] = None, piece: int = PIECE,
                      progress: Optional[Progress] = None) -> int:
        """Writes bytes of a published version to a binary file object, to its end where no length is given, and gives their number. A range
        that ends past the version's size is refused as RangePastSize before anything is written. It goes on over a new connection where
        one is lost, and asks for no bytes again that came."""
        size = await self.size(blob, version)
        end = _end(offset, length, size)
        piece = _piece(piece, LONGEST_READ)
        at, losses = offset, Losses()
        while at < end:
            try:
                async for data in self.values(_reads(blob, version, at, end, piece)):
                    await self._write_all(file, data)
                    at += len(data)
                    losses.forget()
                    if progress:
                        progress(at - offset)
            except ConnectionLost as lost:
                losses.add(lost)
                await self.recover(lost, blob, version, size)
        return end - offset

    async def _write_all(self, file: Writable, data: bytes) -> None:
        """Writes bytes to a file, all of them also where it has no buffer and takes a part at a time."""
        if not isinstance(file, io.RawIOBase):
            await self._call(file.write, data)
            return
        rest = memoryview(data)
        while len(rest):
            count = await self._call(file.write, rest)
            if count is None:
                raise BlockingIOError("the file takes nothing now, and doesn't wait")
            rest = rest[count:]

    # ---- what there is

    async def log(self, blob: int) -> AsyncIterator[Tuple[int, int]]:
        """The versions of a blob that are published, with their sizes: pairs, the first version first."""
        version = 0
        async for size in self._sizes(blob, 1, (await self.recent(blob)).version):
            version += 1
            yield version, size

    def _sizes(self, blob: int, first: int, last: int) -> AsyncIterator[int]:
        """The sizes of published versions from the first to the last."""
        return self.values(wire.size(blob, version) for version in range(first, last + 1))

    async def versions(self, blob: int) -> AsyncIterator[Version]:
        """The versions of a blob that are numbered, each a Version, the first one first."""
        status, before = await self.status(blob), 0
        version = 0
        async for size in self._sizes(blob, 1, status.published):
            version += 1
            yield Version(version, size, size - before, "published")
            before = size
        for version in range(status.published + 1, status.assigned + 1):
            yield Version(version, None, None, "unfinished" if version == status.held else "waiting")

    async def blobs(self) -> AsyncIterator[Blob]:
        """All blobs, each a Blob, in the order of their ids. The server doesn't tell which blob a branch was made of."""
        blob = 0
        with contextlib.suppress(NoBlob):
            async for recent in self.values(map(wire.recent, itertools.count(1))):
                blob += 1
                yield Blob(blob, *recent)

    async def follow(self, blob: int, first: int = 1) -> AsyncIterator[Tuple[int, bytes]]:
        """The versions of a blob from `first` on as they are published, without an end: pairs of a version and the bytes that it added at the
        blob's end, which are none where it wrote over others. It looks ten times a second at most, and asks for no bytes again that came. It
        goes on over a new connection where one is lost. With `repair_after` (see `connect`) it repairs an update that holds others back."""
        if first < 0:
            raise ValueError("a version is a number from 0, and not %d" % first)
        version, size = max(first, 1) - 1, 0 if first <= 1 else None
        wait, losses = _Wait(None), Losses()
        while True:
            looked = time.monotonic()
            try:
                async for version, size, data in self._news(blob, version, size, wait):
                    yield version, data
                losses.forget()
            except ConnectionLost as lost:
                losses.add(lost)
                await self.recover(lost, blob, *((0, 0) if size is None else (version, size)))
            await self.pause(max(0.0, looked + _LOOK - time.monotonic()))

    async def _news(self, blob: int, version: int, size: Optional[int], wait: _Wait) -> AsyncIterator[Tuple[int, int, bytes]]:
        """What was published behind a version, whose size may be known: each version with its size and the bytes that it added."""
        status = await self.status(blob)
        if status.published <= version:
            if status.held:
                await self._repaired(wait, blob, status.held)
            return
        for begin in range(version, status.published, _AHEAD):
            end = min(begin + _AHEAD, status.published)
            known = [] if size is None else [size]
            sizes = known + [one async for one in self._sizes(blob, begin + len(known), end)]
            steps = list(zip(range(begin + 1, end + 1), sizes, sizes[1:]))
            grown = iter(steps)
            async for data in self.values(wire.read(blob, number, low, high - low) for number, low, high in steps):
                number, _, size = next(grown)
                yield number, size, data


def _piece(piece: int, most: int) -> int:
    if not 1 <= piece <= most:
        raise ValueError("a piece has from 1 to %d bytes, and not %d" % (most, piece))
    return piece


def _end(offset: int, length: Optional[int], size: int) -> int:
    """Where a range ends in a version of some size, if it does."""
    if offset < 0 or (length or 0) < 0:
        raise ValueError("neither an offset nor a length is below 0")
    end = max(offset, size) if length is None else offset + length
    if end > size:
        raise RangePastSize(end, size)
    return end


def _reads(blob: int, version: int, begin: int, end: int, piece: int) -> Iterator[Request[bytes]]:
    """Requests for the bytes of a range, in pieces."""
    return (wire.read(blob, version, at, min(piece, end - at)) for at in range(begin, end, piece))
