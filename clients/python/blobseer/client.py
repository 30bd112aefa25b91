"""The blocking client."""
from __future__ import annotations

import inspect
import itertools
import selectors
import socket
import time
from types import TracebackType
from typing import Any, AsyncIterator, Awaitable, Callable, Iterable, Iterator, List, Optional, Tuple, Type, TypeVar, Union, cast

from . import wire
from .errors import ConnectionLost, TimedOut
from .files import BlobFile
from .session import Address, Progress, Session, Settings, address_of, seconds
from .values import LONGEST_UPDATE, PIECE, Appended, Blob, Data, Readable, Recent, Started, Status, Update, Version, Writable
from .wire import Channel, Reply, Request

T = TypeVar("T")
C = TypeVar("C", bound="Client")


class Connection(Channel):
    """A socket that doesn't block, and a wait for it."""

    def __init__(self, address: Tuple[str, int], timeout: Optional[float]) -> None:
        super().__init__()
        self._timeout = timeout
        try:
            self.socket = socket.create_connection(address, timeout)
        except socket.timeout:
            raise TimedOut("the server didn't answer in time") from None
        self.socket.setsockopt(socket.IPPROTO_TCP, socket.TCP_NODELAY, 1)
        self.socket.setblocking(False)
        self._selector = selectors.DefaultSelector()
        self._interest = selectors.EVENT_READ
        self._selector.register(self.socket, self._interest)

    def hang_up(self) -> None:
        self._selector.close()
        self.socket.close()

    def put(self, request: Request[T]) -> Reply[T]:
        reply = super().put(request)
        self._transmit()
        return reply

    def turn(self) -> None:
        """Waits until something can be read, or written where something is unsent, and does so."""
        interest = selectors.EVENT_READ | (selectors.EVENT_WRITE if self.out else 0)
        if interest != self._interest:
            self._selector.modify(self.socket, interest)
            self._interest = interest
        ready = self._selector.select(self._timeout)
        if not ready:
            raise TimedOut("the server didn't reply in time")
        if ready[0][1] & selectors.EVENT_READ:
            self._receive()
        if self.lost is None:
            self._transmit()

    def _transmit(self) -> None:
        try:
            while self.out:
                self._sent(self.socket.sendmsg(list(itertools.islice(self.out, 64))))
        except BlockingIOError:
            pass
        except OSError:
            # What the server sent before it went away can still be read; the reading tells the end.
            self.out.clear()

    def _sent(self, count: int) -> None:
        while count:
            first = self.out[0]
            if count < len(first):
                self.out[0] = first[count:]
                return
            count -= len(first)
            self.out.popleft()

    def _receive(self) -> None:
        try:
            while self.awaited:
                count = self.socket.recv_into(self.room())
                if not count:
                    raise ConnectionResetError("the server ended it")
                self.took(count)
        except BlockingIOError:
            pass
        except OSError as error:
            self.lose(ConnectionLost("the connection was lost: %s" % error))


class _Blocking(Session):
    """A session that blocks wherever it has to wait, and never suspends."""

    async def _connected(self) -> Channel:
        return Connection(self._settings.address, self._settings.timeout)

    async def send(self, request: Request[T]) -> Reply[T]:
        return self.post(request)

    async def ask(self, request: Request[T]) -> T:
        return self.post(request).result()

    def post(self, request: Request[T]) -> Reply[T]:
        """`send`, of which most need no coroutine."""
        channel = self.free(request)
        return channel.put(request) if channel is not None else _now(super().send(request))

    async def _wait(self, reply: Reply[Any]) -> None:
        channel = self.live()
        while not reply.done:
            channel.turn()

    async def pause(self, duration: float) -> None:
        time.sleep(duration)

    async def _call(self, function: Callable[..., Any], *arguments: Any) -> Any:
        return function(*arguments)


def _now(work: Awaitable[T]) -> T:
    """What comes of work that never suspends."""
    try:
        next(work.__await__())
    except StopIteration as end:
        return cast(T, end.value)
    raise RuntimeError("a blocking session suspended")


def _each(items: AsyncIterator[T]) -> Iterator[T]:
    """The items of an iterator that never suspends."""
    try:
        while True:
            try:
                item = _now(items.__anext__())
            except StopAsyncIteration:
                return
            yield item
    finally:
        _now(cast(Any, items).aclose())


def connect(address: Address = None, timeout: Optional[float] = None, version: int = 2, repair_after: Optional[float] = None) -> Client:
    """A client of the server at `HOST:PORT`, or at a pair of host and port, or at the address in the variable BLOBSEER of the environment.

    With `timeout`, a wait of so many seconds raises TimedOut, which is a TimeoutError: for a reply of which nothing comes, or for another
    client's update.

    With `repair_after`, a wait for a version repairs the update that it waits for, once this has been the same one for so many seconds: its
    client is gone or stands still. If it comes back, it is told Already. Without it the wait lasts until somebody else repairs the update.

    It speaks version 2 of the frames, or with `version=1` the older one, in which an update has at most 1,048,576 bytes, many ranges are
    read one by one, and nothing is repaired.

    What is no address or no time raises ValueError, and a server that can't be reached OSError."""
    return Client(address, timeout, version, repair_after)


def _documented(kind: Type[T]) -> Type[T]:
    """Gives a method that has no text that of the session's method which it runs."""
    for name, method in vars(kind).items():
        if inspect.isfunction(method) and method.__doc__ is None:
            method.__doc__ = inspect.getdoc(getattr(Session, name, None))
    return kind


@_documented
class Client:
    """One connection after another, each of which is a session of the store. When a session ends, its tickets are finished for it, but for
    an update that needs the version before it while that isn't published: somebody else has to repair this one.

    A server ends a connection on which MOST_SENT bytes were sent, or nothing for PATIENCE seconds. Before that a client whose session holds no
    tickets takes a new connection by itself, and before a request that goes over it. A connection that is lost in any other way closes
    the client, but for the calls that say that they go on.

    Each request has a method that waits for the reply. `pipeline` has the same methods and doesn't wait. A number that isn't one from 0 to
    18446744073709551615 raises ValueError. A client is for one thread; `Pool` is for several.
    """

    MOST_SENT = (1 << 32) - 1
    PATIENCE = 300.0

    def __init__(self, address: Address = None, timeout: Optional[float] = None, version: int = 2, repair_after: Optional[float] = None) -> None:
        settings = Settings(address_of(address), seconds(timeout, "above"), version, seconds(repair_after), self.MOST_SENT, self.PATIENCE)
        self._session = _Blocking(settings)
        _now(self._session.connect())

    def __enter__(self: C) -> C:
        return self

    def __exit__(self, kind: Optional[Type[BaseException]], value: Optional[BaseException], trace: Optional[TracebackType]) -> None:
        if kind is None and not self.closed:
            self.quit()
        self.close()

    @property
    def closed(self) -> bool:
        """Whether the connection was closed or lost."""
        return self._session.closed

    def close(self) -> None:
        """Ends the connection without a word. The session's tickets are finished by the server, as far as they can be."""
        self._session.close()

    @property
    def version(self) -> int:
        """The version of the frames that the server speaks on this connection."""
        return _now(self._session.version())

    @property
    def idle(self) -> bool:
        """Whether it is open, no reply to a request is awaited, and no ticket is held."""
        return self._session.idle

    def pipeline(self) -> Pipeline:
        """Requests that don't wait for one another: see Pipeline."""
        return Pipeline(self)

    def open(self, blob: int, version: Optional[int] = None) -> BlobFile:
        """A published version as a file object that is read: see BlobFile. It is the last one unless said otherwise."""
        return BlobFile(self, blob, self.recent(blob).version if version is None else version)

    def create(self) -> int:
        return self._session.post(wire.create()).result()

    def append(self, blob: int, data: Data) -> Update:
        return _now(self._session.append(blob, data))

    def write(self, blob: int, offset: int, data: Data) -> Update:
        return _now(self._session.write(blob, offset, data))

    def start_append(self, blob: int, data: Data) -> Started:
        return self._session.post(wire.start_append(blob, data)).result()

    def start_write(self, blob: int, offset: int, data: Data) -> Started:
        return self._session.post(wire.start_write(blob, offset, data)).result()

    def finish(self, ticket: int) -> int:
        return self._session.post(wire.finish(ticket)).result()

    def read(self, blob: int, version: int, offset: int, length: int) -> bytes:
        return self._session.post(wire.read(blob, version, offset, length)).result()

    def read_into(self, blob: int, version: int, offset: int, buffer: Data) -> None:
        self._session.post(wire.read_into(blob, version, offset, buffer)).result()

    def read_many(self, blob: int, version: int, ranges: Iterable[Tuple[int, int]]) -> List[bytes]:
        return _now(self._session.read_many(blob, version, ranges))

    def recent(self, blob: int) -> Recent:
        return self._session.post(wire.recent(blob)).result()

    def size(self, blob: int, version: int) -> int:
        return self._session.post(wire.size(blob, version)).result()

    def sync(self, blob: int, version: int) -> int:
        return self._session.post(wire.sync(blob, version)).result()

    def status(self, blob: int) -> Status:
        return self._session.post(wire.status(blob)).result()

    def branch(self, blob: int, version: int) -> int:
        return self._session.post(wire.branch(blob, version)).result()

    def repair(self, blob: int, version: int) -> int:
        return self._session.post(wire.repair(blob, version)).result()

    def quit(self) -> None:
        _now(self._session.quit())

    def wait_published(self, blob: int, version: int, timeout: Optional[float] = None) -> int:
        return _now(self._session.wait_published(blob, version, timeout))

    def wait_for_room(self, blob: int, timeout: Optional[float] = None) -> None:
        _now(self._session.wait_for_room(blob, timeout))

    def append_from(self, blob: int, file: Readable, piece: int = PIECE, progress: Optional[Progress] = None) -> Appended:
        return _now(self._session.append_from(blob, file, piece, progress))

    def write_from(self, blob: int, offset: int, file: Readable, piece: int = LONGEST_UPDATE, progress: Optional[Progress] = None) -> Appended:
        return _now(self._session.write_from(blob, offset, file, piece, progress))

    def append_each(self, blob: int, pieces: Iterable[Data]) -> Iterator[Update]:
        return _each(self._session.append_each(blob, pieces))

    def read_to(self, file: Writable, blob: int, version: int, offset: int = 0, length: Optional[int] = None, piece: int = PIECE,
                progress: Optional[Progress] = None) -> int:
        return _now(self._session.read_to(file, blob, version, offset, length, piece, progress))

    def log(self, blob: int) -> Iterator[Tuple[int, int]]:
        return _each(self._session.log(blob))

    def versions(self, blob: int) -> Iterator[Version]:
        return _each(self._session.versions(blob))

    def blobs(self) -> Iterator[Blob]:
        return _each(self._session.blobs())

    def follow(self, blob: int, first: int = 1) -> Iterator[Tuple[int, bytes]]:
        return _each(self._session.follow(blob, first))


@_documented
class Pipeline:
    """Requests that don't wait for one another. Each method gives a Reply, whose `result()` waits. An append or a write whose result is a Started is
    held back: finish its ticket once the version before it is published. One that raises Already is done: another client repaired it. The
    server answers in order, and replies are taken while requests are sent, so neither side can stand still because the other's buffers are
    full. At most AHEAD requests are on their way, with AHEAD_BYTES of their own and of their replies; a further one first takes replies. At
    the end of a `with` block all replies have come."""

    AHEAD = Channel.AHEAD
    AHEAD_BYTES = Channel.AHEAD_BYTES

    def __init__(self, client: Client) -> None:
        self._session = client._session

    def __enter__(self) -> Pipeline:
        return self

    def __exit__(self, kind: Optional[Type[BaseException]], value: Optional[BaseException], trace: Optional[TracebackType]) -> None:
        if kind is None:
            self.wait()

    def wait(self) -> None:
        """Waits until every reply has come."""
        channel = self._session.live()
        while channel.awaited:
            channel.turn()

    def _send(self, request: Request[T]) -> Reply[T]:
        return self._session.post(request)

    def create(self) -> Reply[int]:
        return self._send(wire.create())

    def append(self, blob: int, data: Data) -> Reply[Union[Update, Started]]:
        return self._send(wire.append(blob, data))

    def write(self, blob: int, offset: int, data: Data) -> Reply[Union[Update, Started]]:
        return self._send(wire.write(blob, offset, data))

    def start_append(self, blob: int, data: Data) -> Reply[Started]:
        return self._send(wire.start_append(blob, data))

    def start_write(self, blob: int, offset: int, data: Data) -> Reply[Started]:
        return self._send(wire.start_write(blob, offset, data))

    def finish(self, ticket: int) -> Reply[int]:
        return self._send(wire.finish(ticket))

    def read(self, blob: int, version: int, offset: int, length: int) -> Reply[bytes]:
        return self._send(wire.read(blob, version, offset, length))

    def read_into(self, blob: int, version: int, offset: int, buffer: Data) -> Reply[None]:
        return self._send(wire.read_into(blob, version, offset, buffer))

    def read_many(self, blob: int, version: int, ranges: Iterable[Tuple[int, int]]) -> Reply[bytes]:
        """From 1 to MOST_RANGES ranges of a version, of LONGEST_READ bytes together: their bytes, joined."""
        return self._send(wire.read_many(blob, version, ranges))

    def recent(self, blob: int) -> Reply[Recent]:
        return self._send(wire.recent(blob))

    def size(self, blob: int, version: int) -> Reply[int]:
        return self._send(wire.size(blob, version))

    def sync(self, blob: int, version: int) -> Reply[int]:
        return self._send(wire.sync(blob, version))

    def status(self, blob: int) -> Reply[Status]:
        return self._send(wire.status(blob))

    def branch(self, blob: int, version: int) -> Reply[int]:
        return self._send(wire.branch(blob, version))

    def repair(self, blob: int, version: int) -> Reply[int]:
        return self._send(wire.repair(blob, version))
