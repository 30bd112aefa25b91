"""The frames: what each request says, how its replies are read, and the requests of one connection in their order.

Nothing here touches a socket, so that the blocking client and the one of asyncio have it in common. docs/FORMATS.md defines the frames.
"""
from __future__ import annotations

import collections
import operator
import struct
import time
from typing import Any, Callable, Deque, Dict, Generic, Iterable, Iterator, List, Mapping, Optional, Sequence, Tuple, TypeVar, Union, cast

from .errors import REFUSALS, Already, ConnectionLost, Error, FrameTooLong, NoTicket, ProtocolError, RangePastSize, Refused, UpdateTooLong
from .values import LONGEST_READ, LONGEST_UPDATE, MOST_RANGES, Data, Recent, Started, Status, Update

T = TypeVar("T")
Decoder = Callable[[memoryview], T]

_HEAD = struct.Struct(">IB")
_FINISH, _REPAIR, _REFUSED = 6, 16, 255
_UPDATES = (2, 3, 4, 5)
_EMPTY = memoryview(b"")


class Request(Generic[T]):
    """One frame, and how each operation that may answer it is read. A reply that has bytes has `expects` of them. They go `into` a place of the
    caller's, where there is one. `weight` is about how many bytes the request and its reply have together."""

    __slots__ = ("operation", "numbers", "data", "replies", "expects", "into", "head", "length", "weight", "refusal")

    def __init__(self, operation: int, *numbers: int, replies: Mapping[int, Decoder[T]], data: Optional[Data] = None, expects: Optional[int] = None,
                 into: Optional[memoryview] = None) -> None:
        self.operation, self.numbers, self.replies, self.expects, self.into = operation, numbers, replies, expects, into
        self.data = _EMPTY if data is None else memoryview(data).cast("B")
        self.refusal: Optional[Refused] = None
        count = len(self.data)
        if count > LONGEST_UPDATE:
            # It has no place in a frame of any version. The client refuses it by itself, as the server would.
            self.refusal, count = UpdateTooLong(count), 0
        self.head = _head(operation, numbers, count)
        self.length = self.weight = len(self.head) + count
        if expects is not None:
            self.weight += min(expects, LONGEST_READ)

    def read(self, operation: int, body: memoryview) -> T:
        """What a frame says that answers this request; raises its refusal, or ProtocolError if it is no answer."""
        if operation == _REFUSED:
            refusal = _refusal_of(body)
            raise UpdateTooLong(len(self.data)) if isinstance(refusal, FrameTooLong) and self.operation in _UPDATES else refusal
        decode = self.replies.get(operation)
        if decode is None:
            raise ProtocolError("a reply to another request")
        if self.expects is not None and len(body) != self.expects:
            raise ProtocolError("a reply of another length")
        if self.into is not None and body is not self.into:
            self.into[:] = body
        try:
            return decode(body)
        except struct.error:
            raise ProtocolError("a reply of another length") from None


def _head(operation: int, numbers: Sequence[int], count: int) -> bytes:
    try:
        return struct.pack(">IB%dQ" % len(numbers), 1 + 8 * len(numbers) + count, operation, *numbers)
    except struct.error:
        wrong = next(number for number in numbers if not 0 <= operator.index(number) < 1 << 64)
        raise ValueError("%d isn't a number from 0 to 18446744073709551615" % wrong) from None


def _refusal_of(body: memoryview) -> Error:
    """The refusal that a frame of operation 255 tells."""
    number = int.from_bytes(body[:8], "big")
    kind = REFUSALS.get(number)
    # Each number has 8 bytes, but the end of a range, which may be past 64 bits, has 16.
    widths = [16, 8] if kind is RangePastSize else [8] * (len(kind.fields) if kind else 0)
    if kind is None or len(body) != 8 + sum(widths):
        return ProtocolError("a refusal that isn't known: %d" % number)
    starts = [8 + sum(widths[:i]) for i in range(len(widths))]
    return kind(*(int.from_bytes(body[start:start + width], "big") for start, width in zip(starts, widths)))


# ---- replies

def _number(body: memoryview) -> int:
    return cast(int, _UNPACK[1](body)[0])


def _update(body: memoryview) -> Update:
    return Update._make(_UNPACK[3](body))


def _started(body: memoryview) -> Started:
    return Started._make(_UNPACK[4](body))


def _recent(body: memoryview) -> Recent:
    return Recent._make(_UNPACK[2](body))


def _status(body: memoryview) -> Status:
    return Status._make(_UNPACK[3](body))


def _nothing(_: memoryview) -> None:
    pass


_UNPACK = [struct.Struct(">%dQ" % count).unpack for count in range(5)]
_READ: Mapping[int, Decoder[bytes]] = {135: bytes}
_READ_INTO: Mapping[int, Decoder[None]] = {135: _nothing}
# An append or a write may be held back, and then it is answered as a start.
_APPENDED: Mapping[int, Decoder[Union[Update, Started]]] = {130: _update, 132: _started}
_WRITTEN: Mapping[int, Decoder[Union[Update, Started]]] = {131: _update, 133: _started}


# ---- requests

def hello() -> Request[int]:
    return Request(14, 2, replies={142: _number})


def create() -> Request[int]:
    return Request(1, replies={129: _number})


def append(blob: int, data: Data) -> Request[Union[Update, Started]]:
    return Request(2, blob, data=data, replies=_APPENDED)


def write(blob: int, offset: int, data: Data) -> Request[Union[Update, Started]]:
    return Request(3, blob, offset, data=data, replies=_WRITTEN)


def start_append(blob: int, data: Data) -> Request[Started]:
    return Request(4, blob, data=data, replies={132: _started})


def start_write(blob: int, offset: int, data: Data) -> Request[Started]:
    return Request(5, blob, offset, data=data, replies={133: _started})


def finish(ticket: int) -> Request[int]:
    return Request(_FINISH, ticket, replies={134: _number})


def read(blob: int, version: int, offset: int, length: int) -> Request[bytes]:
    return Request(7, blob, version, offset, length, replies=_READ, expects=length)


def read_into(blob: int, version: int, offset: int, buffer: Data) -> Request[None]:
    into = memoryview(buffer).cast("B")
    return Request(7, blob, version, offset, len(into), replies=_READ_INTO, expects=len(into), into=into)


def read_many(blob: int, version: int, ranges: Iterable[Tuple[int, int]]) -> Request[bytes]:
    numbers = [number for one in ranges for number in one]
    return Request(15, blob, version, *numbers, replies={143: bytes}, expects=sum(numbers[1::2]))


def recent(blob: int) -> Request[Recent]:
    return Request(8, blob, replies={136: _recent})


def size(blob: int, version: int) -> Request[int]:
    return Request(9, blob, version, replies={137: _number})


def sync(blob: int, version: int) -> Request[int]:
    return Request(10, blob, version, replies={138: _number})


def status(blob: int) -> Request[Status]:
    return Request(11, blob, replies={139: _status})


def branch(blob: int, version: int) -> Request[int]:
    return Request(12, blob, version, replies={140: _number})


def repair(blob: int, version: int) -> Request[int]:
    return Request(_REPAIR, blob, version, replies={144: _number})


def quit() -> Request[None]:
    return Request(13, replies={141: _nothing}, expects=0)


def groups(ranges: Iterable[Tuple[int, int]]) -> Iterator[List[Tuple[int, int]]]:
    """The ranges in groups that one request may ask for."""
    group: List[Tuple[int, int]] = []
    count = 0
    for one in ranges:
        if group and (len(group) == MOST_RANGES or count + one[1] > LONGEST_READ):
            yield group
            group, count = [], 0
        group.append(one)
        count += one[1]
    if group:
        yield group


# ---- one connection

class Reply(Generic[T]):
    """The reply to a request that was sent and not waited for."""

    __slots__ = ("request", "_calls", "_channel", "_done", "_value", "_error")

    def __init__(self, channel: Optional[Channel], request: Request[T]) -> None:
        self.request: Optional[Request[T]] = request
        self._channel = channel
        self._calls: Tuple[Callable[[], object], ...] = ()
        self._done = False
        self._value: Optional[T] = None
        self._error: Optional[Error] = None

    @property
    def done(self) -> bool:
        """Whether the reply has come."""
        return self._done

    def result(self) -> T:
        """Waits for the reply and gives its value, or raises the refusal."""
        while not self._done:
            cast(Channel, self._channel).turn()
        if self._error is not None:
            raise self._error
        return cast(T, self._value)

    def end(self, value: Optional[T] = None, error: Optional[Error] = None) -> None:
        """The reply has come."""
        self._done, self._value, self._error = True, value, error
        self._channel = self.request = None
        for call in self._calls:
            call()

    def then(self, call: Callable[[], object]) -> None:
        """Something is to be called when the reply comes."""
        self._calls += (call,)


class Channel:
    """The requests of one connection, the replies to them, and the tickets that its session holds. A subclass has the socket: it sends what
    is in `out`, takes what comes into `room()`, and then calls `took`."""

    # Past so many requests that are on their way, or so many bytes of them and of their replies, a further request first takes replies.
    AHEAD = 1024
    AHEAD_BYTES = 64 << 20
    _STAGE = 1 << 16

    def __init__(self) -> None:
        self.out: Deque[memoryview] = collections.deque()
        self.awaited: Deque[Reply[Any]] = collections.deque()
        self.tickets: Dict[int, Tuple[int, int]] = {}
        self.sent = self.received = 0
        self.used = time.monotonic()
        self.lost: Optional[Error] = None
        self._load = 0
        self._stage, self._staged = memoryview(bytearray(self._STAGE)), 0
        # The frame that has come in part, where it is too long for the stage: its operation, its body, and how much of it is there.
        self._operation, self._body, self._filled = 0, _EMPTY, 0

    def turn(self) -> None:
        """Waits until something comes or can be sent."""
        raise NotImplementedError

    def hang_up(self) -> None:
        """Ends the connection."""
        raise NotImplementedError

    def full(self, request: Request[Any]) -> bool:
        """Whether a further request has to wait until others are answered."""
        return bool(self.awaited) and (len(self.awaited) >= self.AHEAD or self._load + request.weight > self.AHEAD_BYTES)

    def put(self, request: Request[T]) -> Reply[T]:
        """Puts a request behind those that weren't sent yet, and gives the reply to come."""
        if self.lost is not None:
            raise ConnectionLost("the connection is closed")
        if request.refusal is not None:
            refused = Reply(None, request)
            refused.end(error=request.refusal)
            return refused
        self.out.append(memoryview(request.head))
        if len(request.data):
            self.out.append(request.data)
        self.sent += request.length
        self._load += request.weight
        self.used = time.monotonic()
        reply = Reply(self, request)
        self.awaited.append(reply)
        return reply

    def lose(self, error: Error) -> None:
        """Nothing more comes: ends every reply that is awaited with this error."""
        if self.lost is None:
            self.lost = error
            self.hang_up()
        self.out.clear()
        while self.awaited:
            self.awaited.popleft().end(error=error)

    def close(self) -> None:
        """Ends the connection without a word. The server finishes the session's tickets, as far as they can be."""
        self.lose(ConnectionLost("the connection was closed"))

    # ---- what comes

    def room(self) -> memoryview:
        """Where the next bytes are to be put."""
        return self._body[self._filled:] if len(self._body) else self._stage[self._staged:]

    def took(self, count: int) -> None:
        """So many bytes have come into the room."""
        self.received += count
        self.used = time.monotonic()
        if not len(self._body):
            self._staged += count
            self._unstage()
            return
        self._filled += count
        if self._filled == len(self._body):
            body, self._body = self._body, _EMPTY
            self._answered(self._operation, body)

    def _unstage(self) -> None:
        """Takes the frames that have come; of one that is longer than the stage it takes the part that is there."""
        at = 0
        while self._staged - at >= _HEAD.size and self.lost is None:
            length, operation = _HEAD.unpack_from(self._stage, at)
            if not 1 <= length <= LONGEST_READ + 1 or not self.awaited:
                self.lose(ProtocolError("a frame of %d bytes" % length if self.awaited else "a reply to no request"))
                return
            begin, end = at + _HEAD.size, at + _HEAD.size + length - 1
            if end <= self._staged:
                self._answered(operation, self._stage[begin:end])
            elif end - at > self._STAGE:
                self._begin(operation, length - 1, self._stage[begin:self._staged])
                end = self._staged
            else:
                break
            at = end
        rest = bytes(self._stage[at:self._staged])
        self._staged = len(rest)
        self._stage[:len(rest)] = rest

    def _begin(self, operation: int, count: int, part: memoryview) -> None:
        """Makes room for a long body, of which a part has come: the caller's own, where it asked for one and this is its reply."""
        request = cast(Request[Any], self.awaited[0].request)
        if request.into is not None and operation in request.replies and request.expects == count:
            self._body = request.into
        else:
            self._body = memoryview(bytearray(count))
        self._operation, self._filled = operation, len(part)
        self._body[:len(part)] = part

    def _answered(self, operation: int, body: memoryview) -> None:
        """Ends the reply that is awaited first."""
        request = cast(Request[Any], self.awaited[0].request)
        value, refusal = None, None
        try:
            value = request.read(operation, body)
        except Refused as error:
            refusal = error
        except ProtocolError as error:
            self.lose(error)
            return
        self._load -= request.weight
        if operation in (132, 133) or request.operation in (_FINISH, _REPAIR):
            self._note(request, value, refusal)
        self.awaited.popleft().end(value, refusal)

    def _note(self, request: Request[Any], value: Any, refusal: Optional[Refused]) -> None:
        """Keeps which tickets the session holds, each with its blob and its version. One whose update is finished, by whomever, is given up."""
        if isinstance(value, Started):
            self.tickets[value.ticket] = (request.numbers[0], value.version)
        elif request.operation == _FINISH and isinstance(refusal, (type(None), Already, NoTicket)):
            self.tickets.pop(request.numbers[0], None)
        elif request.operation == _REPAIR and isinstance(refusal, (type(None), Already)):
            self.tickets = {held: update for held, update in self.tickets.items() if update != request.numbers}
