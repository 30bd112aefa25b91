"""What the module raises."""
from __future__ import annotations

from typing import Dict, Optional, Tuple, Type

from .values import Appended


class Error(Exception):
    """What this module raises: a refusal, a connection that was lost, a wait that was given up, or a reply that no server should give.

    Where one call makes several updates, `done` tells how far they were before: an Appended. Otherwise it is None."""

    done: Optional[Appended] = None


class ConnectionLost(Error, ConnectionError):
    """The connection ended before the reply came. Whether the request was done isn't known, unless the message tells."""


class TimedOut(Error, TimeoutError):
    """A wait took longer than it may. What was asked for may still be done, though nobody waits for it any more."""


class ProtocolError(Error):
    """The server sent what is no reply to the request. The connection can't be used any more."""


class Refused(Error):
    """A request was refused, and the blobs and the history are as they were, save where the refusal says something else. `name` is the
    refusal's name, and each of its numbers is an attribute as well; `numbers` has them in order."""

    number: int = 0
    name: str = "refused"
    fields: Tuple[str, ...] = ()

    def __init__(self, *numbers: int) -> None:
        super().__init__(*numbers)
        self.numbers = numbers
        for field, number in zip(self.fields, numbers):
            setattr(self, field, number)

    def __init_subclass__(cls) -> None:
        REFUSALS[cls.number] = cls

    def __str__(self) -> str:
        return " ".join([self.name, *map(str, self.numbers)])


# Each refusal under its number in a frame.
REFUSALS: Dict[int, Type[Refused]] = {}


class NoBlob(Refused):
    """There is no such blob."""

    number, name, fields = 1, "no-blob", ("blob",)
    blob: int


class NotPublished(Refused):
    """The version isn't published; `published` is the last that is."""

    number, name, fields = 2, "not-published", ("version", "published")
    version: int
    published: int


class OffsetPastSize(Refused):
    """A write begins past the size of the last numbered version."""

    number, name, fields = 3, "offset-past-size", ("offset", "size")
    offset: int
    size: int


class BlobTooBig(Refused):
    """The blob would have more bytes than it may."""

    number, name, fields = 4, "blob-too-big", ("bytes", "limit")
    bytes: int
    limit: int


class TooManyVersions(Refused):
    """The blob has as many versions as it may."""

    number, name, fields = 5, "too-many-versions", ("limit",)
    limit: int


class TooManyOpen(Refused):
    """As many updates of the blob wait as may."""

    number, name, fields = 6, "too-many-open", ("limit",)
    limit: int


class TooManyBlobs(Refused):
    """The store has as many blobs as it may."""

    number, name, fields = 7, "too-many-blobs", ("limit",)
    limit: int


class Already(Refused):
    """The update was finished before, by another client."""

    number, name, fields = 8, "already", ("version",)
    version: int


class NoMemory(Refused):
    """The server was refused memory; nothing has changed."""

    number, name = 9, "no-memory"


class EmptyUpdate(Refused):
    """An update of no bytes."""

    number, name = 10, "empty-update"


class UpdateTooLong(Refused):
    """An update of more bytes than one may have."""

    number, name, fields = 11, "update-too-long", ("bytes",)
    bytes: int


class RangePastSize(Refused):
    """The range ends past the version's size."""

    number, name, fields = 12, "range-past-size", ("end", "size")
    end: int
    size: int


class NoTicket(Refused):
    """The session holds no such ticket."""

    number, name, fields = 13, "no-ticket", ("ticket",)
    ticket: int


class TooManyTickets(Refused):
    """The session holds as many tickets as it may."""

    number, name, fields = 14, "too-many-tickets", ("limit",)
    limit: int


class PageFault(Refused):
    """A page could be stored nowhere, or be read from nowhere."""

    number, name, fields = 15, "page-fault", ("page",)
    page: int


class Pending(Refused):
    """The version waits; `held` is the blob's least unfinished one."""

    number, name, fields = 16, "pending", ("version", "held")
    version: int
    held: int


class Malformed(Refused):
    """No request; lines alone are refused so."""

    number, name = 17, "malformed"


class FrameTooLong(Refused):
    """A frame longer than one may be. An update in such a frame is refused as UpdateTooLong."""

    number, name, fields = 18, "frame-too-long", ("bytes",)
    bytes: int


class BadFrame(Refused):
    """A frame that is no request."""

    number, name = 19, "bad-frame"


class ReadTooLong(Refused):
    """A read of more bytes than one may have."""

    number, name, fields = 20, "read-too-long", ("bytes",)
    bytes: int


class NoMemoryTicket(Refused):
    """The update is numbered and held under a ticket; finish it."""

    number, name, fields = 22, "no-memory ticket", ("ticket",)
    ticket: int
