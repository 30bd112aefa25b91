"""What requests give, and the sizes that hold everywhere."""
from __future__ import annotations

import mmap
from typing import Any, NamedTuple, Optional, Protocol, Union

LONGEST_UPDATE = 1 << 24
LONGEST_READ = 1 << 24
MOST_RANGES = 64
PIECE = 1 << 20

# What has bytes: all that memoryview takes will do.
Data = Union[bytes, bytearray, memoryview, mmap.mmap]


class Readable(Protocol):
    """A binary file object that can be read."""

    def read(self, count: int, /) -> Any:
        """At most so many bytes, or none at the end."""


class Writable(Protocol):
    """A binary file object that can be written."""

    def write(self, data: Any, /) -> Any:
        """Takes bytes."""


class Update(NamedTuple):
    """An update that is numbered and finished: its version, the offset at which its bytes fell, and the size of the blob then."""

    version: int
    offset: int
    size: int


class Started(NamedTuple):
    """An update that is numbered and not finished: the ticket under which the session holds it, and then as an Update."""

    ticket: int
    version: int
    offset: int
    size: int


class Recent(NamedTuple):
    """The last published version of a blob, and its size."""

    version: int
    size: int


class Status(NamedTuple):
    """How far the updates of a blob are: the last numbered version, the last published one, and the least unfinished one, or 0."""

    assigned: int
    published: int
    held: int


class Appended(NamedTuple):
    """How far updates are that follow one another: the first and the last version, or None, the bytes, and the size of the blob after them."""

    first: Optional[int]
    last: Optional[int]
    bytes: int
    size: Optional[int]

    def then(self, update: Update, count: int) -> Appended:
        """How far they are after one more update of so many bytes."""
        return Appended(update.version if self.first is None else self.first, update.version, self.bytes + count, update.size)


class Version(NamedTuple):
    """A numbered version: its size, and how many bytes it added to the blob's end; both are None where it isn't published. `state` is
    "published"; "unfinished" for the least unfinished version; or "waiting" for a version behind that."""

    version: int
    size: Optional[int]
    grown: Optional[int]
    state: str


class Blob(NamedTuple):
    """A blob, its last published version, and the size of that."""

    blob: int
    version: int
    size: int
