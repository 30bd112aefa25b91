"""A version as a file."""
from __future__ import annotations

import io
import os
from typing import TYPE_CHECKING, Any

from .values import LONGEST_READ, PIECE

if TYPE_CHECKING:
    from .client import Client


def moved(at: int, size: int, offset: int, whence: int) -> int:
    """Where a position at `at` of a file of some size is after a seek."""
    if whence not in (os.SEEK_SET, os.SEEK_CUR, os.SEEK_END):
        raise ValueError("a seek is from 0, the beginning, from 1, the position, or from 2, the end, and not from %r" % whence)
    to = {os.SEEK_SET: 0, os.SEEK_CUR: at, os.SEEK_END: size}[whence] + offset
    if to < 0:
        raise ValueError("a position isn't below 0, and %d is" % to)
    return to


class BlobFile(io.RawIOBase):
    """A published version of a blob as a binary file that is read. It never changes. Each read is a request, so where many are small, put an
    `io.BufferedReader` over it. It is for the client's thread, and to close it leaves the client open."""

    def __init__(self, client: Client, blob: int, version: int) -> None:
        super().__init__()
        self.blob, self.version = blob, version
        self.size = client.size(blob, version)
        self._client, self._at = client, 0

    def readable(self) -> bool:
        return not self._checked()

    def seekable(self) -> bool:
        return not self._checked()

    def tell(self) -> int:
        """The position: from which byte on the next read is."""
        self._checked()
        return self._at

    def seek(self, offset: int, whence: int = os.SEEK_SET) -> int:
        """Moves the position, also past the end, where nothing is read."""
        self._checked()
        self._at = moved(self._at, self.size, offset, whence)
        return self._at

    def readinto(self, buffer: Any) -> int:
        """Fills a buffer from the position on, with LONGEST_READ bytes at most: the number of bytes, which is 0 at the end."""
        self._checked()
        into = memoryview(buffer).cast("B")
        count = max(0, min(len(into), self.size - self._at, LONGEST_READ))
        if count:
            self._client.read_into(self.blob, self.version, self._at, into[:count])
        self._at += count
        return count

    def readall(self) -> bytes:
        """All bytes from the position on."""
        self._checked()
        out = io.BytesIO()
        if self._at < self.size:
            self._at += self._client.read_to(out, self.blob, self.version, self._at, piece=PIECE)
        return out.getvalue()

    def _checked(self) -> bool:
        """Whether it is closed: it raises ValueError where it is."""
        if self.closed:
            raise ValueError("the file is closed")
        return False
