"""Updates that follow one another, none of which is sent twice."""
from __future__ import annotations

import time
from typing import TYPE_CHECKING, Optional

from .errors import ConnectionLost, Error, TimedOut, TooManyOpen
from .values import Appended, Data, Update

if TYPE_CHECKING:
    from .session import Session

# For so many seconds a lost update's blob is waited for, where the client has no timeout of its own.
_RECOVERY = 10.0
# The server may still be at work on what it took before a connection was lost: so there is a second look after so many seconds.
_SECOND_LOOK = 0.5


class Losses:
    """Counts connections that were lost one after another. Nobody is to try for ever."""

    def __init__(self) -> None:
        self._count = 0

    def add(self, lost: ConnectionLost) -> None:
        """One more; it is raised where they are too many."""
        self._count += 1
        if self._count > 3:
            raise lost

    def forget(self) -> None:
        """Something was done in between."""
        self._count = 0


class Updates:
    """Updates of one blob, one after another: appends, or from an offset on writes of bytes that follow one another. `done` tells how far they
    are. Session.append_from tells what becomes of an update whose connection is lost."""

    def __init__(self, session: Session, blob: int, offset: Optional[int] = None) -> None:
        self.blob = blob
        self.done = Appended(None, None, 0, None)
        self._session, self._offset = session, offset
        # A version that was numbered before the next update is.
        self._before: Optional[int] = None

    async def put(self, data: Data) -> Update:
        """Makes the next update. An Error that it raises has `done`."""
        count = memoryview(data).nbytes
        try:
            if self._before is None:
                self._before = (await self._session.status(self.blob)).assigned
            update = await self._once(data, self._before)
        except Error as error:
            error.done = self.done
            raise
        self.done, self._before = self.done.then(update, count), update.version
        if self._offset is not None:
            self._offset += count
        return update

    async def _once(self, data: Data, before: int) -> Update:
        """The update, which is asked for again only where it wasn't done."""
        losses = Losses()
        while True:
            try:
                return await self._with_room(data)
            except ConnectionLost as lost:
                losses.add(lost)
                found = await self._found(memoryview(data).cast("B"), before, lost)
            if found is not None:
                return found

    async def _with_room(self, data: Data) -> Update:
        """The update, as soon as no more updates wait than may."""
        began = time.monotonic()
        while True:
            try:
                if self._offset is None:
                    return await self._session.append(self.blob, data)
                return await self._session.write(self.blob, self._offset, data)
            except TooManyOpen as full:
                limit = self._session.timeout
                left = None if limit is None else began + limit - time.monotonic()
                if left is not None and left <= 0:
                    raise TimedOut("%d updates of blob %d wait" % (full.limit, self.blob)) from None
            await self._session.wait_for_room(self.blob, left)

    async def _found(self, data: memoryview, before: int, lost: ConnectionLost) -> Optional[Update]:
        """The update whose reply was lost, or None where it wasn't done."""
        await self._session.recover(lost, self.blob)
        found = await self._look(data, before, lost)
        if found is None:
            await self._session.pause(_SECOND_LOOK)
            found = await self._look(data, before, lost)
        return found

    async def _look(self, data: memoryview, before: int, lost: ConnectionLost) -> Optional[Update]:
        """The one version behind one that was there before which is as the update would be."""
        session = self._session
        last = (await session.status(self.blob)).assigned
        if last == before:
            return None
        unknown = ConnectionLost("%s; whether %d bytes behind version %d were stored isn't known" % (lost, len(data), before))
        try:
            await session.wait_published(self.blob, last, _RECOVERY if session.timeout is None else None)
        except TimedOut:
            raise unknown from lost
        fits = [update for update in [await self._fit(data, version) for version in range(before + 1, last + 1)] if update is not None]
        there = self._offset is not None and await self._holds(data, before, self._offset)
        if there or len(fits) > 1:
            raise unknown from lost
        return fits[0] if fits else None

    async def _fit(self, data: memoryview, version: int) -> Optional[Update]:
        """The update of a version, if it put these bytes where they belong."""
        below, size = [await self._session.size(self.blob, one) for one in (version - 1, version)]
        offset = below if self._offset is None else self._offset
        if size != max(below, offset + len(data)) or not await self._holds(data, version, offset):
            return None
        return None if await self._holds(data, version - 1, offset) else Update(version, offset, size)

    async def _holds(self, data: memoryview, version: int, offset: int) -> bool:
        """Whether a version has these bytes at an offset."""
        if offset + len(data) > await self._session.size(self.blob, version):
            return False
        return await self._session.read(self.blob, version, offset, len(data)) == data
