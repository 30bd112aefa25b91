"""What the program has to do with the terminal and with its input: a line of progress, and an input that comes slowly."""
from __future__ import annotations

import math
import os
import select
import signal
import sys
import time
from types import FrameType, TracebackType
from typing import Callable, Iterator, List, Optional, TextIO, Type

# What has come is sent after so many seconds, though it isn't a whole piece.
QUIET = 1.0
# While nothing comes, the server hears something once in so many seconds.
ALIVE = 100.0
# After Ctrl-C the input has so many seconds to end.
_LAST = 1.0


class Progress:
    """A line on a terminal that tells how far a transfer is, from half a second on. Elsewhere it writes nothing."""

    def __init__(self, what: str, total: Optional[int] = None, quiet: bool = False, stream: Optional[TextIO] = None,
                 clock: Callable[[], float] = time.monotonic) -> None:
        self._what, self._total, self._clock = what, total, clock
        self._stream = sys.stderr if stream is None else stream
        self._shows = not quiet and self._stream is not None and self._stream.isatty()
        self._began = self._told = clock()
        self._shown = False

    def __call__(self, count: int) -> None:
        """So many bytes are done."""
        now = self._clock()
        if not self._shows or now - self._began < 0.5 or now - self._told < 0.1:
            return
        self._told, self._shown = now, True
        self._write("\r%s %s\x1b[K" % (self._what, self._line(count, count / (now - self._began))))

    def _line(self, count: int, rate: float) -> str:
        if self._total is None:
            return "%s, %s a second" % (_amount(count), _amount(rate))
        left = _duration(max(0, self._total - count) / rate) if rate else "?"
        return "%s of %s, %s a second, %s left" % (_amount(count), _amount(self._total), _amount(rate), left)

    def end(self) -> None:
        """Takes the line away, so that what follows begins a line of its own."""
        if self._shown:
            self._shown = False
            self._write("\r\x1b[K")

    def _write(self, text: str) -> None:
        try:
            self._stream.write(text)
            self._stream.flush()
        except OSError:
            self._shows = False


def _amount(count: float) -> str:
    """Bytes, as people read them."""
    for unit in ("B", "kB", "MB", "GB"):
        if count < 1000:
            break
        count /= 1000
    else:
        unit = "TB"
    return "%.0f %s" % (count, unit) if unit == "B" or count >= 100 else "%.1f %s" % (count, unit)


def _duration(seconds: float) -> str:
    whole = int(seconds + 0.5)
    if whole < 60:
        return "%d s" % whole
    return "%d:%02d:%02d" % (whole // 3600, whole // 60 % 60, whole % 60) if whole >= 3600 else "%d:%02d min" % (whole // 60, whole % 60)


class Interrupts:
    """Ctrl-C in a `with` block. It ends a wait for input at once. Elsewhere it is counted, so that what is being sent is sent to its end. A second
    one ends everything."""

    def __init__(self) -> None:
        self.count = 0
        self.waits = False

    def __enter__(self) -> Interrupts:
        self._before = signal.signal(signal.SIGINT, self._come)
        return self

    def __exit__(self, kind: Optional[Type[BaseException]], value: Optional[BaseException], trace: Optional[TracebackType]) -> None:
        signal.signal(signal.SIGINT, self._before)

    def _come(self, number: int, frame: Optional[FrameType]) -> None:
        self.count += 1
        if self.waits or self.count > 1:
            self.waits = False
            raise KeyboardInterrupt


class Input:
    """The bytes of a file, a pipe or a terminal, in pieces. What has come is given a second after its first byte, though it isn't a whole piece,
    and at the end. Ctrl-C makes an end, once the input has been silent for a moment. `alive` is called now and then while nothing comes."""

    def __init__(self, number: int, piece: int, alive: Callable[[], object], interrupts: Interrupts) -> None:
        self._number, self._piece, self._alive, self._interrupts = number, piece, alive, interrupts
        self._ended = False
        self._stop: Optional[float] = None

    def __iter__(self) -> Iterator[bytes]:
        while not self._ended:
            data = self._gathered()
            if data:
                yield data

    def _gathered(self) -> bytes:
        """What comes next: a piece, or what has come a second after its first byte, or what is left at the end."""
        parts: List[bytes] = []
        left, end = self._piece, math.inf
        while left and self._comes(end):
            try:
                part = os.read(self._number, left)
            except BlockingIOError:
                continue
            if not part:
                self._ended = True
                break
            parts.append(part)
            left -= len(part)
            end = min(end, time.monotonic() + QUIET)
        return b"".join(parts)

    def _comes(self, end: float) -> bool:
        """Waits until there is something to read or an end, or until a moment in time: whether there is."""
        while not self._interrupts.count:
            try:
                if self._ready(min(max(0.0, end - time.monotonic()), ALIVE), 0):
                    return True
            except KeyboardInterrupt:
                break
            if time.monotonic() >= end:
                return False
            self._alive()
        now = time.monotonic()
        self._stop = now + _LAST if self._stop is None else self._stop
        self._ended = now >= self._stop or not self._ready(_LAST / 4, 1)
        return not self._ended

    def _ready(self, limit: float, interrupts: int) -> bool:
        """Whether there is something to read within some seconds. More interrupts than there were end the wait."""
        self._interrupts.waits = True
        try:
            return self._interrupts.count <= interrupts and bool(select.select([self._number], [], [], limit)[0])
        finally:
            self._interrupts.waits = False
