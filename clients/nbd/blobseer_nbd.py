"""Blobs as disks: a plugin for nbdkit, which serves the blobs of a BlobSeer server over NBD.

    nbdkit python clients/nbd/blobseer_nbd.py server=HOST:PORT [OPTION=VALUE ...]

The export's name says what a connection opens:

    BLOB            the last published version of a blob, for reading and writing; each write is a new version of the blob
    BLOB@VERSION    a version, for reading alone
    BLOB@VERSION+   a branch of a version, made for this connection, for reading and writing

A disk has the size that its blob has when it is opened. The options:

    server=HOST:PORT     the BlobSeer server; needed
    blob=NAME            the export of a client that names none
    size=BYTES           a blob that is opened for writing and is shorter is made this long with zeros
    page=BYTES           the page size of the server, which is told as the preferred block size: 4096 unless said otherwise
    gather=BYTES         keep writes that are shorter until they come to so many bytes together, and join neighbours: 0, which is none,
                         unless said otherwise; at most 16M
    connections=N        how many connections to the server all disks together have at most: 2 unless said otherwise
    timeout=SECONDS      when a server that says nothing is given up: 30 unless said otherwise

A connection reads what it wrote itself, and with that what others wrote before. A flush waits until all that it wrote is published. With
`gather`, writes that were answered are kept for a second at most, and no longer than until a flush or a read that meets them: if nbdkit
is killed in between, they are lost, as with the write cache of a disk. Zeros and trims are writes of zeros.
"""
import contextlib
import errno
import functools
import itertools
import pathlib
import re
import sys
import threading
import time
from typing import Any, Callable, Dict, Iterator, List, NamedTuple, Optional, Set, Tuple

import nbdkit

sys.path.insert(0, str(pathlib.Path(__file__).resolve().parent.parent / "python"))
import blobseer  # noqa: E402

API_VERSION = 2

# What one request may carry, either way.
LONGEST = min(blobseer.LONGEST_READ, blobseer.LONGEST_UPDATE)
LARGEST = 1 << 40
# Zeros are written in parts of so many bytes, and only where a part isn't zero already.
ZEROED = 1 << 20
# The server takes 4 GiB of a connection and ends one that is silent for 300 seconds. A connection is left before.
MOST_SENT = 3 << 30
LONGEST_SILENCE = 240
# An update of another client that has held back a version for so many seconds is finished for that client.
REPAIR_AFTER = 5
GATHERED_FOR = 1.0
MOST_LISTED = 1000


class NoExport(Exception):
    """The name of an export names no blob or version that there is."""


class OtherServer(blobseer.Error):
    """The server isn't the one that kept the blobs: it was started anew, and they are gone."""


# The first kind that fits an error says what the NBD client is told; any other error is an input/output error.
_ERRORS: List[Tuple[Tuple[type, ...], int]] = [
    ((NoExport,), errno.ENOENT),
    ((blobseer.TooManyVersions, blobseer.BlobTooBig, blobseer.TooManyBlobs), errno.ENOSPC),
    ((blobseer.NoMemory, blobseer.NoMemoryTicket, MemoryError), errno.ENOMEM),
]


def _errno_of(error: Exception) -> int:
    return next((number for kinds, number in _ERRORS if isinstance(error, kinds)), errno.EIO)


def _callback(call: Callable) -> Callable:
    """A callback of nbdkit whose errors come to the NBD client as the number that fits."""
    @functools.wraps(call)
    def told(*arguments: Any) -> Any:
        try:
            return call(*arguments)
        except Exception as error:
            nbdkit.set_error(_errno_of(error))
            raise
    return told


class Settings:
    """The options of the command line."""

    server = ""
    blob = ""
    size = 0
    page = 4096
    gather = 0
    connections = 2
    timeout = 30.0

    KINDS: Dict[str, Callable[[str], Any]] = {
        "server": str, "blob": str, "size": nbdkit.parse_size, "page": nbdkit.parse_size, "gather": nbdkit.parse_size,
        "connections": int, "timeout": float,
    }

    def put(self, key: str, value: str) -> None:
        if key not in self.KINDS:
            raise ValueError("there is no option %s" % key)
        setattr(self, key, self.KINDS[key](value))

    def check(self) -> None:
        """Raises ValueError where an option is missing or out of its range."""
        if not self.server:
            raise ValueError("server=HOST:PORT is needed")
        if self.page & (self.page - 1) or not 4 <= self.page <= 1 << 20:
            raise ValueError("page is a power of two from 4 to 1M")
        if self.gather > LONGEST or self.size > LARGEST:
            raise ValueError("gather is at most 16M, and size 1T")
        if self.connections < 1 or self.timeout <= 0:
            raise ValueError("connections and timeout are more than 0")


class Connection:
    """A connection to the server, with what it has sent and when it was last used."""

    def __init__(self, client: blobseer.Client) -> None:
        self.client = client
        self.sent = 0
        self.used = time.monotonic()

    @property
    def worn(self) -> bool:
        """Whether the server may end it soon, or has."""
        return self.sent > MOST_SENT or time.monotonic() - self.used > LONGEST_SILENCE


class Pool:
    """Connections to the server, each of which serves one thread at a time."""

    def __init__(self, address: str, most: int, timeout: float) -> None:
        self._address, self._most, self._timeout = address, most, timeout
        self._idle: List[Connection] = []
        self._count = 0
        self._changed = threading.Condition()
        self._seen: Optional[Tuple[int, int]] = None

    @contextlib.contextmanager
    def client(self, sending: int = 0) -> Iterator[blobseer.Client]:
        """A client for the block alone, which sends little more than so many bytes in it. What goes wrong in the block ends the connection,
        so that the server finishes what it may hold for it."""
        connection = self._take()
        try:
            yield connection.client
        except BaseException:
            self._leave(connection)
            raise
        connection.sent += sending + 1024
        connection.used = time.monotonic()
        with self._changed:
            self._idle.append(connection)
            self._changed.notify()

    def saw(self, blob: int, version: int) -> None:
        """Notes a version that was numbered: a server that doesn't have it later is another one."""
        self._seen = blob, version

    def rest(self) -> None:
        """Ends the connections that nobody uses, and so gives their places at the server to others."""
        with self._changed:
            idle, self._idle = self._idle, []
        for connection in idle:
            self._leave(connection)

    def _take(self) -> Connection:
        taken = None
        while taken is None:
            with self._changed:
                self._changed.wait_for(lambda: self._idle or self._count < self._most)
                idle = self._idle.pop() if self._idle else None
                self._count += idle is None
            if idle is None:
                taken = self._connected()
            elif idle.worn:
                self._leave(idle)
            else:
                taken = idle
        return taken

    def _connected(self) -> Optional[Connection]:
        """A new connection that the server serves. None if the server has no place for one more, and others are there."""
        try:
            connection = Connection(blobseer.connect(self._address, self._timeout, repair_after=REPAIR_AFTER))
        except BaseException:
            self._forget()
            raise
        try:
            self._greet(connection.client)
            return connection
        except TimeoutError:
            self._leave(connection)
            if not self._shrunk():
                raise
            return None
        except BaseException:
            self._leave(connection)
            raise

    def _shrunk(self) -> bool:
        """Makes do with the connections that are there, if there are any."""
        with self._changed:
            self._most = self._count or self._most
            nbdkit.debug("the server has no place for more than %d connections" % self._count)
            return self._count > 0

    def _greet(self, client: blobseer.Client) -> None:
        """Waits until the server serves this client, and sees that it is still the same server."""
        if client.version != 2:
            raise blobseer.ProtocolError("the server speaks version 1 of the frames, and version 2 is needed")
        if self._seen is None:
            return
        blob, version = self._seen
        try:
            gone = client.status(blob).assigned < version
        except blobseer.NoBlob:
            gone = True
        if gone:
            raise OtherServer("version %d of blob %d is gone: the server was started anew. Start nbdkit anew too" % (version, blob))

    def _leave(self, connection: Connection) -> None:
        connection.client.close()
        self._forget()

    def _forget(self) -> None:
        with self._changed:
            self._count -= 1
            self._changed.notify()


class Opened(NamedTuple):
    """What an export's name means: a blob at a version, and the size of that."""

    blob: int
    version: int
    size: int
    writable: bool
    same: bool  # whether the name means the same bytes to every connection
    told: str


class Disk:
    """A blob as one NBD connection has it."""

    def __init__(self, pool: Pool, opened: Opened) -> None:
        self.opened = opened
        self.size = opened.size
        self._pool, self._blob = pool, opened.blob
        self._version = self._published = opened.version
        self._lock = threading.Lock()
        pool.saw(opened.blob, opened.version)

    def grow(self, size: int) -> None:
        """Appends zeros until the blob has so many bytes."""
        while self.size < size:
            zeros = bytes(min(size - self.size, LONGEST))
            self.size = self._updated(len(zeros), lambda store: store.append(self._blob, zeros)).size
        self.flush()

    def read(self, buffer: memoryview, offset: int) -> None:
        """Fills a buffer with the bytes from an offset on."""
        version = self._version
        with self._pool.client() as store:
            for begin in range(0, len(buffer), LONGEST):
                part = buffer[begin:begin + LONGEST]
                try:
                    store.read_into(self._blob, version, offset + begin, part)
                except blobseer.NotPublished:
                    store.wait_published(self._blob, version)
                    store.read_into(self._blob, version, offset + begin, part)

    def write(self, offset: int, data: memoryview) -> None:
        """Puts bytes at an offset: a new version for each 16 MiB."""
        for begin in range(0, len(data), LONGEST):
            part = data[begin:begin + LONGEST]
            self._updated(len(part), lambda store: store.write(self._blob, offset + begin, part))

    def zero(self, offset: int, count: int) -> None:
        """Makes bytes zero. Only parts that aren't zero already are written, since zeros take memory as other bytes do."""
        for begin in range(offset, offset + count, ZEROED):
            part = bytearray(min(ZEROED, offset + count - begin))
            zeros = bytes(len(part))
            self.read(memoryview(part), begin)
            if part != zeros:
                self.write(begin, memoryview(zeros))

    def flush(self) -> None:
        """Waits until all that this connection wrote is published."""
        version = self._version
        if version > self._published:
            with self._pool.client() as store:
                store.wait_published(self._blob, version)
            with self._lock:
                self._published = max(self._published, version)

    def close(self) -> None:
        """Nothing more is asked of this disk."""

    def _updated(self, count: int, send: Callable[[blobseer.Client], blobseer.Update]) -> blobseer.Update:
        """Sends an update of so many bytes, and again where as many updates of the blob wait as may."""
        update = None
        while update is None:
            with self._pool.client(count) as store:
                try:
                    update = send(store)
                except blobseer.TooManyOpen:
                    held = store.status(self._blob).held
                    if held:
                        store.wait_published(self._blob, held)
        with self._lock:
            self._version = max(self._version, update.version)
        self._pool.saw(self._blob, update.version)
        return update


class Pieces:
    """Pieces of bytes by their offsets, of which no two touch."""

    def __init__(self) -> None:
        self._at: Dict[int, bytearray] = {}
        self.count = 0  # the bytes of all

    def meeting(self, begin: int, end: int) -> List[int]:
        """The offsets of the pieces that have bytes of a range, in rising order."""
        return sorted(at for at, piece in self._at.items() if at < end and begin < at + len(piece))

    def get(self, at: int) -> bytes:
        return bytes(self._at[at])

    def take(self, at: int) -> bytearray:
        """Takes a piece away; where there is none, no bytes."""
        piece = self._at.pop(at, bytearray())
        self.count -= len(piece)
        return piece

    def put(self, offset: int, data: memoryview) -> None:
        """Lays bytes over those that are there, and joins them with the pieces that they touch."""
        end = offset + len(data)
        met = self.meeting(offset - 1, end + 1)
        begin = met.pop(0) if met and met[0] <= offset else offset
        joined = self.take(begin)
        joined[offset - begin:end - begin] = data
        for at in met:
            joined += self.take(at)[begin + len(joined) - at:]
        self._at[begin] = joined
        self.count += len(joined)


class GatheringDisk(Disk):
    """A disk that keeps small writes for a while and joins them, as the write cache of a disk does."""

    def __init__(self, pool: Pool, opened: Opened, most: int) -> None:
        super().__init__(pool, opened)
        self._most = most
        self._pieces = Pieces()
        self._timer: Optional[threading.Timer] = None
        # Held while pieces are written too, so that what is put over one of them goes out after it.
        self._gathering = threading.RLock()

    def read(self, buffer: memoryview, offset: int) -> None:
        self._write_out(offset, offset + len(buffer))
        super().read(buffer, offset)

    def write(self, offset: int, data: memoryview) -> None:
        if len(data) >= self._most:
            self._write_out(offset, offset + len(data))
            super().write(offset, data)
            return
        with self._gathering:
            if self._pieces.count + len(data) > self._most:
                self._write_out()
            self._pieces.put(offset, data)
            self._write_soon()

    def flush(self) -> None:
        self._write_out()
        super().flush()

    def close(self) -> None:
        with self._gathering:
            if self._timer is not None:
                self._timer.cancel()
            self._write_out()
        super().close()

    def _write_out(self, begin: int = 0, end: int = sys.maxsize) -> None:
        """Writes the pieces that meet a range. A piece is kept until its write is done, so that one that goes wrong is tried again."""
        with self._gathering:
            for at in self._pieces.meeting(begin, end):
                super().write(at, memoryview(self._pieces.get(at)))
                self._pieces.take(at)

    def _write_soon(self) -> None:
        if self._timer is None:
            self._timer = threading.Timer(GATHERED_FOR, self._write_now)
            self._timer.daemon = True
            self._timer.start()

    def _write_now(self) -> None:
        with self._gathering:
            self._timer = None
            try:
                self._write_out()
            except Exception as error:
                nbdkit.debug("what was gathered isn't written yet: %s" % error)
                self._write_soon()


# ---- what nbdkit calls

_settings = Settings()
_pool: Pool = None  # type: ignore[assignment]
_disks: Set[Disk] = set()
# Held while a disk is opened, so that two don't make the same blob longer.
_opening = threading.Lock()


def config(key: str, value: str) -> None:
    _settings.put(key, value)


def config_complete() -> None:
    global _pool
    _settings.check()
    _pool = Pool(_settings.server, _settings.connections, _settings.timeout)


def thread_model() -> int:
    return nbdkit.THREAD_MODEL_PARALLEL


def default_export(readonly: bool, is_tls: bool) -> str:
    return _settings.blob


@_callback
def list_exports(readonly: bool, is_tls: bool) -> List[Tuple[str, str]]:
    """The export of the option `blob`, or else the first thousand blobs."""
    if _settings.blob:
        return [(_settings.blob, "")]
    with _pool.client() as store:
        return [(str(blob), "version %d, %d bytes" % recent) for blob, recent in itertools.islice(_blobs(store), MOST_LISTED)]


def _blobs(store: blobseer.Client) -> Iterator[Tuple[int, blobseer.Recent]]:
    """The blobs that there are; their ids count from 1."""
    with contextlib.suppress(blobseer.NoBlob):
        for blob in itertools.count(1):
            yield blob, store.recent(blob)


@_callback
def open(readonly: bool) -> Disk:
    """The disk that the export's name means."""
    name = nbdkit.export_name()
    form = re.fullmatch("([0-9]{1,19})(?:@([0-9]{1,19})([+]?))?", name)
    if form is None:
        raise NoExport("an export is BLOB, BLOB@VERSION or BLOB@VERSION+, and not %r" % name)
    blob, version, branches = int(form[1]), form[2] and int(form[2]), form[3] == "+"
    with _opening:
        try:
            opened = _opened(blob, version, branches, readonly)
        except (blobseer.NoBlob, blobseer.NotPublished) as refusal:
            raise NoExport("there is no export %s: %s" % (name, refusal)) from None
        nbdkit.debug("export %s is %s" % (name, opened.told))
        disk = _disk(opened)
    _disks.add(disk)
    return disk


def _disk(opened: Opened) -> Disk:
    if not opened.writable:
        return Disk(_pool, opened)
    disk = GatheringDisk(_pool, opened, _settings.gather) if _settings.gather else Disk(_pool, opened)
    disk.grow(_settings.size)
    return disk


def _opened(blob: int, version: Optional[int], branches: bool, readonly: bool) -> Opened:
    """What is opened. The newest version of a blob has what all earlier connections wrote to it."""
    if version is None:
        for disk in [disk for disk in list(_disks) if disk.opened.blob == blob]:
            disk.flush()
    with _pool.client() as store:
        if version is None:
            recent = store.recent(blob)
            return Opened(blob, *recent, not readonly, False, "blob %d from version %d on" % (blob, recent.version))
        if branches and not readonly:
            branch = store.branch(blob, version)
            told = "blob %d, a branch of version %d of blob %d" % (branch, version, blob)
            return Opened(branch, version, store.size(branch, version), True, False, told)
        return Opened(blob, version, store.size(blob, version), False, True, "version %d of blob %d" % (version, blob))


def close(disk: Disk) -> None:
    try:
        disk.close()
    finally:
        _disks.discard(disk)
        _pool.rest()


def cleanup() -> None:
    """nbdkit ends. It doesn't close the disks of the connections that there are, which may still have something to write."""
    for disk in list(_disks):
        try:
            close(disk)
        except Exception as error:
            nbdkit.debug("what was gathered isn't written: %s" % error)


def export_description(disk: Disk) -> str:
    return disk.opened.told


def get_size(disk: Disk) -> int:
    return disk.size


def block_size(disk: Disk) -> Tuple[int, int, int]:
    return 1, max(_settings.page, 512), LONGEST


def can_write(disk: Disk) -> bool:
    return disk.opened.writable


def can_multi_conn(disk: Disk) -> bool:
    """What is written over one connection is seen over another only once that is opened, so this is for a version alone."""
    return disk.opened.same


def is_rotational(disk: Disk) -> bool:
    return False


@_callback
def pread(disk: Disk, buffer: memoryview, offset: int, flags: int) -> None:
    disk.read(buffer, offset)


@_callback
def pwrite(disk: Disk, data: memoryview, offset: int, flags: int) -> None:
    disk.write(offset, data)


@_callback
def flush(disk: Disk, flags: int) -> None:
    disk.flush()


@_callback
def zero(disk: Disk, count: int, offset: int, flags: int) -> None:
    disk.zero(offset, count)


@_callback
def trim(disk: Disk, count: int, offset: int, flags: int) -> None:
    disk.zero(offset, count)
