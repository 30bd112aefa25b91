"""A client of a BlobSeer server, with Python's standard library alone. It works with Python 3.8 and later, on systems of the Unix kind.

As a module:

    import blobseer

    with blobseer.connect("127.0.0.1:7440") as store:
        log = store.create()
        update = store.append(log, b"a:100;")
        store.wait_published(log, update.version)
        print(store.read(log, update.version, 0, update.size))

`connect` gives a Client, which has a method for each request. Client.pipeline is for requests that needn't wait for one another, Client.open for a
version as a file, and Client.follow for a log that grows. Pool is for threads, and `blobseer.aio` for asyncio. All that is raised for
the server's part is an Error: each refusal is a class of its own, and a Refused. A wrong number, address or time is a ValueError.

As a program:

    blobseer HOST:PORT create
    blobseer HOST:PORT append BLOB < file
    blobseer HOST:PORT read BLOB [VERSION [OFFSET LENGTH]] > file

and `blobseer --help` tells the rest. Where it isn't installed, the program is `blobseer.py` beside this package. A connection is one session of the
store, which serves its requests in order. What the requests mean, and when each is refused, stands in docs/FORMATS.md of the repository.
"""
__version__ = "1.0.0"

from .client import Client, Pipeline, connect
from .command import main
from .errors import (Already, BadFrame, BlobTooBig, ConnectionLost, EmptyUpdate, Error, FrameTooLong, Malformed, NoBlob, NoMemory, NoMemoryTicket,
                     NoTicket, NotPublished, OffsetPastSize, PageFault, Pending, ProtocolError, RangePastSize, ReadTooLong, Refused, TimedOut,
                     TooManyBlobs, TooManyOpen, TooManyTickets, TooManyVersions, UpdateTooLong)
from .files import BlobFile
from .pool import Pool
from .values import (LONGEST_READ, LONGEST_UPDATE, MOST_RANGES, PIECE, Appended, Blob, Recent, Started, Status, Update, Version)
from .wire import Reply

__all__ = [
    "Already", "Appended", "BadFrame", "Blob", "BlobFile", "BlobTooBig", "Client", "ConnectionLost", "EmptyUpdate", "Error", "FrameTooLong",
    "LONGEST_READ", "LONGEST_UPDATE", "MOST_RANGES", "Malformed", "NoBlob", "NoMemory", "NoMemoryTicket", "NoTicket", "NotPublished",
    "OffsetPastSize", "PIECE", "PageFault", "Pending", "Pipeline", "Pool", "ProtocolError", "RangePastSize", "ReadTooLong", "Recent", "Refused",
    "Reply", "Started", "Status", "TimedOut", "TooManyBlobs", "TooManyOpen", "TooManyTickets", "TooManyVersions", "Update", "UpdateTooLong", "Version",
    "connect", "main",
]
