"""Clients for threads."""
from __future__ import annotations

import contextlib
import threading
from types import TracebackType
from typing import Callable, Iterator, List, Optional, Type

from .client import Client
from .session import Address


class Pool:
    """At most `size` clients of one server, for as many threads as there may be:

        pool = blobseer.Pool("127.0.0.1:7440", size=4)
        with pool.client() as store:
            store.append(1, b"one more")

    A client is lent to one thread at a time, and whoever comes while all are lent waits. One that was lost, or on which replies are awaited or
    tickets are held when it comes back, is closed, and another takes its place. A server serves one client less at once than it has workers,
    so a greater pool waits for itself. The other arguments are those of `connect`."""

    def __init__(self, address: Address = None, timeout: Optional[float] = None, version: int = 2, repair_after: Optional[float] = None,
                 size: int = 3) -> None:
        if size < 1:
            raise ValueError("a pool has at least one client")
        self._connect: Callable[[], Client] = lambda: Client(address, timeout, version, repair_after)
        self._places = threading.BoundedSemaphore(size)
        self._lock = threading.Lock()
        self._idle: List[Client] = []
        self._closed = False

    def __enter__(self) -> Pool:
        return self

    def __exit__(self, kind: Optional[Type[BaseException]], value: Optional[BaseException], trace: Optional[TracebackType]) -> None:
        self.close()

    @contextlib.contextmanager
    def client(self) -> Iterator[Client]:
        """Lends a client for a `with` block. Where the pool is closed it raises ValueError."""
        with self._places:
            with self._lock:
                if self._closed:
                    raise ValueError("the pool is closed")
                store = self._idle.pop() if self._idle else None
            store = self._connect() if store is None else store
            try:
                yield store
            finally:
                self._take_back(store)

    def close(self) -> None:
        """Closes the clients that aren't lent now, and each of the others when it comes back."""
        with self._lock:
            self._closed = True
            idle, self._idle = self._idle, []
        for store in idle:
            store.close()

    def _take_back(self, store: Client) -> None:
        with self._lock:
            keep = store.idle and not self._closed
            if keep:
                self._idle.append(store)
        if not keep:
            store.close()
