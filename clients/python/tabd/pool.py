# SPDX-License-Identifier: Apache-2.0
"""The connections of a client, for its threads and for the processes that are forked from its own."""

from __future__ import annotations

import os
import threading
import time
import weakref
from typing import Callable, Dict, List, Optional

from .connection import Connection
from .errors import Closed, PoolTimeout

# An interrupt may free a slot without a notification, so a waiting thread looks again after so many seconds.
LOOK_SECONDS = 0.5


class Place:
    """A connection's slot in the pool, which is free again once nothing refers to it, however its user ended."""


class PooledConnection(Connection):
    place: Place


class _Connections:
    """The connections of one process: those not in use, and the slots of all."""

    def __init__(self) -> None:
        self.free: List[PooledConnection] = []
        self.places: weakref.WeakSet[Place] = weakref.WeakSet()
        # A lock of C, whose `with` no interrupt leaves locked.
        self.lock = threading.Lock()
        self.changed = threading.Condition(self.lock)

    def idle(self) -> Optional[PooledConnection]:
        while self.free:
            connection = self.free.pop()
            try:
                if connection.is_idle():
                    return connection
            except BaseException:
                self.drop(connection)
                raise
            self.drop(connection)
        return None

    def drop(self, connection: PooledConnection) -> None:
        connection.close()
        self.places.discard(connection.place)


class Pool:
    def __init__(self, connect: Callable[[], PooledConnection], most: int, timeout: Optional[float] = None) -> None:
        if most < 1:
            raise ValueError(f"a client has at least one connection: {most}")
        self.connect, self.most, self.timeout = connect, most, timeout
        self.closed = False
        self._of: Dict[int, _Connections] = {os.getpid(): _Connections()}

    def _here(self) -> _Connections:
        """This process's. A forked child begins with none: both would read the same replies. The parent's lock may be locked for good."""
        process = os.getpid()
        here = self._of.get(process)
        if here is None:
            here = self._of.setdefault(process, _Connections())
            for other in [one for one in list(self._of) if one != process]:
                self._of.pop(other, None)
        return here

    @property
    def count(self) -> int:
        """How many there are, in use or not."""
        return len(self._here().places)

    def take(self) -> PooledConnection:
        """A connection that is not in use; if there is none, a new one; if there are as many as allowed, the next that is given back."""
        here, deadline = self._here(), None if self.timeout is None else time.monotonic() + self.timeout
        with here.lock:
            while True:
                if self.closed:
                    raise Closed("the client was closed")
                connection = here.idle()
                if connection is not None:
                    return connection
                if len(here.places) < self.most:
                    place = Place()
                    here.places.add(place)
                    break
                self._wait(here, deadline)
        return self._open(here, place)

    def _wait(self, here: _Connections, deadline: Optional[float]) -> None:
        left = LOOK_SECONDS if deadline is None else min(LOOK_SECONDS, deadline - time.monotonic())
        if left <= 0:
            raise PoolTimeout(f"no connection of {self.most} was free within {self.timeout} s")
        here.changed.wait(left)

    def _open(self, here: _Connections, place: Place) -> PooledConnection:
        try:
            connection = self.connect()
            connection.place = place
            return connection
        except BaseException:
            with here.lock:
                here.places.discard(place)
                here.changed.notify()
            raise

    def give(self, connection: Connection) -> None:
        here = self._of.get(connection.process)
        if here is None or not connection.is_ours() or not isinstance(connection, PooledConnection):
            connection.close()
            return
        with here.lock:
            if connection.closed or self.closed:
                here.drop(connection)
            else:
                here.free.append(connection)
            here.changed.notify()

    def close(self) -> None:
        here = self._here()
        self.closed = True
        with here.lock:
            while here.free:
                here.drop(here.free.pop())
            here.changed.notify_all()
