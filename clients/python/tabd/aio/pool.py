# SPDX-License-Identifier: Apache-2.0
"""The connections of a client, for the tasks of a loop."""

from __future__ import annotations

import asyncio
import collections
import os
import weakref
from typing import Awaitable, Callable, Deque, List, Optional, Tuple

from ..errors import Closed, PoolTimeout
from ..pool import LOOK_SECONDS, Place
from .connection import Connection


class _Connections:
    """Those of one loop of one process."""

    def __init__(self) -> None:
        self.free: List[Connection] = []
        self.places: weakref.WeakSet[Place] = weakref.WeakSet()
        self.waiters: Deque[asyncio.Future[None]] = collections.deque()

    def idle(self) -> Optional[Connection]:
        while self.free:
            connection = self.free.pop()
            if connection.is_idle():
                return connection
            self.drop(connection)
        return None

    def drop(self, connection: Connection) -> None:
        connection.close()
        self.places.discard(connection.place)

    def wake(self) -> None:
        """The one that waits the longest."""
        while self.waiters:
            waiter = self.waiters.popleft()
            if not waiter.done():
                return waiter.set_result(None)

    async def wait(self, seconds: float) -> None:
        waiter: asyncio.Future[None] = asyncio.get_running_loop().create_future()
        self.waiters.append(waiter)
        try:
            await asyncio.wait({waiter}, timeout=seconds)
        except BaseException:
            # This task was woken, but can't go on: another one has to.
            if waiter.done():
                self.wake()
            raise
        finally:
            waiter.cancel()


class Pool:
    def __init__(self, connect: Callable[[], Awaitable[Connection]], most: int, timeout: Optional[float]) -> None:
        if most < 1:
            raise ValueError(f"a client has at least one connection: {most}")
        self.connect, self.most, self.timeout = connect, most, timeout
        self.closed = False
        self._key: Tuple[int, Optional[asyncio.AbstractEventLoop]] = (os.getpid(), None)
        self._connections = _Connections()

    def _here(self) -> _Connections:
        """A forked child, and a loop that is not the one of before, begin with no connection: a transport is of its loop."""
        key = (os.getpid(), asyncio.get_running_loop())
        if self._key != key:
            for connection in self._connections.free:
                connection.close()
            self._key, self._connections = key, _Connections()
        return self._connections

    @property
    def count(self) -> int:
        return len(self._connections.places)

    async def take(self) -> Connection:
        """A connection that is not in use; if there is none, a new one; if there are as many as allowed, the next that is given back."""
        here, loop = self._here(), asyncio.get_running_loop()
        end = None if self.timeout is None else loop.time() + self.timeout
        while True:
            if self.closed:
                raise Closed("the client was closed")
            connection = here.idle()
            if connection is not None:
                return connection
            if len(here.places) < self.most:
                break
            left = LOOK_SECONDS if end is None else min(LOOK_SECONDS, end - loop.time())
            if left <= 0:
                raise PoolTimeout(f"no connection of {self.most} was free within {self.timeout} s")
            await here.wait(left)
        place = Place()
        here.places.add(place)
        try:
            connection = await self.connect()
            connection.place = place
            return connection
        except BaseException:
            here.places.discard(place)
            here.wake()
            raise

    def give(self, connection: Connection) -> None:
        here = self._connections
        if not connection.is_ours() or connection.place not in here.places:
            return connection.close()
        if connection.closed or self.closed or not connection.is_idle():
            here.drop(connection)
        else:
            here.free.append(connection)
        here.wake()

    def close(self) -> None:
        self.closed = True
        here = self._connections
        while here.free:
            here.drop(here.free.pop())
        while here.waiters:
            here.wake()
