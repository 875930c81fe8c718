# SPDX-License-Identifier: Apache-2.0
"""The events of tables, as an asynchronous iterator."""

from __future__ import annotations

import collections
from typing import AsyncIterator, Awaitable, Callable, Deque, Optional, Sequence, Set

from ..errors import Closed, NoExists
from ..events import Batch, Change, End, Event, Overflow
from ..subscriptions import subscription
from ..wire import result
from .connection import Connection


class Events(AsyncIterator[Event]):
    """The events of tables, as `tabd.Events`: `async for event in events`, best in `async with client.events(..) as events`, which closes the
    connection. A task that is cancelled while it waits for an event loses none."""

    def __init__(self, connect: Callable[[], Awaitable[Connection]], names: Sequence[str], dump: bool, detailed: bool) -> None:
        self._connect, self._names, self._dump, self._detailed = connect, names, dump, detailed
        self._connection: Optional[Connection] = None
        self._watched: Set[str] = set()
        # The changes of a batch that were not returned yet.
        self._changes: Deque[Change] = collections.deque()
        # After an overflow was returned, it has to subscribe again.
        self._lost = self._closed = False

    def __repr__(self) -> str:
        state = "closed" if self._closed else "open" if self._connection else "not open yet"
        return f"<tabd.aio.Events of {', '.join(map(repr, self._names))}, {state}>"

    async def _opened(self) -> Connection:
        if self._connection is not None:
            self._connection.check_process()
            return self._connection
        connection = await self._connect()
        try:
            for name in self._names:
                await self._subscribe(connection, name)
        except BaseException:
            connection.close()
            raise
        self._connection = connection
        return connection

    async def _subscribe(self, connection: Connection, name: str) -> None:
        result(await connection.ask(subscription(name, self._dump, self._detailed)))
        self._watched.add(name)

    async def _subscribe_anew(self, connection: Connection) -> None:
        """A table that is gone has ended."""
        self._lost = False
        for name in self._names:
            try:
                await self._subscribe(connection, name)
            except NoExists:
                connection.told.append(End(name, "deleted"))

    async def next(self, seconds: Optional[float] = None) -> Optional[Event]:
        """The next event, or None if none came within so many seconds."""
        if self._closed:
            raise Closed("the events were closed")
        connection = await self._opened()
        if self._changes:
            return self._changes.popleft()
        if self._lost:
            await self._subscribe_anew(connection)
        event = await connection.item(seconds)
        if isinstance(event, Batch):
            self._changes.extend(event.changes)
            return self._changes.popleft()
        if isinstance(event, End):
            self._watched.discard(event.table)
        if isinstance(event, Overflow):
            self._watched.clear()
            self._lost = True
        return event

    async def __anext__(self) -> Event:
        if self._closed:
            raise StopAsyncIteration
        connection = await self._opened()
        if not (self._changes or self._watched or self._lost or connection.told):
            await self.close()
            raise StopAsyncIteration
        try:
            event = await self.next()
        except Closed:
            if self._closed:
                raise StopAsyncIteration from None
            await self.close()
            raise
        assert event is not None
        return event

    async def __aenter__(self) -> Events:
        await self._opened()
        return self

    async def __aexit__(self, *_: object) -> None:
        await self.close()

    async def close(self) -> None:
        """Ends the events, also for a task that waits for one."""
        self._closed = True
        if self._connection is not None:
            self._connection.close()
