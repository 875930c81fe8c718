# SPDX-License-Identifier: Apache-2.0
"""The events of tables, as an iterator."""

from __future__ import annotations

import collections
from typing import Deque, Iterator, Optional, Sequence, Set, Tuple

from .connection import Connection
from .errors import Closed, NoExists
from .events import Batch, Change, End, Event, Overflow
from .terms import Term
from .wire import result


def subscription(name: str, dump: bool, detailed: bool) -> Term:
    """The request of a subscription."""
    what: Tuple[Term, ...] = ("subscribe", ("table", name, "detailed" if detailed else "simple"))
    return (*what, "dump") if dump else what


class Events(Iterator[Event]):
    """The events of tables, in the order of the commits, and within one in the order of the operations: `for event in events`.

    No event is merged with another, and aborted changes have none. They begin with `Begin` of each table. After `Overflow` it subscribes to the
    tables again, and `Begin` comes again: the events between are lost, but with `dump` the new `Begin` has all records. The iteration ends when
    each table was deleted or after `close`; it raises `Closed` if the connection has ended."""

    def __init__(self, connection: Connection, names: Sequence[str], dump: bool, detailed: bool) -> None:
        self._connection, self._dump, self._detailed = connection, dump, detailed
        self._watched: Set[str] = set()
        # The changes of a batch that were not returned yet.
        self._changes: Deque[Change] = collections.deque()
        # After an overflow was returned, it has to subscribe again.
        self._names, self._lost = names, False
        try:
            self._subscribe()
        except BaseException:
            self.close()
            raise

    def __repr__(self) -> str:
        state = "closed" if self._connection.closed else "open"
        return f"<tabd.Events of {', '.join(map(repr, self._names))}, {state}>"

    def _subscribe(self) -> None:
        for name in self._names:
            result(self._connection.ask(subscription(name, self._dump, self._detailed)))
            self._watched.add(name)

    def _subscribe_anew(self) -> None:
        """A table that is gone has ended."""
        self._lost = False
        for name in self._names:
            try:
                result(self._connection.ask(subscription(name, self._dump, self._detailed)))
                self._watched.add(name)
            except NoExists:
                self._connection.told.append(End(name, "deleted"))

    def next(self, seconds: Optional[float] = None) -> Optional[Event]:
        """The next event, or None if none came within so many seconds."""
        self._connection.check_process()
        if self._changes:
            return self._changes.popleft()
        if self._lost:
            self._subscribe_anew()
        event = self._connection.item(seconds)
        if isinstance(event, Batch):
            self._changes.extend(event.changes)
            return self._changes.popleft()
        if isinstance(event, End):
            self._watched.discard(event.table)
        if isinstance(event, Overflow):
            self._watched.clear()
            self._lost = True
        return event

    def __next__(self) -> Event:
        self._connection.check_process()
        if self._connection.closed or not (self._changes or self._watched or self._lost or self._connection.told):
            self.close()
            raise StopIteration
        try:
            event = self.next()
        except Closed:
            if self._connection.closed:
                raise StopIteration from None
            self.close()
            raise
        assert event is not None
        return event

    def __enter__(self) -> Events:
        return self

    def __exit__(self, *_: object) -> None:
        self.close()

    def close(self) -> None:
        self._connection.close()
