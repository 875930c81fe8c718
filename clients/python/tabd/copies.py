# SPDX-License-Identifier: Apache-2.0
"""The tables of a mirror: their records, as of the events that were applied."""

from __future__ import annotations

from typing import Dict, List, Optional, Sequence, Set, Union

from .errors import Error
from .events import Batch, Begin, Delete, DeleteObject, End, Event, Item, Overflow, Write
from .terms import Record, Term, encode


class Copies:
    """The copy of each table, sorted by its encoded keys, in the server's order."""

    def __init__(self, names: Sequence[str]) -> None:
        self.names = names
        # How an event is applied depends on the table's type.
        self.types: Dict[str, str] = {}
        self._copies: Dict[str, Dict[bytes, List[Record]]] = {name: {} for name in names}
        self._started: Set[str] = set()
        self.overflows = 0
        self.commit: Optional[int] = None

    @property
    def live(self) -> bool:
        return len(self._started) == len(self._copies)

    def _copy(self, name: str) -> Dict[bytes, List[Record]]:
        copy = self._copies.get(name)
        if copy is None:
            raise Error(f"the mirror does not follow the table {name!r}")
        return copy

    def read(self, name: str, key: Term) -> List[Record]:
        return list(self._copy(name).get(encode(key), ()))

    def all_keys(self, name: str) -> List[Term]:
        return [records[0][1] for _, records in sorted(self._copy(name).items())]

    def records(self, name: str) -> List[Record]:
        return [record for _, records in sorted(self._copy(name).items()) for record in records]

    def stop(self) -> None:
        """The connection has ended: the copies are as old as that."""
        self._started.clear()
        self.commit = None

    def apply(self, item: Item) -> None:
        if isinstance(item, Batch):
            for change in item.changes:
                self._take(change)
            self.commit = item.commit
        else:
            self._take(item)

    def _take(self, event: Event) -> None:
        if isinstance(event, Begin):
            self._begin(event)
        elif isinstance(event, End):
            self._copies[event.table] = {}
            self._started.discard(event.table)
        elif isinstance(event, Overflow):
            self.overflows += 1
            self.stop()
        elif isinstance(event, Delete):
            self._copies[event.table].pop(encode(event.key), None)
        else:
            self._change(event)

    def _begin(self, event: Begin) -> None:
        copy: Dict[bytes, List[Record]] = {}
        for record in event.records or ():
            copy.setdefault(encode(record[1]), []).append(record)
        self._copies[event.table] = copy
        self._started.add(event.table)

    def _change(self, event: Union[Write, DeleteObject]) -> None:
        record = event.record
        copy, key = self._copies[record[0]], encode(record[1])
        if isinstance(event, DeleteObject):
            kept = [one for one in copy.get(key, ()) if one != record]
        elif self.types[record[0]] == "set":
            kept = [record]
        else:
            there = copy.get(key, [])
            kept = there if record in there else [*there, record]
        if kept:
            copy[key] = kept
        else:
            copy.pop(key, None)
