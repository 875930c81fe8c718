# SPDX-License-Identifier: Apache-2.0
"""The events of a subscription."""

from __future__ import annotations

from dataclasses import dataclass, field
from typing import List, Optional, Tuple, Union

from .terms import Record, Term


@dataclass(frozen=True)
class Begin:
    """The subscription begins; with a dump, with the table's records at this moment."""

    table: str
    records: Optional[List[Record]]


@dataclass(frozen=True)
class Write:
    """A record was written. `age` is its transaction's; `old` has the key's records just before, if `detailed` was given; `commit`
    is the number of its commit, if the server sends it (`--batches`)."""

    record: Record
    age: int
    old: Optional[List[Record]] = None
    commit: Optional[int] = field(default=None, compare=False, repr=False)


@dataclass(frozen=True)
class Delete:
    """A key was deleted, also if it had no record."""

    table: str
    key: Term
    age: int
    old: Optional[List[Record]] = None
    commit: Optional[int] = field(default=None, compare=False, repr=False)


@dataclass(frozen=True)
class DeleteObject:
    """A record was deleted, also if the table did not have it."""

    record: Record
    age: int
    old: Optional[List[Record]] = None
    commit: Optional[int] = field(default=None, compare=False, repr=False)


@dataclass(frozen=True)
class End:
    """The subscription has ended: `reason` is "deleted", with its table, or "unsubscribed"."""

    table: str
    reason: str


@dataclass(frozen=True)
class Overflow:
    """Events were lost, from commit `commit` on: they were read too slowly. All subscriptions of the connection have ended."""

    commit: int


Change = Union[Write, Delete, DeleteObject]
Event = Union[Begin, Change, End, Overflow]


@dataclass(frozen=True)
class Batch:
    """All changes of a commit, in the order of the operations: a frame of a server with `--batches`."""

    commit: int
    changes: Tuple[Change, ...]


Item = Union[Event, Batch]


def _change(event: Record, commit: Optional[int] = None) -> Change:
    """A table event's change, of either level. Only a deletion of a key has a pair of a table and a key, since no record is a pair."""
    kind, age, old = event[0], event[-1][1], None
    what = event[1]
    if len(event) == 5:
        what, old = event[2], event[3]
    if kind == "write":
        return Write(what, age, old, commit)
    if len(what) == 2:
        return Delete(what[0], what[1], age, old, commit)
    return DeleteObject(what, age, old, commit)


def item_of(term: Record) -> Item:
    """The event, batch or marker of a frame that is no reply."""
    kind = term[0]
    if kind == "mnesia_table_event":
        return _change(term[1])
    if kind == "batch":
        return Batch(term[1], tuple(_change(event, term[1]) for _, event in term[2]))
    if kind == "mnesia_table_begin":
        return Begin(term[1], term[3] if len(term) > 3 else None)
    if kind == "mnesia_table_end":
        return End(term[1], term[2])
    if kind == "mnesia_overflow":
        return Overflow(term[1])
    raise ValueError(f"{term!r:.100} is no event")
