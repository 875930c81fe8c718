# SPDX-License-Identifier: Apache-2.0
"""A client of `tabd serve` that needs only Python's standard library; `tabd.aio` is the client for asyncio.

    import tabd

    client = tabd.Client(4000)
    person = client.create_table("person", ["name", "age"], index=["age"])

    for attempt in client.attempts():
        with attempt as t:
            t.write(("person", "alice", 30))

    @client.transactional
    def birthday(t: tabd.Transaction, name: str) -> None:
        [(_, _, age)] = t.wread("person", name)
        t.write(("person", name, age + 1))

    birthday("alice")

    for event in person.events(dump=True):
        print(event)

Terms. A str is an atom, bytes are a binary; an int is an integer, a tuple a tuple, a list a list and a dict a map, and `Pairs` is a
map with a key that Python can't hash. There is no term for a float, a bool or None. A record is a tuple: the table's name,
the key, and the other attributes. A record is read as it was written.

Connections. A transaction uses a connection until it has ended, and `events` and a `Mirror` each use one of their own. The
server serves as many connections in all as its `--connections` says, including ended ones, and ends when all of them have ended; with
`--forever` it serves as many at once, and never ends. So a client opens a connection only if all that it has are in use, and keeps it.
"""

from __future__ import annotations

from .client import Client
from .errors import (
    Aborted,
    AlreadyExists,
    AlreadySubscribed,
    BadCommand,
    BadDef,
    BadTerm,
    BadType,
    Closed,
    ConnectTimeout,
    Ended,
    Error,
    InTransaction,
    Locked,
    LockTimeout,
    NoExists,
    NoIndex,
    NoMemory,
    NoMore,
    NotConnected,
    NotServed,
    NotSubscribed,
    NoTransaction,
    OutboxFull,
    OutcomeUnknown,
    OverflowPending,
    PoolTimeout,
    Refused,
    Restart,
    SystemLimit,
    TimedOut,
    WrongProcess,
    WrongThread,
)
from .events import Begin, Delete, DeleteObject, End, Event, Overflow, Write
from .mirror import Mirror
from .subscriptions import Events
from .tables import Table
from .terms import Pairs, Record, Term, decode, encode
from .transactions import OneShot, Transaction

__version__ = "0.1.0"

__all__ = [
    "Aborted",
    "AlreadyExists",
    "AlreadySubscribed",
    "BadCommand",
    "BadDef",
    "BadTerm",
    "BadType",
    "Begin",
    "Client",
    "Closed",
    "ConnectTimeout",
    "Delete",
    "DeleteObject",
    "End",
    "Ended",
    "Error",
    "Event",
    "Events",
    "InTransaction",
    "LockTimeout",
    "Locked",
    "Mirror",
    "NoExists",
    "NoIndex",
    "NoMemory",
    "NoMore",
    "NoTransaction",
    "NotConnected",
    "NotServed",
    "NotSubscribed",
    "OneShot",
    "OutboxFull",
    "OutcomeUnknown",
    "Overflow",
    "OverflowPending",
    "Pairs",
    "PoolTimeout",
    "Record",
    "Refused",
    "Restart",
    "SystemLimit",
    "Table",
    "Term",
    "TimedOut",
    "Transaction",
    "Write",
    "WrongProcess",
    "WrongThread",
    "decode",
    "encode",
]
