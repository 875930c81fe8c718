# SPDX-License-Identifier: Apache-2.0
"""What the client raises: a class for each refusal of the server, and for what may come of a transaction."""

from __future__ import annotations

from typing import Any, Dict, Type


class Error(Exception):
    """What this module raises."""


class Closed(Error, ConnectionError):
    """The connection has ended, and what its transaction did is undone."""


class TimedOut(Closed, TimeoutError):
    """No reply came within the client's `timeout`; the connection was closed for it."""


class OutcomeUnknown(Closed):
    """The connection has ended while a commit, a one-shot or a change of a table's definition was under way: it is done whole, or not at
    all."""


class NotConnected(Closed):
    """No connection could be opened, and nothing was asked."""


class NotServed(NotConnected):
    """The server refused the connection: it serves as many as its `--connections` says."""


class ConnectTimeout(NotConnected, TimedOut):
    """The server did not answer a new connection within the client's `connect_timeout`. Nothing was asked."""


class PoolTimeout(NotConnected, TimedOut):
    """All connections of the client were in use for as long as its `pool_timeout`. Nothing was asked."""


class WrongThread(Error):
    """A transaction was used by another thread than the one that opened it."""


class WrongProcess(Error):
    """A transaction, events or a mirror of the parent process were used in a forked child. Its client can be used: it opens connections of
    its own."""


class Restart(Error):
    """A lock was lost to an older transaction: this one has to be repeated, as `Client.run` does."""


class Aborted(Error):
    """The transaction, or its inner level, was aborted by `abort`. Nothing of it stays."""

    def __init__(self, reason: Any) -> None:
        super().__init__(reason)
        self.reason = reason


class NoMore(Aborted):
    """The transaction was restarted once more than its retries. Nothing of it stays."""


class LockTimeout(Error, TimeoutError):
    """An operation waited for a lock for longer than the client's `lock_timeout`. Its level was aborted: nothing of it stays."""


class Ended(Error):
    """The transaction was committed or aborted before."""


class Refused(Error):
    """The server refused a request, for this reason. Each refusal has a class of its own."""

    def __init__(self, reason: Any) -> None:
        super().__init__(reason)
        self.reason = reason


class NoExists(Refused):
    """There is no such table. The level that asked for it has ended."""


class BadType(Refused):
    """A record or a pattern doesn't fit the table. The level that asked for it has ended."""


class NoIndex(Refused):
    """There is no such index. The level that asked for it has ended."""


class AlreadyExists(Refused):
    """There is such a table."""


class BadDef(Refused):
    """The options of a table, or the attribute of an index, are not such."""


class Locked(Refused):
    """A transaction has or awaits a lock in the table."""


class SystemLimit(Refused):
    """A limit of the server is reached. A transaction stays open, and can commit."""


class NoMemory(Refused):
    """The server was refused memory, and nothing has changed. A transaction stays open, and can commit."""


class NoTransaction(Refused):
    """No transaction is open."""


class InTransaction(Refused):
    """A transaction is open in this thread."""


class AlreadySubscribed(Refused):
    """The session watches the table."""


class NotSubscribed(Refused):
    """The session doesn't watch the table at this level."""


class OutboxFull(Refused):
    """The session's outbox has no room."""


class OverflowPending(Refused):
    """The session's outbox overflowed, and it has not taken that yet."""


class BadTerm(Refused):
    """There is no term for a value, or it is too long or too deep."""


class BadCommand(Refused):
    """The term is no request: a table's name that is no atom, say."""


REFUSALS: Dict[Any, Type[Refused]] = {
    "no_exists": NoExists,
    "bad_type": BadType,
    "no_index": NoIndex,
    "already_exists": AlreadyExists,
    "bad_def": BadDef,
    "locked": Locked,
    "system_limit": SystemLimit,
    "no_memory": NoMemory,
    "no_transaction": NoTransaction,
    "in_transaction": InTransaction,
    "already_subscribed": AlreadySubscribed,
    "not_subscribed": NotSubscribed,
    "outbox_full": OutboxFull,
    "overflow": OverflowPending,
    "badterm": BadTerm,
    "badcommand": BadCommand,
}


def refusal(reason: Any) -> Refused:
    """The error for a refusal's last part."""
    word = reason[0] if isinstance(reason, tuple) and reason else reason
    return REFUSALS.get(word, Refused)(reason) if isinstance(word, str) else Refused(reason)
