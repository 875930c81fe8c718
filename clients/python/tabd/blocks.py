# SPDX-License-Identifier: Apache-2.0
"""Blocks that run in a transaction: once (`Client.transaction`), or again until no lock is lost (`Client.attempts`)."""

from __future__ import annotations

from types import TracebackType
from typing import TYPE_CHECKING, Iterator, Optional, Type

from .errors import Error, NoMore, Restart
from .transactions import Session, Transaction, finish

if TYPE_CHECKING:
    from .client import Client


class Entered:
    """What a `with` has entered. It has the session while this thread is in the session's transaction by it, and no longer: an interrupt
    may come at any line, and what the thread does next must not be done in a transaction that no block will end."""

    session: Optional[Session] = None


class Block(Entered):
    """`with client.transaction() as t`, once."""

    def __init__(self, client: Client) -> None:
        self._client = client
        self._transaction: Optional[Transaction] = None

    def __enter__(self) -> Transaction:
        if self._transaction is not None:
            raise Error("a block is entered once: each has a transaction() of its own")
        self._transaction = opened(self._client, self, None)
        return self._transaction

    def __exit__(self, kind: Optional[Type[BaseException]], error: Optional[BaseException], trace: Optional[TracebackType]) -> None:
        transaction = self._transaction
        assert transaction is not None
        try:
            try:
                finish(transaction, kind is None)
            finally:
                if transaction.level == 1:
                    self._client._end(transaction._session)
        finally:
            self.session = None
            if transaction.level == 1:
                abandon(transaction._session)


def abandon(session: Session) -> None:
    """Ends a transaction whose end an interrupt has prevented, by closing its connection, without a wait for a reply."""
    if not session.over:
        session.over = True
        session.connection.close()
        # Its slot in the pool is free once nothing refers to it.
        del session.connection


def opened(client: Client, block: Entered, kept: Optional[Session]) -> Transaction:
    """A level in this thread's transaction, or the first level: of the transaction that is repeated, or of a new one."""
    outer = client._session()
    if outer is not None:
        return outer.open_level()
    session = kept or Session(client._pool.take(), client._lock_timeout)
    transaction = session.open()
    client._enter(block, session)
    return transaction


class Attempts(Iterator["Attempt"]):
    """The attempts of a block: there is another one after each that lost a lock, and none after any other."""

    def __init__(self, client: Client, retries: Optional[int], whole: bool = False) -> None:
        self._client, self._left = client, retries
        # Whether the block can't leave the loop but by an error.
        self._whole = whole
        self._started = self._again = False
        # That of the attempt that lost a lock: its transaction is still open at the server, with its age.
        self._session: Optional[Session] = None

    def __next__(self) -> Attempt:
        if self._started and not self._again:
            raise StopIteration
        self._started, self._again = True, False
        return Attempt(self)

    def _open(self, block: Entered) -> Transaction:
        transaction = opened(self._client, block, self._session)
        self._session = None
        return transaction

    def _finish(self, transaction: Transaction, error: Optional[BaseException]) -> bool:
        """Whether the block is repeated. A block that has caught `Restart` and ends normally may have left the loop, so
        `Restart` is raised again."""
        session = transaction._session
        if transaction.level > 1:
            finish(transaction, error is None)
            return False
        try:
            try:
                finish(transaction, error is None)
            except Restart as fault:
                if not self._whole:
                    raise
                error = fault
            if session.restarted and isinstance(error, Exception):
                self._count()
                self._again, self._session = True, session
        finally:
            if not self._again:
                self._client._end(session)
        return self._again

    def _count(self) -> None:
        if self._left is not None:
            if self._left <= 0:
                raise NoMore("nomore")
            self._left -= 1

    def __del__(self) -> None:
        """The loop ended between two attempts. Closing the connection ends its transaction, without a wait for a reply."""
        session = getattr(self, "_session", None)
        if session is not None:
            abandon(session)


class Attempt(Entered):
    """`with attempt as t`, once."""

    def __init__(self, attempts: Attempts) -> None:
        self._attempts = attempts
        self._transaction: Optional[Transaction] = None

    def __enter__(self) -> Transaction:
        if self._transaction is not None:
            raise Error("an attempt is entered once: the loop gives the next one")
        self._transaction = self._attempts._open(self)
        return self._transaction

    def __exit__(self, kind: Optional[Type[BaseException]], error: Optional[BaseException], trace: Optional[TracebackType]) -> bool:
        transaction, again = self._transaction, False
        assert transaction is not None
        try:
            again = self._attempts._finish(transaction, error)
            return again
        finally:
            self.session = None
            if transaction.level == 1 and not again:
                abandon(transaction._session)
