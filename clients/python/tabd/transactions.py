# SPDX-License-Identifier: Apache-2.0
"""Transactions, their levels, and one-shots."""

from __future__ import annotations

import contextlib
import threading
import weakref
from types import TracebackType
from typing import TYPE_CHECKING, Any, List, NoReturn, Optional, Tuple, Type

from .connection import Connection
from .errors import Aborted, Closed, Ended, Error, LockTimeout, OutcomeUnknown, Restart, WrongProcess, WrongThread, refusal
from .operations import Gathered, Operations
from .terms import Record, Term
from .wire import result

if TYPE_CHECKING:
    from .client import Client

LOST = "a lock was lost to an older transaction: the transaction is to be done again, as Client.attempts and Client.run do"


class Session:
    """A connection with a transaction open, and its levels from the first to the innermost.

    `begin` is sent together with the first operation. Until then nothing is open at the server, and the age is None."""

    def __init__(self, connection: Connection, lock_timeout: Optional[float] = None) -> None:
        self.connection, self.lock_timeout = connection, lock_timeout
        self.thread = threading.get_ident()
        # Only its block keeps each one: if an interrupt ends a block early, its connection is closed too, which ends the transaction.
        self.levels: List[weakref.ref[Transaction]] = []
        self.age: Optional[int] = None
        # After a restart the server has the transaction open at its first level, empty, with the same age.
        self.restarted = self.over = False
        # How many requests of the connection have changed the levels here as they did at the server.
        self.settled = connection.asked

    @property
    def under_way(self) -> bool:
        """An interrupt came after a request was sent, and before its reply has changed the levels here."""
        return self.settled != self.connection.asked

    def settle(self) -> None:
        self.settled = self.connection.asked

    def open(self) -> Transaction:
        """The first level, also of a transaction that is repeated after a restart."""
        self.restarted = False
        return self._opened()

    def open_level(self) -> Transaction:
        """A level in the innermost one."""
        self.innermost().check()
        self.begin()
        self.answered(self.ask("begin"))
        return self._opened()

    def _opened(self) -> Transaction:
        transaction = Transaction(self, len(self.levels) + 1)
        self.levels.append(weakref.ref(transaction))
        self.settle()
        return transaction

    def ask_besides(self, request: Term) -> Any:
        """The reply to a request that changes no level."""
        reply = self.ask(request)
        self.settle()
        return reply

    def answered(self, reply: Any) -> Any:
        """What the reply gives. A request that is refused has changed no level."""
        if isinstance(reply, tuple) and reply[0] == "error":
            self.settle()
        return result(reply)

    def innermost(self) -> Transaction:
        """The level that takes operations."""
        if not self.levels:
            raise Restart(LOST) if self.restarted else Ended("the transaction has ended")
        innermost = self.levels[-1]()
        if innermost is None:
            raise Ended("the block of the innermost level has not ended")
        return innermost

    def begin(self) -> int:
        """The transaction's age. Begins the transaction if it has not begun."""
        if self.age is None:
            self._begun(self.ask("begin"))
            self.settle()
        assert self.age is not None
        return self.age

    def _begun(self, reply: Any) -> None:
        _, self.age = self.answered(reply)

    def ask(self, request: Term) -> Any:
        """The reply. If the connection ends, all levels end."""
        try:
            return self.connection.ask(request)
        except Closed as error:
            self.end_all(error)
            raise

    def ask_begun(self, request: Term) -> Any:
        """The reply to a request that needs an open transaction. If the `begin` before it is refused, the request is refused too."""
        if self.age is not None:
            return self.ask(request)
        try:
            begun, reply = self.connection.begin(request)
        except Closed as error:
            self.end_all(error)
            raise
        self._begun(begun)
        return reply

    def ask_in_time(self, operation: Term, seconds: float) -> Tuple[bool, Any]:
        """Whether the reply came in time, and the reply."""
        self.begin()
        try:
            return self.connection.ask_for(operation, seconds)
        except Closed as error:
            self.end_all(error)
            raise

    def end_all(self, error: Exception) -> None:
        while self.levels:
            level = self.levels[-1]()
            if level is not None:
                level.fault = error
            self.levels.pop()

    def restart(self) -> Restart:
        error = Restart(LOST)
        self.restarted = True
        self.end_all(error)
        return error

    def finish(self) -> None:
        """Ends the levels that a restart did not end. If a level could not be ended, or an interrupt came between a request and its reply, the
        connection is closed, which ends the transaction."""
        if not self.connection.closed and self.connection.is_ours():
            if self.levels or self.under_way:
                self.connection.close()
                self.end_all(Ended("the transaction has ended"))
            elif self.restarted:
                self.restarted = False
                with contextlib.suppress(Closed):
                    self.connection.ask(("abort", "client"))


class Transaction(Operations[List[Record], List[Any], None]):
    """An open transaction, or a level in one, of one thread: `Client.transaction`, `Client.attempts` and `Client.run` make it.

    An operation that is refused `NoExists`, `BadType` or `NoIndex` ends its level, at the server too. If that error is
    caught, each further operation of the level raises it again, and so does the level's end. `Restart` does the same to all levels.
    `commit` is the commit's number, after the commit."""

    def __init__(self, session: Session, level: int) -> None:
        self._session, self.level = session, level
        self.commit: Optional[int] = None
        self.fault: Optional[Exception] = None

    def __repr__(self) -> str:
        state = "open" if self.fault is None else "committed" if self.commit is not None else "ended"
        return f"<tabd.Transaction of age {self._session.age}, level {self.level}, {state}>"

    @property
    def age(self) -> int:
        """The number of the transaction in the server's run, as in the events of its changes. The transaction begins at the server with its
        first operation, or here. If two transactions need the same lock, the one with the lesser age waits, and the other is restarted."""
        if self._session.age is None:
            self.check()
        return self._session.begin()

    def check(self) -> None:
        """Checks that it is open, is the innermost level, and is used in the thread that opened it."""
        session = self._session
        if self.fault is not None:
            raise self.fault
        if session.over:
            # In a child process, which has left the parent's block.
            raise Ended("the transaction's block has ended")
        if session.thread != threading.get_ident():
            raise WrongThread("a transaction is used by the thread that opened it: each thread opens its own")
        session.connection.check_process()
        if session.levels[-1]() is not self:
            raise Error("a level in this one is open: it takes the operations")

    def _operate(self, operation: Term) -> Any:
        self.check()
        session = self._session
        if session.lock_timeout is None:
            in_time, reply = True, session.ask_begun(operation)
        else:
            in_time, reply = session.ask_in_time(operation, session.lock_timeout)
        error = self._levels_after(reply) if in_time else self._give_up(reply)
        session.settle()
        if error is not None:
            raise error
        return None if reply == "ok" else result(reply)

    def _levels_after(self, reply: Any) -> Optional[Exception]:
        """What is raised if the reply ends levels, which are ended here too."""
        if reply == "restart":
            return self._session.restart()
        if isinstance(reply, tuple) and reply[0] == "aborted":
            return self._end(refusal(reply[1]))
        return None

    def _give_up(self, reply: Any) -> Exception:
        """The operation got this reply although an abort was sent after it: the abort has ended one level more than the reply did."""
        error = LockTimeout(f"no lock within {self._session.lock_timeout} s")
        if reply == "restart":
            self._session.end_all(error)
            return error
        self._end(error)
        if isinstance(reply, tuple) and reply[0] == "aborted" and self._session.levels:
            self._session.innermost()._end(error)
        return error

    def _end(self, fault: Exception) -> Exception:
        # In this order, as an interrupt may come after each call.
        self.fault = fault
        self._session.levels.pop()
        return fault

    def transaction(self) -> Level:
        """A level in this one, as `with t.transaction() as inner`: its changes become this one's when it ends, and are undone if it
        ends by an error."""
        self.check()
        return Level(self._session)

    def abort(self, reason: Term) -> NoReturn:
        """Undoes this level and raises `Aborted`."""
        self.check()
        raise Aborted(reason)

    def _finish(self) -> None:
        """Commits it. A level whose fault was caught is not committed."""
        self.check()
        session = self._session
        try:
            reply = session.ask_begun("commit")
        except Closed as error:
            if self.level > 1:
                raise
            self.fault = OutcomeUnknown("the connection has ended while a commit was under way")
            raise self.fault from error
        reply = session.answered(reply)
        if self.level == 1:
            self.commit = reply[1]
        self._end(Ended("the transaction was committed"))
        session.settle()

    def _undo(self) -> None:
        """Undoes it, and ends the levels in it that are still open."""
        session = self._session
        if session.over:
            return
        if session.under_way or session.thread != threading.get_ident():
            # The levels are unknown, or its own thread may be in a request.
            session.connection.close()
        with contextlib.suppress(Closed, WrongProcess, Ended):
            while self.fault is None:
                innermost = session.innermost()
                if session.age is not None:
                    session.ask(("abort", "client"))
                innermost._end(Ended("the transaction was aborted"))
                session.settle()


class Level:
    """A level for as long as the block runs: it commits at the end of the block; an error that leaves the block undoes it."""

    def __init__(self, session: Session) -> None:
        self._session = session
        self._transaction: Optional[Transaction] = None

    def __enter__(self) -> Transaction:
        self._transaction = self._session.open_level()
        return self._transaction

    def __exit__(self, kind: Optional[Type[BaseException]], error: Optional[BaseException], trace: Optional[TracebackType]) -> None:
        assert self._transaction is not None
        finish(self._transaction, kind is None)


def finish(transaction: Transaction, commit: bool) -> None:
    """Commits, or aborts a level that can't or must not commit."""
    if not commit:
        return transaction._undo()
    try:
        transaction._finish()
    except BaseException:
        transaction._undo()
        raise


class OneShot(Gathered["OneShot"]):
    """A transaction in one request: its operations are gathered here, and done in order when it is run.

        client.one_shot().wread("person", 1).write(("person", 1, "b")).run()

    A level in it is a `OneShot` too, by `child`."""

    def __init__(self, client: Optional[Client] = None) -> None:
        super().__init__()
        self._client = client

    def run(self, retries: int = 100) -> List[Any]:
        """One answer for each operation, in their order. If it has to restart, it backs off for a tenth of a second at most, and repeats the
        operations, at most `retries` times; then `NoMore` is raised. `retries` is at most 1,000."""
        if self._client is None:
            raise Error("a level of a one-shot is not run by itself")
        return self._answers(self._client._ask_once(self._request(retries)))
