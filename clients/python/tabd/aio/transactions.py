# SPDX-License-Identifier: Apache-2.0
"""Transactions, their levels, and one-shots, of tasks."""

from __future__ import annotations

import contextlib
from types import TracebackType
from typing import TYPE_CHECKING, Any, AsyncIterator, Awaitable, Iterator, List, NoReturn, Optional, Type

from ..errors import Aborted, Closed, Ended, Error, LockTimeout, NoMore, OutcomeUnknown, Restart, WrongProcess, refusal
from ..operations import Gathered, Operations
from ..terms import Record, Term
from ..transactions import LOST
from ..wire import result
from .connection import Connection

if TYPE_CHECKING:
    from .client import Client


class Session:
    """A connection with a transaction open, and its levels, as `tabd.transactions.Session`."""

    def __init__(self, connection: Connection, lock_timeout: Optional[float]) -> None:
        self.connection, self.lock_timeout = connection, lock_timeout
        self.levels: List[Transaction] = []
        self.age: Optional[int] = None
        self.restarted = self.over = False

    def open(self) -> Transaction:
        """The first level, also of a transaction that is repeated after a restart."""
        self.restarted = False
        return self._opened()

    async def open_level(self) -> Transaction:
        """A level in the innermost one."""
        self.innermost().check()
        await self.begin()
        result(await self.ask("begin"))
        return self._opened()

    def _opened(self) -> Transaction:
        transaction = Transaction(self, len(self.levels) + 1)
        self.levels.append(transaction)
        return transaction

    def innermost(self) -> Transaction:
        """The level that takes operations."""
        if not self.levels:
            raise Restart(LOST) if self.restarted else Ended("the transaction has ended")
        return self.levels[-1]

    async def begin(self) -> int:
        """The transaction's age. Begins the transaction if it has not begun."""
        if self.age is None:
            _, self.age = result(await self.ask("begin"))
        assert self.age is not None
        return self.age

    async def ask(self, request: Term) -> Any:
        """The reply. If the connection ends, all levels end."""
        with self._ends():
            return await self.connection.ask(request)

    async def ask_begun(self, request: Term) -> Any:
        """The reply to a request that needs an open transaction. If the `begin` before it is refused, the request is refused too."""
        if self.age is not None:
            return await self.ask(request)
        with self._ends():
            begun, reply = await self.connection.begin(request)
        _, self.age = result(begun)
        return reply

    async def operate(self, operation: Term) -> Any:
        """The reply. Raises the error of the level if none came in time."""
        if self.lock_timeout is None:
            return await self.ask_begun(operation)
        await self.begin()
        with self._ends():
            in_time, reply = await self.connection.ask_for(operation, self.lock_timeout)
        if not in_time:
            raise self.give_up(reply)
        return reply

    @contextlib.contextmanager
    def _ends(self) -> Iterator[None]:
        """A connection that has ended, also since its task was cancelled, ends all levels."""
        try:
            yield
        except BaseException as error:
            if self.connection.closed:
                self.end_all(error if isinstance(error, Closed) else Closed("the connection was closed: a reply was waited for no more"))
            raise

    def end_all(self, error: Exception) -> None:
        while self.levels:
            self.levels.pop().fault = error

    def restart(self) -> Restart:
        error = Restart(LOST)
        self.restarted = True
        self.end_all(error)
        return error

    def give_up(self, reply: Any) -> Exception:
        """The operation got this reply although an abort was sent after it: the abort has ended one level more than the reply did."""
        error = LockTimeout(f"no lock within {self.lock_timeout} s")
        if reply == "restart":
            self.end_all(error)
        else:
            self.levels.pop().fault = error
            if isinstance(reply, tuple) and reply[0] == "aborted" and self.levels:
                self.levels.pop().fault = error
        return error

    async def finish(self) -> None:
        """Ends the levels that a restart did not end. If a level cannot be ended, the connection is closed, which ends it."""
        self.over = True
        if self.connection.closed or not self.connection.is_ours():
            return
        if self.levels:
            self.connection.close()
        elif self.restarted:
            self.restarted = False
            with contextlib.suppress(Closed):
                await self.connection.ask(("abort", "client"))


class Transaction(Operations[Awaitable[List[Record]], Awaitable[List[Any]], Awaitable[None]]):
    """An open transaction, or a level in one: `Client.transaction`, `Client.attempts` and `Client.run` make it. Its operations are as those
    of `tabd.Transaction`, and awaited one after another.

    If a task is cancelled while an operation is under way, the connection is closed, which undoes the transaction."""

    def __init__(self, session: Session, level: int) -> None:
        self._session, self.level = session, level
        self.commit: Optional[int] = None
        self.fault: Optional[Exception] = None

    def __repr__(self) -> str:
        state = "open" if self.fault is None else "committed" if self.commit is not None else "ended"
        return f"<tabd.aio.Transaction of age {self._session.age}, level {self.level}, {state}>"

    @property
    def age(self) -> Optional[int]:
        """Which transaction of the run this is, as the events of its changes say; None before its first operation."""
        return self._session.age

    def check(self) -> None:
        """It is open, and its innermost level."""
        if self.fault is not None:
            raise self.fault
        self._session.connection.check_process()
        if self._session.levels[-1] is not self:
            raise Error("a level in this one is open: it takes the operations")

    async def _operate(self, operation: Term) -> Any:
        self.check()
        reply = await self._session.operate(operation)
        if reply == "ok":
            return None
        if reply == "restart":
            raise self._session.restart()
        if isinstance(reply, tuple) and reply[0] == "aborted":
            raise self._end(refusal(reply[1]))
        return result(reply)

    def _end(self, fault: Exception) -> Exception:
        self._session.levels.pop()
        self.fault = fault
        return fault

    def transaction(self) -> Level:
        """A level in this one, as `async with t.transaction() as inner`."""
        self.check()
        return Level(self._session)

    def abort(self, reason: Term) -> NoReturn:
        """Ends this level, with nothing of it: raises `Aborted`."""
        self.check()
        raise Aborted(reason)

    async def _finish(self) -> None:
        self.check()
        try:
            reply = result(await self._session.ask_begun("commit"))
        except Closed as error:
            if self.level > 1:
                raise
            self.fault = OutcomeUnknown("the connection has ended while a commit was under way")
            raise self.fault from error
        if self.level == 1:
            self.commit = reply[1]
        self._end(Ended("the transaction was committed"))

    async def _undo(self) -> None:
        with contextlib.suppress(Closed, WrongProcess):
            while self.fault is None:
                innermost = self._session.levels[-1]
                if self._session.age is not None:
                    await self._session.ask(("abort", "client"))
                innermost._end(Ended("the transaction was aborted"))


async def finish(transaction: Transaction, commit: bool) -> None:
    """Commits, and aborts what could not commit or is not to."""
    if not commit:
        return await transaction._undo()
    try:
        await transaction._finish()
    except BaseException:
        await transaction._undo()
        raise


class Level:
    """A level for as long as the block runs."""

    def __init__(self, session: Session) -> None:
        self._session = session
        self._transaction: Optional[Transaction] = None

    async def __aenter__(self) -> Transaction:
        self._transaction = await self._session.open_level()
        return self._transaction

    async def __aexit__(self, kind: Optional[Type[BaseException]], error: Optional[BaseException], trace: Optional[TracebackType]) -> None:
        assert self._transaction is not None
        await finish(self._transaction, kind is None)


class Block:
    """`async with client.transaction() as t`, once."""

    def __init__(self, client: Client) -> None:
        self._client = client
        self._transaction: Optional[Transaction] = None

    async def __aenter__(self) -> Transaction:
        if self._transaction is not None:
            raise Error("a block is entered once: each has a transaction() of its own")
        self._transaction = await opened(self._client, None)
        return self._transaction

    async def __aexit__(self, kind: Optional[Type[BaseException]], error: Optional[BaseException], trace: Optional[TracebackType]) -> None:
        transaction = self._transaction
        assert transaction is not None
        try:
            await finish(transaction, kind is None)
        finally:
            if transaction.level == 1:
                await self._client._end(transaction._session)


async def opened(client: Client, kept: Optional[Session]) -> Transaction:
    """A level in this task's transaction, or the first level: of the transaction that is repeated, or of a new one."""
    outer = client._session()
    if outer is not None:
        return await outer.open_level()
    session = kept or Session(await client._pool.take(), client._lock_timeout)
    transaction = session.open()
    client._enter(session)
    return transaction


class Attempts(AsyncIterator["Attempt"]):
    """The attempts of a block, as `tabd.blocks.Attempts`: `async for` or `for`."""

    def __init__(self, client: Client, retries: Optional[int], whole: bool = False) -> None:
        self._client, self._left, self._whole = client, retries, whole
        self._started = self._again = False
        self._session: Optional[Session] = None

    def __iter__(self) -> Iterator[Attempt]:
        while not self._started or self._again:
            yield self._next()

    async def __anext__(self) -> Attempt:
        if self._started and not self._again:
            raise StopAsyncIteration
        return self._next()

    def _next(self) -> Attempt:
        self._started, self._again = True, False
        return Attempt(self)

    async def _open(self) -> Transaction:
        transaction = await opened(self._client, self._session)
        self._session = None
        return transaction

    async def _finish(self, transaction: Transaction, error: Optional[BaseException]) -> bool:
        session = transaction._session
        if transaction.level > 1:
            await finish(transaction, error is None)
            return False
        try:
            try:
                await finish(transaction, error is None)
            except Restart as fault:
                if not self._whole:
                    raise
                error = fault
            if session.restarted and isinstance(error, Exception):
                self._count()
                self._again, self._session = True, session
        finally:
            if self._again:
                self._client._leave(session)
            else:
                await self._client._end(session)
        return self._again

    def _count(self) -> None:
        if self._left is not None:
            if self._left <= 0:
                raise NoMore("nomore")
            self._left -= 1

    def __del__(self) -> None:
        """The loop ended between two attempts: closing the connection ends its transaction."""
        session = getattr(self, "_session", None)
        if session is not None:
            session.connection.close()


class Attempt:
    """`async with attempt as t`, once."""

    def __init__(self, attempts: Attempts) -> None:
        self._attempts = attempts
        self._transaction: Optional[Transaction] = None

    async def __aenter__(self) -> Transaction:
        if self._transaction is not None:
            raise Error("an attempt is entered once: the loop gives the next one")
        self._transaction = await self._attempts._open()
        return self._transaction

    async def __aexit__(self, kind: Optional[Type[BaseException]], error: Optional[BaseException], trace: Optional[TracebackType]) -> bool:
        assert self._transaction is not None
        return await self._attempts._finish(self._transaction, error)


class OneShot(Gathered["OneShot"]):
    """A transaction in one request, as `tabd.OneShot`: `await client.one_shot().read("person", 1).run()`."""

    def __init__(self, client: Optional[Client] = None) -> None:
        super().__init__()
        self._client = client

    async def run(self, retries: int = 100) -> List[Any]:
        """One answer for each operation, in their order, as `tabd.OneShot.run` has them."""
        if self._client is None:
            raise Error("a level of a one-shot is not run by itself")
        return self._answers(await self._client._ask_once(self._request(retries)))
