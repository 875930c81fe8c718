# SPDX-License-Identifier: Apache-2.0
"""A client for asyncio, and its tables."""

from __future__ import annotations

import asyncio
import functools
import inspect
import weakref
from typing import TYPE_CHECKING, Any, Awaitable, Callable, List, Optional, Sequence, TypeVar, Union, overload

from ..address import HOST, PORT, Where, address
from ..decorated import transaction_place, without_parameter
from ..errors import BadType, Closed, OutcomeUnknown
from ..terms import Record, Term
from ..wire import result
from .connection import Connection
from .events import Events
from .pool import Pool
from .transactions import Attempts, Block, OneShot, Session, Transaction

if TYPE_CHECKING:
    from typing_extensions import Concatenate, ParamSpec

    Given = ParamSpec("Given")

Value = TypeVar("Value")
Owner = TypeVar("Owner")


class Client:
    """A client of the server at an address, for the tasks of a loop. The address, the limits and what is raised are those of `tabd.Client`.

    A transaction is of the task that opened it: in the same task `transaction` opens a level in it, in another one a transaction of its own.
    A task that is cancelled in a transaction aborts it; if a reply is under way, its connection is closed, and is no one else's."""

    def __init__(
        self,
        port: Where = PORT,
        host: Union[str, int] = HOST,
        connections: int = 8,
        timeout: Optional[float] = None,
        lock_timeout: Optional[float] = None,
        *,
        connect_timeout: Optional[float] = None,
        pool_timeout: Optional[float] = None,
    ) -> None:
        self._lock_timeout = lock_timeout
        self._address = where = address(port, host)
        self._connect: Callable[[], Awaitable[Connection]] = lambda: Connection.open(where, timeout, connect_timeout)
        self._pool = Pool(self._connect, connections, pool_timeout)
        self._sessions: weakref.WeakKeyDictionary[asyncio.Task[Any], Session] = weakref.WeakKeyDictionary()

    def __repr__(self) -> str:
        state = "closed" if self._pool.closed else f"{self._pool.count} of {self._pool.most} connections"
        return f"<tabd.aio.Client of {self._address}, {state}>"

    async def close(self) -> None:
        """Closes the connections: those that a transaction uses, once it has ended."""
        self._pool.close()
        # The loop closes what was aborted in its next round.
        await asyncio.sleep(0)

    async def __aenter__(self) -> Client:
        return self

    async def __aexit__(self, *_: object) -> None:
        await self.close()

    def _session(self) -> Optional[Session]:
        """That of this task's transaction. A forked child has none."""
        task = asyncio.current_task()
        session = None if task is None else self._sessions.get(task)
        if session is not None and (session.over or not session.connection.is_ours()):
            return None
        return session

    def _enter(self, session: Session) -> None:
        task = asyncio.current_task()
        assert task is not None, "a transaction is of a task"
        self._sessions[task] = session

    def _leave(self, session: Session) -> None:
        """This task is in no transaction."""
        task = asyncio.current_task()
        if task is not None and self._sessions.get(task) is session:
            del self._sessions[task]

    async def _end(self, session: Session) -> None:
        """Ends it, and gives its connection back."""
        self._leave(session)
        try:
            await session.finish()
        finally:
            self._pool.give(session.connection)

    async def _ask(self, request: Term) -> Any:
        session = self._session()
        if session is not None:
            return await session.ask(request)
        connection = await self._pool.take()
        try:
            return await connection.ask(request)
        finally:
            self._pool.give(connection)

    async def _ask_once(self, request: Term) -> Any:
        """Asks for a change. If no reply comes, the change may have been made."""
        session = self._session()
        if session is not None:
            # The server refuses it if a transaction is open.
            await session.begin()
            return await session.ask(request)
        connection = await self._pool.take()
        try:
            return await connection.ask(request)
        except Closed as error:
            raise OutcomeUnknown("the connection has ended while a change was under way") from error
        finally:
            self._pool.give(connection)

    def transaction(self) -> Block:
        """A transaction for as long as the block runs: `async with client.transaction() as t`. At the end of the block it commits. An error
        that leaves the block, or a cancellation, undoes it. `Restart` may leave the block; `attempts` and `run` then repeat it."""
        return Block(self)

    def attempts(self, retries: Optional[int] = None) -> Attempts:
        """A block that is repeated if it lost a lock, as by `tabd.Client.attempts`:

            async for attempt in client.attempts():
                async with attempt as t:
                    await t.write(("person", "alice", 30))
        """
        return Attempts(self, retries)

    async def run(self, function: Callable[[Transaction], Awaitable[Value]], retries: Optional[int] = None) -> Value:
        """Awaits the function with a transaction, commits, and returns the function's result. If a lock was lost the function is called
        again, as by `tabd.Client.run`."""
        async for attempt in Attempts(self, retries, whole=True):
            async with attempt as transaction:
                value = await function(transaction)
        return value

    @overload
    def transactional(
        self, function: Callable[Concatenate[Transaction, Given], Awaitable[Value]]
    ) -> Callable[Given, Awaitable[Value]]: ...

    @overload
    def transactional(
        self, function: Callable[Concatenate[Owner, Transaction, Given], Awaitable[Value]]
    ) -> Callable[Concatenate[Owner, Given], Awaitable[Value]]: ...

    def transactional(self, function: Callable[..., Awaitable[Value]]) -> Callable[..., Awaitable[Value]]:
        """A decorator of a coroutine function whose first parameter, in a method the one after `self` or `cls`, is the transaction."""
        if not inspect.iscoroutinefunction(function):
            raise TypeError(f"{function!r} is no coroutine function: tabd.Client is the client for others")
        place = transaction_place(function)

        @functools.wraps(function)
        async def run(*args: Any, **named: Any) -> Value:
            return await self.run(lambda transaction: function(*args[:place], transaction, *args[place:], **named))

        without_parameter(run, place)
        return run

    def one_shot(self) -> OneShot:
        """A transaction in one request."""
        return OneShot(self)

    def table(self, name: str) -> Table:
        """A table by its name; nothing is asked."""
        return Table(self, name)

    async def create_table(
        self, name: str, attributes: Sequence[str] = ("key", "val"), type: str = "set", index: Sequence[Union[str, int]] = ()
    ) -> Table:
        """Makes a table, as `tabd.Client.create_table`."""
        options = [("type", type), ("attributes", list(attributes)), ("index", list(index))]
        result(await self._ask_once(("create_table", name, options)))
        return Table(self, name)

    async def delete_table(self, name: str) -> None:
        """Deletes the table, with its records."""
        result(await self._ask_once(("delete_table", name)))

    async def add_table_index(self, name: str, attribute: Union[str, int]) -> None:
        """Gives an attribute an index, by its name or position."""
        result(await self._ask_once(("add_table_index", name, attribute)))

    async def del_table_index(self, name: str, attribute: Union[str, int]) -> None:
        """Ends the index of an attribute."""
        result(await self._ask_once(("del_table_index", name, attribute)))

    async def table_info(self, name: str, item: str) -> Any:
        """As `tabd.Client.table_info`."""
        return result(await self._ask(("table_info", name, item)))

    def events(self, *names: str, dump: bool = False, detailed: bool = False) -> Events:
        """The events of the tables, on a connection of its own, which is opened by the first of them or by `async with`."""
        return Events(self._connect, names, dump, detailed)


class Table:
    """A table by its name, as `tabd.Table`; its records are counted by `size`."""

    def __init__(self, client: Client, name: str) -> None:
        self.client, self.name = client, name

    def __repr__(self) -> str:
        return f"<tabd.aio.Table {self.name!r} of {self.client._address}>"

    async def read(self, key: Term) -> List[Record]:
        """The records of the key, in the order of their insertion."""
        records: List[Record] = await self._do("read", self.name, key)
        return records

    async def write(self, record: Record) -> None:
        """Writes a record, which begins with the table's name."""
        if not isinstance(record, tuple) or record[:1] != (self.name,):
            raise BadType(("bad_type", self.name, record))
        await self._do("write", record)

    async def delete(self, key: Term) -> None:
        """Deletes all records of the key."""
        await self._do("delete", self.name, key)

    async def keys(self) -> List[Any]:
        """The table's keys, each once."""
        keys: List[Any] = await self._do("all_keys", self.name)
        return keys

    async def _do(self, operation: str, *what: Any) -> Any:
        session = self.client._session()
        if session is not None:
            return await getattr(session.innermost(), operation)(*what)
        shot: OneShot = getattr(self.client.one_shot(), operation)(*what)
        return (await shot.run())[0]

    async def size(self) -> int:
        """How many records it has, as of the last commit."""
        size: int = await self.info("size")
        return size

    async def info(self, item: str) -> Any:
        """As `tabd.Client.table_info`."""
        return await self.client.table_info(self.name, item)

    async def drop(self) -> None:
        """Deletes the table, with its records."""
        await self.client.delete_table(self.name)

    async def add_index(self, attribute: Union[str, int]) -> None:
        """Gives an attribute an index, by its name or position."""
        await self.client.add_table_index(self.name, attribute)

    async def del_index(self, attribute: Union[str, int]) -> None:
        """Ends the index of an attribute."""
        await self.client.del_table_index(self.name, attribute)

    def events(self, dump: bool = False, detailed: bool = False) -> Events:
        """The table's events, as `tabd.Table.events`."""
        return self.client.events(self.name, dump=dump, detailed=detailed)
