# SPDX-License-Identifier: Apache-2.0
"""A client and its tables."""

from __future__ import annotations

import contextlib
import functools
import threading
import weakref
from typing import TYPE_CHECKING, Any, Callable, Iterator, Optional, Sequence, TypeVar, Union, overload

from .address import HOST, PORT, Where, address
from .blocks import Attempts, Block, Entered
from .connection import Connection
from .decorated import check_plain, transaction_place, without_parameter
from .errors import Closed, OutcomeUnknown
from .pool import Pool, PooledConnection
from .subscriptions import Events
from .tables import Table
from .terms import Term
from .transactions import OneShot, Session, Transaction
from .wire import result

if TYPE_CHECKING:
    # mypy has its own copy: nothing is installed for it.
    from typing_extensions import Concatenate, ParamSpec

    Given = ParamSpec("Given")

Value = TypeVar("Value")
Owner = TypeVar("Owner")


class Client:
    """A client of the server at an address, for any number of threads and forked processes.

    The address is a port of 127.0.0.1, a port and a host, or a text: "HOST", "HOST:PORT", "tabd://HOST:PORT", "unix:///PATH", or the path of
    a socket file, with a slash in it or of an existing file. The port is 4000 by default. No connection is opened before it is used.

    It has at most `connections` connections, without those of `events` and mirrors: one for each thread in a transaction. Other threads
    wait, for at most `pool_timeout` seconds (then `PoolTimeout` is raised). `connect_timeout` is how many seconds the opening of a connection
    may take, ten by default (`ConnectTimeout`). `timeout` is how many seconds a reply may take, including a wait for a lock (`TimedOut`, or
    `OutcomeUnknown` of a commit); without it a client waits without a limit.

    `lock_timeout` is how many seconds an operation of a transaction may wait for a lock. Then its level is aborted, `LockTimeout` is raised,
    and the connection goes on. The server has to run with `--abort-waits`; without it the wait ends only when the lock is granted."""

    def __init__(
        self,
        port: Where = PORT,
        host: Union[str, int] = HOST,
        connections: int = 8,
        timeout: Optional[float] = None,
        lock_timeout: Optional[float] = None,
        *,
        connect_timeout: Optional[float] = None,
        pool_timeout: Optional[float] = None,
    ) -> None:
        self._lock_timeout = lock_timeout
        self._address = where = address(port, host)
        self._connect: Callable[[], Connection] = lambda: Connection(where, timeout, connect_timeout)
        self._pool = Pool(lambda: PooledConnection(where, timeout, connect_timeout), connections, pool_timeout)
        self._here = threading.local()

    def __repr__(self) -> str:
        state = "closed" if self._pool.closed else f"{self._pool.count} of {self._pool.most} connections"
        return f"<tabd.Client of {self._address}, {state}>"

    def close(self) -> None:
        """Closes the connections: those that a transaction uses, once it has ended."""
        self._pool.close()

    def __enter__(self) -> Client:
        return self

    def __exit__(self, *_: object) -> None:
        self.close()

    @contextlib.contextmanager
    def _lease(self) -> Iterator[PooledConnection]:
        connection = self._pool.take()
        try:
            yield connection
        finally:
            self._pool.give(connection)

    def _session(self) -> Optional[Session]:
        """That of this thread's transaction. A forked child has none. Its block is not kept by this: one that an interrupt ends before its
        first line or at its end is gone with its frame."""
        block: Optional[Entered] = getattr(self._here, "block", _nothing)()
        session = None if block is None else block.session
        if session is None or session.over or not session.connection.is_ours():
            return None
        return session

    def _enter(self, block: Entered, session: Session) -> None:
        """This thread is in the block's transaction."""
        block.session = session
        self._here.block = weakref.ref(block)

    def _end(self, session: Session) -> None:
        """Ends it, and gives its connection back."""
        connection = session.connection
        try:
            session.finish()
        except BaseException:
            connection.close()
            raise
        finally:
            # A transaction that the caller keeps does not keep the connection.
            session.over = True
            del session.connection
            self._pool.give(connection)

    def _ask(self, request: Term) -> Any:
        """Asks on the connection of this thread's transaction, on which the server refuses what a transaction can't do, or on a free one."""
        session = self._session()
        if session is not None:
            return session.ask_besides(request)
        with self._lease() as connection:
            return connection.ask(request)

    def _ask_once(self, request: Term) -> Any:
        """Asks for a change. If no reply comes, the change may have been made."""
        session = self._session()
        if session is not None:
            # The server refuses it if a transaction is open.
            session.begin()
            return session.ask_besides(request)
        connection = self._pool.take()
        try:
            return _once(connection, request)
        finally:
            self._pool.give(connection)

    def transaction(self) -> Block:
        """A transaction for as long as the block runs. At the end of the block it commits; an error that leaves the block undoes it.
        In an open transaction of the same thread it is a level of that one.

        `Restart` may leave the block, at any operation. The block then has to be repeated; `attempts` and `run` do so by themselves."""
        return Block(self)

    def attempts(self, retries: Optional[int] = None) -> Attempts:
        """A block that is repeated if it lost a lock, with the same age: at most `retries` times (then `NoMore` is raised), or without
        `retries` as often as necessary:

            for attempt in client.attempts():
                with attempt as t:
                    t.write(("person", "alice", 30))

        So the block should do nothing that may not be repeated; put code that uses its result after the loop. Each other error leaves the
        loop. In an open transaction of the same thread it is a level, and the outermost block is repeated."""
        return Attempts(self, retries)

    def run(self, function: Callable[[Transaction], Value], retries: Optional[int] = None) -> Value:
        """Calls the function with a transaction, commits, and returns the function's result.

        If a lock was lost the function is called again, with the same age: at most `retries` times (then `NoMore` is raised), or without
        `retries` as often as necessary. So it should do nothing that may not be repeated. Results and errors of calls before the last are
        ignored. In an open transaction of the same thread it is a level, and the outermost function is called again."""
        check_plain(function)
        for attempt in Attempts(self, retries, whole=True):
            with attempt as transaction:
                value = function(transaction)
        return value

    @overload
    def transactional(self, function: Callable[Concatenate[Transaction, Given], Value]) -> Callable[Given, Value]: ...

    @overload
    def transactional(
        self, function: Callable[Concatenate[Owner, Transaction, Given], Value]
    ) -> Callable[Concatenate[Owner, Given], Value]: ...

    def transactional(self, function: Callable[..., Value]) -> Callable[..., Value]:
        """A decorator: `run` passes the transaction as the function's first parameter, and the caller passes the others. In a method,
        whose first parameter is `self` or `cls`, the transaction is the second one."""
        check_plain(function)
        place = transaction_place(function)

        @functools.wraps(function)
        def run(*args: Any, **named: Any) -> Value:
            return self.run(lambda transaction: function(*args[:place], transaction, *args[place:], **named))

        without_parameter(run, place)
        return run

    def one_shot(self) -> OneShot:
        """A transaction in one request."""
        return OneShot(self)

    def table(self, name: str) -> Table:
        """A table by its name; nothing is asked."""
        return Table(self, name)

    def create_table(
        self, name: str, attributes: Sequence[str] = ("key", "val"), type: str = "set", index: Sequence[Union[str, int]] = ()
    ) -> Table:
        """Creates a table, of type "set" or "bag". The first attribute is the key; those of `index`, by name or position (the second is
        at 3), have an index."""
        options = [("type", type), ("attributes", list(attributes)), ("index", list(index))]
        result(self._ask_once(("create_table", name, options)))
        return Table(self, name)

    def delete_table(self, name: str) -> None:
        """Deletes the table, with its records."""
        result(self._ask_once(("delete_table", name)))

    def add_table_index(self, name: str, attribute: Union[str, int]) -> None:
        """Adds an index of an attribute, by its name or position."""
        result(self._ask_once(("add_table_index", name, attribute)))

    def del_table_index(self, name: str, attribute: Union[str, int]) -> None:
        """Deletes the index of an attribute."""
        result(self._ask_once(("del_table_index", name, attribute)))

    def table_info(self, name: str, item: str) -> Any:
        """The table's "type", "attributes", "index" (the positions that have one) or "size" (as of the last commit)."""
        return result(self._ask(("table_info", name, item)))

    def events(self, *names: str, dump: bool = False, detailed: bool = False) -> Events:
        """The events of the tables, on a connection of its own, and so in one order."""
        return Events(self._connect(), names, dump, detailed)


def _nothing() -> None:
    """The block of a thread that has been in none."""


def _once(connection: Connection, request: Term) -> Any:
    try:
        return connection.ask(request)
    except Closed as error:
        raise OutcomeUnknown("the connection has ended while a change was under way") from error
