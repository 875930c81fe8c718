# SPDX-License-Identifier: Apache-2.0
"""A copy of tables that follows their events, in a task."""

from __future__ import annotations

import asyncio
import contextlib
import os
import weakref
from typing import Any, Awaitable, Callable, List, Optional, Sequence, Set, Tuple

from ..copies import Copies
from ..errors import AlreadySubscribed, Closed, NoExists, NotSubscribed, OutboxFull, OverflowPending, WrongProcess
from ..events import End, Item, Overflow
from ..subscriptions import subscription
from ..terms import Record, Term
from ..wire import result
from .client import Client
from .connection import Connection


class Mirror:
    """A copy of tables, kept by their events in a task of its own, as `tabd.Mirror`. It is made in the loop that it is used in.

    Nothing is applied while a task reads without an `await` between: `read`, `all_keys` and `records` give what is there at once."""

    def __init__(self, client: Client, *names: str, pause: float = 0.2) -> None:
        # The task refers only to the follower, so that it does not keep the mirror.
        self._follower = follower = Follower(client._connect, names, pause)
        self._where = client._address
        self._task = asyncio.get_running_loop().create_task(follower.run())
        self._end = weakref.finalize(self, follower.stop)
        self._end.atexit = False

    def __repr__(self) -> str:
        state = "failed" if self.fault is not None else "live" if self.live else "not live"
        return f"<tabd.aio.Mirror of {', '.join(map(repr, self.names))} of {self._where}, {state}>"

    @property
    def names(self) -> Tuple[str, ...]:
        return tuple(self._follower.names)

    @property
    def fault(self) -> Optional[Exception]:
        """What has ended the task."""
        return self._follower.fault

    @property
    def connections(self) -> int:
        """How many were opened."""
        return self._follower.connections

    @property
    def overflows(self) -> int:
        """How often events were lost, and the copy started again."""
        return self._follower.copies.overflows

    @property
    def commit(self) -> Optional[int]:
        """The number of the last commit, of a server with `--batches`."""
        return self._follower.copies.commit

    @property
    def live(self) -> bool:
        """Whether each table has started, and the connection is open."""
        return self._follower.copies.live

    def read(self, name: str, key: Term) -> List[Record]:
        """The copy's records of the key, in the order of their insertion."""
        return self._follower.checked().read(name, key)

    def all_keys(self, name: str) -> List[Any]:
        """The copy's keys, each once, in the server's order."""
        return self._follower.checked().all_keys(name)

    def records(self, name: str) -> List[Record]:
        """All records of the copy, in the order of `all_keys`."""
        return self._follower.checked().records(name)

    async def wait(self, condition: Callable[[Mirror], Any], seconds: Optional[float] = None) -> bool:
        """Waits until the condition, which is checked after each change, is true. Returns whether it became true in
        time. Raises the error that has ended the task, and `Closed` if the mirror is closed meanwhile."""
        return await self._follower.wait(lambda: bool(condition(self)), seconds)

    async def close(self) -> None:
        """Ends the task and its connection. The copy stays as it is."""
        self._end()
        if self._task is not asyncio.current_task():
            await asyncio.wait({self._task})

    async def __aenter__(self) -> Mirror:
        return self

    async def __aexit__(self, *_: object) -> None:
        await self.close()


class Follower:
    """What the task of a mirror does, and what it has."""

    def __init__(self, connect: Callable[[], Awaitable[Connection]], names: Sequence[str], pause: float) -> None:
        self.connect, self.names, self.pause = connect, names, pause
        self.process = os.getpid()
        self.copies = Copies(names)
        self.connection: Optional[Connection] = None
        self.closing = asyncio.Event()
        self.waits: List[Tuple[Callable[[], bool], asyncio.Future[bool]]] = []
        self.connections = 0
        self.fault: Optional[Exception] = None

    def checked(self) -> Copies:
        """The copies, if they are kept."""
        if self.process != os.getpid():
            raise WrongProcess("the mirror is the parent process's: a forked child makes its own")
        if self.fault is not None:
            raise self.fault
        return self.copies

    async def wait(self, condition: Callable[[], bool], seconds: Optional[float]) -> bool:
        if self._holds(condition):
            return True
        future: asyncio.Future[bool] = asyncio.get_running_loop().create_future()
        one = (condition, future)
        self.waits.append(one)
        try:
            await asyncio.wait({future}, timeout=seconds)
            return future.result() if future.done() else False
        finally:
            future.cancel()
            if one in self.waits:
                self.waits.remove(one)

    def _holds(self, condition: Callable[[], bool]) -> bool:
        self.checked()
        if condition():
            return True
        if self.closing.is_set():
            raise Closed("the mirror was closed")
        return False

    def _tell(self) -> None:
        """Asks each condition that is waited for, before anything more is applied."""
        for condition, future in list(self.waits):
            if future.done():
                continue
            try:
                if self._holds(condition):
                    future.set_result(True)
            except Exception as error:
                future.set_exception(error)

    def stop(self) -> None:
        """The task ends soon."""
        if self.process != os.getpid():
            return
        with contextlib.suppress(RuntimeError):
            self.closing.set()
        if self.connection is not None:
            self.connection.close()

    async def run(self) -> None:
        try:
            while not self.closing.is_set():
                await self._run_once()
                await self._rest()
        finally:
            self.closing.set()
            self._tell()

    async def _rest(self) -> None:
        waiting = asyncio.ensure_future(self.closing.wait())
        try:
            await asyncio.wait({waiting}, timeout=self.pause)
        finally:
            waiting.cancel()

    async def _run_once(self) -> None:
        """Follows on a connection until it ends."""
        try:
            self.connection = connection = await self.connect()
            self.connections += 1
            await self._follow(connection)
        except Closed:
            pass
        except Exception as error:
            # Each read and each wait raises it.
            self.fault = error
            self.closing.set()
        finally:
            self.copies.stop()
            if self.connection is not None:
                self.connection.close()
            self._tell()

    async def _follow(self, connection: Connection) -> None:
        """Applies what comes, and asks for the tables that are not watched."""
        watched: Set[str] = set()
        now, due = asyncio.get_running_loop().time, 0.0
        while not self.closing.is_set():
            missing = len(watched) < len(self.names)
            if missing and now() >= due:
                await self._watch(connection, watched)
                due = now() + self.pause
                missing = len(watched) < len(self.names)
            item = await connection.item(self.pause if missing else None)
            if isinstance(item, Overflow):
                watched.clear()
                due = 0.0
            elif isinstance(item, End):
                watched.discard(item.table)
            if item is not None:
                self._apply(item)

    async def _watch(self, connection: Connection, watched: Set[str]) -> None:
        for name in self.names:
            if name in watched:
                continue
            try:
                if await self._subscribe(connection, name):
                    watched.add(name)
            except NoExists:
                self._apply(End(name, "deleted"))
            except (OutboxFull, OverflowPending):
                # There is room once what has come is read.
                return

    async def _subscribe(self, connection: Connection, name: str) -> bool:
        """Whether the table is watched, as `tabd.mirror.Follower` does it."""
        info = ("table_info", name, "type")
        self.copies.types[name] = first = result(await connection.ask(info))
        try:
            result(await connection.ask(subscription(name, True, False)))
        except AlreadySubscribed:
            return True
        second = await connection.ask(info)
        if second == first:
            return True
        with contextlib.suppress(NotSubscribed):
            result(await connection.ask(("unsubscribe", ("table", name, "simple"))))
            self.copies.types[name] = second
        return False

    def _apply(self, item: Item) -> None:
        """A batch at once, so that no one sees a part of it."""
        self.copies.apply(item)
        self._tell()
