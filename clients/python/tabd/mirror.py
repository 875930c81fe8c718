# SPDX-License-Identifier: Apache-2.0
"""A copy of tables that follows their events."""

from __future__ import annotations

import contextlib
import os
import threading
import time
import weakref
from typing import Any, Callable, Iterator, List, Optional, Sequence, Set, Tuple

from .client import Client
from .connection import Connection
from .copies import Copies
from .errors import AlreadySubscribed, Closed, NoExists, NotSubscribed, OutboxFull, OverflowPending, WrongProcess
from .events import End, Item, Overflow
from .subscriptions import subscription
from .terms import Record, Term
from .wire import result


class Mirror:
    """A copy of tables, kept by their events in a thread of its own.

    If its connection ends, it tries to open another every `pause` seconds. If its events overflowed, it subscribes again. If a table does not
    exist, it asks for the table every `pause` seconds. In each case the copy starts again with the table's records. `live` says whether each
    table has started and the connection is open. If not, the copy is as old as the last event before that.

    What may be seen. With `--batches` at the server, the copy of a table is the table's records after some commit: each commit is applied whole.
    `commit` is the number of the last one, or None if none was applied since the copy started again. Without `--batches`, some changes of the
    next commit may be seen too: events arrive one by one, and none says that it is the last of its commit. So a commit of one change is seen
    whole, and one of several changes may be seen with only the first of them. In both cases aborted changes are never seen, and commits are
    seen in their order. Once all tables have started this is so for all of them together, since their events come over one connection. For
    several reads of the same state, read inside the condition of `wait`: nothing is applied meanwhile. A commit is seen some time after its
    reply. To wait for a commit, wait for its number or its last change (`wait`).

    An error that ends the thread, other than the end of a connection, is `fault`. `wait`, `read`, `all_keys` and `records` raise it. `close`, or
    the end of the last reference to the mirror, ends the thread and its connection."""

    def __init__(self, client: Client, *names: str, pause: float = 0.2) -> None:
        # The thread refers only to the follower, so that it does not keep the mirror.
        self._follower = follower = Follower(client._connect, names, pause)
        self._where = client._address
        self._thread = threading.Thread(target=follower.run, name="tabd.Mirror", daemon=True)
        self._end = weakref.finalize(self, follower.stop)
        self._thread.start()

    def __repr__(self) -> str:
        state = "failed" if self.fault is not None else "live" if self.live else "not live"
        return f"<tabd.Mirror of {', '.join(map(repr, self.names))} of {self._where}, {state}>"

    @property
    def names(self) -> Tuple[str, ...]:
        return tuple(self._follower.names)

    @property
    def pause(self) -> float:
        return self._follower.pause

    @property
    def fault(self) -> Optional[Exception]:
        """What has ended the thread."""
        return self._follower.fault

    @property
    def connections(self) -> int:
        """How many were opened."""
        return self._follower.connections

    @property
    def overflows(self) -> int:
        """How often events were lost, and the copy started again."""
        return self._follower.copies.overflows

    @property
    def commit(self) -> Optional[int]:
        return self._follower.copies.commit

    @property
    def live(self) -> bool:
        return self._follower.copies.live

    def read(self, name: str, key: Term) -> List[Record]:
        """The copy's records of the key, in the order of their insertion."""
        with self._follower.held() as copies:
            return copies.read(name, key)

    def all_keys(self, name: str) -> List[Any]:
        """The copy's keys, each once, in the server's order."""
        with self._follower.held() as copies:
            return copies.all_keys(name)

    def records(self, name: str) -> List[Record]:
        """All records of the copy, in the order of `all_keys`."""
        with self._follower.held() as copies:
            return copies.records(name)

    def wait(self, condition: Callable[[Mirror], Any], seconds: Optional[float] = None) -> bool:
        """Waits until the condition, which is checked after each change, is true. Returns whether it became true in
        time. Raises `Closed` if the mirror is closed meanwhile."""
        return self._follower.wait(lambda: bool(condition(self)), seconds)

    def close(self) -> None:
        """Ends the thread and its connection. The copy stays as it is."""
        self._end()
        if threading.current_thread() is not self._thread:
            self._thread.join()

    def __enter__(self) -> Mirror:
        return self

    def __exit__(self, *_: object) -> None:
        self.close()


class Follower:
    """What the thread of a mirror does, and what it has."""

    def __init__(self, connect: Callable[[], Connection], names: Sequence[str], pause: float) -> None:
        self.connect, self.names, self.pause = connect, names, pause
        self.process = os.getpid()
        self.changed = threading.Condition()
        self.copies = Copies(names)
        self.connection: Optional[Connection] = None
        self.closing = threading.Event()
        self.connections = 0
        self.fault: Optional[Exception] = None

    @contextlib.contextmanager
    def held(self) -> Iterator[Copies]:
        """The copies, to which nothing is applied meanwhile."""
        self._check_process()
        with self.changed:
            self._check()
            yield self.copies

    def wait(self, condition: Callable[[], bool], seconds: Optional[float]) -> bool:
        def holds() -> bool:
            self._check()
            if condition():
                return True
            if self.closing.is_set():
                raise Closed("the mirror was closed")
            return False

        self._check_process()
        with self.changed:
            return self.changed.wait_for(holds, seconds)

    def _check_process(self) -> None:
        """A forked child has no thread that follows, and the parent's may hold the lock for good."""
        if self.process != os.getpid():
            raise WrongProcess("the mirror is the parent process's: a forked child makes its own")

    def _check(self) -> None:
        if self.fault is not None:
            raise self.fault

    def stop(self) -> None:
        """The thread ends soon."""
        self.closing.set()
        connection = self.connection
        if connection is not None:
            connection.close()

    def run(self) -> None:
        try:
            while not self.closing.is_set():
                self._run_once()
                self.closing.wait(self.pause)
        finally:
            with self.changed:
                self.changed.notify_all()

    def _run_once(self) -> None:
        """Follows on a connection until it ends."""
        try:
            self.connection = connection = self.connect()
            self.connections += 1
            self._follow(connection)
        except Closed:
            pass
        except Exception as error:
            # Each read and each wait raises it.
            self.fault = error
            self.closing.set()
        finally:
            self._drop()

    def _drop(self) -> None:
        with self.changed:
            self.copies.stop()
            self.changed.notify_all()
        if self.connection is not None:
            self.connection.close()

    def _follow(self, connection: Connection) -> None:
        """Applies what comes, and asks for the tables that are not watched."""
        watched: Set[str] = set()
        due = 0.0
        while not self.closing.is_set():
            missing = len(watched) < len(self.names)
            if missing and time.monotonic() >= due:
                self._watch(connection, watched)
                due = time.monotonic() + self.pause
                missing = len(watched) < len(self.names)
            item = connection.item(self.pause if missing else None)
            if isinstance(item, Overflow):
                watched.clear()
                due = 0.0
            elif isinstance(item, End):
                watched.discard(item.table)
            if item is not None:
                self._apply(item)

    def _watch(self, connection: Connection, watched: Set[str]) -> None:
        for name in self.names:
            if name in watched:
                continue
            try:
                if self._subscribe(connection, name):
                    watched.add(name)
            except NoExists:
                self._apply(End(name, "deleted"))
            except (OutboxFull, OverflowPending):
                # There is room once what has come is read.
                return

    def _subscribe(self, connection: Connection, name: str) -> bool:
        """Subscribes to the table; returns whether it is watched. The table's type decides how an event is applied. If another table got the
        name meanwhile, the subscription is ended again, unless it is the old table's, which has ended by itself."""
        info = ("table_info", name, "type")
        self.copies.types[name] = first = result(connection.ask(info))
        try:
            result(connection.ask(subscription(name, True, False)))
        except AlreadySubscribed:
            return True
        second = connection.ask(info)
        if second == first:
            return True
        with contextlib.suppress(NotSubscribed):
            result(connection.ask(("unsubscribe", ("table", name, "simple"))))
            self.copies.types[name] = second
        return False

    def _apply(self, item: Item) -> None:
        """A batch at once, so that no one sees a part of it."""
        with self.changed:
            self.copies.apply(item)
            self.changed.notify_all()
