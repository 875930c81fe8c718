"""Checks of many cases, with their requests and events. It imports only the standard library, since bench/ uses it too."""

import socket
import time
from concurrent.futures import ThreadPoolExecutor, as_completed
from functools import partial
from typing import Any, Callable, List, Tuple, TypeVar

from tests.lib.wire import PATIENCE, Connection, Term

OK, ATOMIC, HERE_OK = "ok", ("atomic", "ok"), ("ok", "nonode@nohost")
CREATE: Term = ("create_table", "t", [])
MARK, END = ("mnesia_table_begin", "t", "simple"), ("mnesia_table_end", "t", "unsubscribed")
UNWATCH: Term = ("unsubscribe", ("table", "t", "simple"))
LIMIT = ("reply", ("error", ("system_limit", "sessions")))
# Nothing has come after so many seconds: it waits. What another thread of the server still has to do is done after so many.
QUIET, SOON = 0.2, 20.0

Found = TypeVar("Found")


def write(key: Term, value: Term) -> Term:
    return ("write", ("t", key, value))


def event(key: Term, value: Term, age: int) -> Term:
    return ("mnesia_table_event", ("write", ("t", key, value), ("tid", age)))


def watch(*dump: str) -> Term:
    return ("subscribe", ("table", "t", "simple"), *dump)


def one_shot(*parts: Term, retries: int = 0) -> Term:
    return ("transaction", list(parts), retries)


def differs(what: str, found: object, wanted: object) -> str:
    """Outside of pytest an assertion shows no values."""
    return f"{what}: {found!r:.500}, wanted {wanted!r:.500}"


def same(what: str, found: object, wanted: object) -> None:
    __tracebackhide__ = True
    assert found == wanted, differs(what, found, wanted)


def holds(what: str, condition: object) -> None:
    """For values that are too long to be shown."""
    __tracebackhide__ = True
    if not condition:
        raise AssertionError(what)


def soon(find: Callable[[], Found], is_wanted: Callable[[Found], Any], patience: float = SOON) -> Found:
    """What is found as soon as it is as wanted, or in the end."""
    end = time.monotonic() + patience
    while not is_wanted(found := find()) and time.monotonic() < end:
        time.sleep(0.002)
    return found


def at_last(connection: Connection, request: Term) -> Term:
    """The reply, if it was `restart` since a session that broke off has not left yet."""
    return soon(partial(connection.ask, request), lambda reply: reply != "restart")


def script(*steps: Tuple[Connection, Term, Term]) -> None:
    """Sends each request on its connection, and compares its reply."""
    __tracebackhide__ = True
    for line, (connection, request, wanted) in enumerate(steps):
        reply = connection.ask(request)
        assert reply == wanted, differs(f"step {line}, {request!r:.200}", reply, wanted)


def change(client: Connection, *changes: Term) -> None:
    """A one-shot of writes and deletions, which is committed."""
    __tracebackhide__ = True
    script((client, one_shot(*changes), ("atomic", [OK] * len(changes))))


def follow(*mirrors: Connection) -> None:
    """Each subscribes to the table, and gets its begin marker."""
    script(*((mirror, watch(), HERE_OK) for mirror in mirrors))
    for mirror in mirrors:
        assert mirror.event() == MARK, "begin marker"


def gets(connection: Connection, *replies: Term) -> None:
    """The next replies on it, with no event between them."""
    __tracebackhide__ = True
    same("the replies", [connection.receive() for _ in replies], [("reply", reply) for reply in replies])


def fill_outbox(writer: Connection, count: int) -> None:
    """So many commits with a long event each."""
    for number in range(count):
        change(writer, write(number % 5, b"v" * 4000))


def overflow(reader: Connection) -> int:
    """The commit of its overflow, after the events before it."""
    reader.widen()
    while (told := reader.event())[0] != "mnesia_overflow":
        pass
    return int(told[1])


def opened(*connections: Connection) -> None:
    """Each has a transaction, in the order of their ages."""
    for connection in connections:
        assert connection.ask("begin")[0] == "tid", "begin"


def committed(connection: Connection) -> int:
    """The number of the commit of its transaction."""
    word, number = connection.ask("commit")
    assert word == "atomic", "commit"
    return int(number)


def begun(*connections: Connection) -> None:
    """In a new server: the first makes the table, and each has a transaction, of the ages 1, 2 and so on."""
    script((connections[0], CREATE, ATOMIC), *((it, "begin", ("tid", age)) for age, it in enumerate(connections, 1)))


def added(connection: Connection, key: Term, amount: int) -> bool:
    """Adds to a record in the transaction that is open. False if it is restarted."""
    found = connection.ask(("wread", ("t", key)))
    return bool(found != "restart" and connection.ask(write(key, found[0][2] + amount)) == OK)


def add(connection: Connection, *amounts: Tuple[Term, int]) -> int:
    """Adds to these records in a transaction, which stays open; how often it was restarted."""
    restarts = 0
    opened(connection)
    while not all(added(connection, key, amount) for key, amount in amounts):
        restarts += 1
    return restarts


def raised(clients: List[Connection], each: int) -> List[Tuple[int, int]]:
    """In a new server each raises record 1 so often; of each raise how often it was restarted, and the number of its commit."""
    __tracebackhide__ = True
    raises: List[Tuple[int, int]] = []

    def raise_all(connection: Connection) -> None:
        for _ in range(each):
            restarts = add(connection, (1, 1))
            raises.append((restarts, committed(connection)))

    script((clients[0], CREATE, ATOMIC))
    change(clients[0], write(1, 0))
    side_by_side([(raise_all, (one,)) for one in clients])
    script((clients[0], one_shot(("read", "t", 1)), ("atomic", [[("t", 1, each * len(clients))]])))
    return raises


def waits(connection: Connection) -> None:
    """Nothing comes on it."""
    connection.socket.settimeout(QUIET)
    try:
        found = connection.socket.recv(1, socket.MSG_PEEK)
    except TimeoutError:
        return
    finally:
        connection.socket.settimeout(PATIENCE)
    raise AssertionError(f"while it waits {found!r} comes")


def read_waits(older: Connection, younger: Connection, *before: Tuple[Term, Term]) -> None:
    """In a new table the older's read of record 1 waits for the younger's write of "b"; the older has made these requests before."""
    begun(older, younger)
    script(*((older, *step) for step in before), (younger, write(1, "b"), OK))
    older.send(("read", "t", 1))
    waits(older)


def side_by_side(jobs: List[Tuple[Callable[..., Any], Tuple[Any, ...]]]) -> None:
    """Each in a thread; the first failure is raised once all have ended."""
    with ThreadPoolExecutor(len(jobs)) as pool:
        for done in as_completed([pool.submit(job, *given) for job, given in jobs]):
            done.result()
