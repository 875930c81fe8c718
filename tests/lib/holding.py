"""Requests of one client that make a server keep memory: tables, transactions, dumps and events, for test_memory.py and bench/."""

import pathlib
from functools import partial
from typing import Any, Callable, List, Sequence, Tuple

from tests.lib.checks import ATOMIC, HERE_OK, OK, change, committed, holds, one_shot, opened, script, soon, write
from tests.lib.servers import Server
from tests.lib.wire import Connection, Term, frame, take

# The record of a key, or of a number.
Record = Callable[[int], Term]
small_record: Record = lambda key: ("t", key, key)
halved: Record = lambda key: ("t", key, key % 2)
long_record: Callable[[int], Record] = lambda size: lambda key: ("t", key, bytes([key % 256]) * size)
# An empty list is a byte of a request, and 32 bytes of the server.
empty_lists: Callable[[int], Record] = lambda size: lambda key: ("t", key, [[]] * size)
# All are of one key, and as long as each other.
bag_record: Record = lambda number: ("t", 0, 1_000 + number)
# One of ten of its key.
of_ten: Record = lambda number: ("t", number // 10, number)

# The entries of the journal by default.
JOURNAL = 1_024
MEGABYTE = 1_000_000
ALL_KEYS, ALL_RECORDS = ("all_keys", "t"), ("match_object", ("t", "_", "_"))
HALF, BY_INDEX, INDEXED = ("match_object", ("t", "_", 0)), ("index_read", "t", 0, "val"), [("index", ["val"])]
WATCHED = ("table", "t", "detailed")
DUMP, NO_MORE = ("subscribe", WATCHED, "dump"), ("unsubscribe", WATCHED)


class Held(Server):
    """With the default journal, or that of the options."""

    # What a row of bench/memory.py has found besides.
    remark = ""

    def __init__(self, program: str, *words: str, **options: Any) -> None:
        super().__init__(program, "--connections", "64", "--forever", *words, **options)


def size_of(reply: Term) -> int:
    return len(frame(("reply", reply))) - 4


def ask_long(client: Connection, request: Term, size: int) -> None:
    """Of the reply it is looked only whether it has so many bytes."""
    client.send(request)
    found = client.payload()
    assert len(found) == size, f"{str(request)[:80]}: {len(found)} bytes in place of {size}, {found[:80]!r}"


def transaction(client: Connection, requests: List[Term], size: int, changes: Sequence[Term] = ()) -> None:
    """One that is committed: these changes, and requests whose replies have so many bytes each."""
    opened(client)
    script(*((client, one, OK) for one in changes))
    for request in requests:
        ask_long(client, request, size)
    committed(client)


def commit_nothing(client: Connection, count: int = JOURNAL) -> None:
    """So many empty commits: they push the oldest entries out of the journal."""
    client.send(*[one_shot()] * count)
    wanted = frame(("reply", ("atomic", []))) * count
    holds("commits of nothing", take(client.stream, len(wanted)) == wanted)


def fill(client: Connection, record: Record, count: int, each: int) -> None:
    """Writes the records of so many keys, so many in a one-shot."""
    for first in range(0, count, each):
        change(client, *(("write", record(key)) for key in range(first, min(first + each, count))))


def table(record: Record, count: int, each: int = 10, options: Sequence[Term] = ()) -> Callable[[Connection], None]:
    """Makes one of these records, of which few are in the journal at once: what it forgets would be room for what is measured."""

    def make(client: Connection) -> None:
        script((client, ("create_table", record(0)[0], list(options)), ATOMIC))
        fill(client, record, count, each)

    return make


def long_reads(transactions: int, reads: int, server: Server, client: Connection) -> int:
    """Transactions that each read one record so often, which the journal keeps."""
    [record] = client.ask(("transaction", [("read", "t", 0)], 0))[1][0]
    for _ in range(transactions):
        transaction(client, [("read", "t", 0)] * reads, size_of([record]))
    commit_nothing(client, JOURNAL - transactions - 10)
    return server.kilobytes()


def short_reads(count: int, server: Server, client: Connection) -> int:
    """One-shots of as many operations as one may ask. The journal is full by these long before it has as many entries as it may."""
    for _ in range(count):
        ask_long(client, ("transaction", [("match_object", ("t", "_", "none"))] * 999, 0), size_of(("atomic", [[]] * 999)))
    return server.kilobytes()


def writes_over(record: Record, count: int, server: Server, client: Connection) -> int:
    """One-shots that each write the same record, which the journal keeps until it is full."""
    request = frame(one_shot(("write", record(0))))
    for number in range(count):
        client.socket.sendall(request)
        assert client.reply() == ("atomic", [OK]), f"write {number}"
    return server.kilobytes()


def whole_reads(asked: Tuple[Term, List[Term]], count: int, writes: bool, server: Server, client: Connection) -> int:
    """Transactions that each read the whole table, by a request with its reply; with `writes` each first writes a record of its own."""
    request, answer = asked
    size = size_of(answer)
    for turn in range(count):
        # As long as the record that it replaces.
        key = 1_000 + turn * 7_919 % (len(answer) - 1_000)
        transaction(client, [request], size, [write(key, key + 1)] if writes else [])
    return server.kilobytes()


def queue(mirror: Connection, client: Connection, requests: List[Term]) -> None:
    """Sends them in one piece, so that no reply has to be read before the next is asked, and waits until all are done."""
    mirror.send(*requests, ("create_table", "done", []))
    assert soon(partial(client.ask, ("table_info", "done", "size")), lambda reply: reply == 0) == 0, "all are done"
    script((client, ("delete_table", "done"), ATOMIC))


def begin_mark(records: List[Term]) -> Term:
    return ("mnesia_table_begin", "t", "detailed", records)


def dumps(count: int, record: Record, records: int, server: Server, client: Connection) -> int:
    """A session that takes nothing subscribes with a dump of so many records and ends that, so often."""
    size = len(frame(begin_mark(list(map(record, range(records)))))) - 4
    mirror = server.connect()
    queue(mirror, client, [DUMP, NO_MORE] * count)
    held = server.kilobytes()
    # A reply and a marker for each subscription and for its end, and the reply to the request after them.
    found = [len(mirror.payload()) for _ in range(4 * count + 1)]
    assert found.count(size) == count, "dumps"
    return held


def watch(mirror: Connection) -> None:
    """The session watches the table in detail."""
    script((mirror, ("subscribe", WATCHED), HERE_OK))
    assert mirror.event() == ("mnesia_table_begin", "t", "detailed"), "begin marker"


def watcher(server: Server) -> Connection:
    """A session that watches the table in detail."""
    mirror: Connection = server.connect()
    watch(mirror)
    return mirror


def watched_writes(watchers: int, record: Record, count: int, server: Server, client: Connection) -> int:
    """One-shots that each write the same record, with so many sessions that watch the table and read nothing."""
    idle = [watcher(server) for _ in range(watchers)]
    held = writes_over(record, count, server, client)
    for mirror in idle:
        mirror.close()
    return held


def old_records(record: Record, count: int, server: Server, client: Connection) -> int:
    """All of a table's records are deleted in a one-shot, and a session that reads nothing watches the table."""
    mirror = watcher(server)
    change(client, *(("delete", ("t", key)) for key in range(count)))
    held = server.kilobytes()
    holds("old records", [mirror.event()[1][3] for _ in range(count)] == [[record(key)] for key in range(count)])
    return held


def measured(server: Server, make: Callable[[Connection], None], hold: Callable[[Server, Connection], int]) -> Tuple[int, int]:
    """The server's kilobytes with only a table, and after one client's requests."""
    client = server.connect()
    make(client)
    commit_nothing(client)
    return server.kilobytes(), hold(server, client)


def begin_peak(server: Server) -> None:
    """The peak is that of what comes from here on."""
    pathlib.Path(f"/proc/{server.process.pid}/clear_refs").write_text("5", encoding="ascii")


def answers(count: int, answer: Term, server: Server, client: Connection) -> int:
    """At its peak, a one-shot that asks for all keys so often, half of it in a child."""
    asked, told = [ALL_KEYS] * (count // 2), [answer] * (count // 2)
    begin_peak(server)
    ask_long(client, ("transaction", [*asked, ("transaction", asked)], 0), size_of(("atomic", [*told, ("atomic", told)])))
    return server.kilobytes("VmHWM")


def bag_writes(records: int, count: int, server: Server, client: Connection) -> int:
    """The peak of so many writes of a one-shot to a key of so many records; a session that reads nothing watches the table."""
    written = [bag_record(records + number) for number in range(count)]
    mirror = watcher(server)
    begin_peak(server)
    change(client, *(("write", record) for record in written))
    held = server.kilobytes("VmHWM")
    for place, record in enumerate(written):
        tag, name, what, old, _ = mirror.event()[1]
        assert (tag, name, what) == ("write", "t", record), "a write"
        holds("the records before it", old == [bag_record(number) for number in range(records + place)])
    return held


def rows(record: Record, count: int, server: Server, client: Connection) -> int:
    """A table of so many, which the tables that the journal starts from have too."""
    fill(client, record, count, 500)
    commit_nothing(client)
    return server.kilobytes()
