"""The memory that `tabd serve` uses for its replies and events.

Replies share their records with the table: the replies in the journal's entries, and the items in an outbox, take little compared with the table,
and are freed with their last owner. A request that needs memory is refused if the system has none. bench/memory.py measures more of
it. Each case has a server of its own.
"""

import os
import resource
from functools import partial
from typing import Callable, Iterator

import pytest

from tests.lib import holding
from tests.lib.checks import ATOMIC, CREATE, END, HERE_OK, OK, change, committed, holds, one_shot, opened, script, soon, write
from tests.lib.holding import ALL_KEYS, ALL_RECORDS, DUMP, INDEXED, MEGABYTE, NO_MORE, Held, table
from tests.lib.servers import Server
from tests.lib.wire import Connection, Term

pytestmark = pytest.mark.serial


@pytest.fixture
def held(tabd: str, request: pytest.FixtureRequest, passed: Callable[[], bool], plain: None) -> Iterator[Held]:
    """A server with the options of the mark `words`. After a case that passes it has printed nothing."""
    mark = request.node.get_closest_marker("words")
    with Held(tabd, *(mark.args if mark else ())) as server:
        yield server
        if passed():
            server.is_stopped()


KEYS, RECORDS = list(range(20_000)), list(map(holding.small_record, range(20_000)))
EVEN = list(map(holding.halved, range(0, 20_000, 2)))
SMALL, HALVED = table(holding.small_record, 20_000), table(holding.halved, 20_000, options=INDEXED)
BAG = [("type", "bag")]
OF_TEN, OF_ONE_KEY = table(holding.of_ten, 1, options=BAG), table(holding.bag_record, 3_000, options=BAG)
FULL = pytest.mark.words("--journal", "16")
FEW_BYTES, LISTS = pytest.mark.words("--journal-bytes", "1048576"), holding.empty_lists(30_000)
FEW_EVENTS = pytest.mark.words("--journal-bytes", "1048576", "--outbox-bytes", "1048576")
# Thirty megabytes.
LONG, MANY = holding.long_record(100_000), 300
# A bound in kilobytes, a table, and a client's requests. Wrong servers use more: one that copies its replies more
# than 150,000 in each case, one that builds an item before it sends it some 30,000 in each that is on its way, one whose journal copies its rows some
# 70,000, one whose maps reserve room for entries that don't come some 38,000 in "rows of a server", one whose journal limits
# only entries some 225,000 in "operations in the journal", and one whose journal limits no bytes some 190,000 in "writes over a record".
# Without `--outbox-bytes` "events that nobody reads" takes some 110,000.
CASES = [
    pytest.param(30_000, table(holding.long_record(MEGABYTE), 1), partial(holding.long_reads, 1, 200), id="reads of a long record"),
    pytest.param(30_000, SMALL, partial(holding.whole_reads, (ALL_KEYS, KEYS), 300, False), id="all keys"),
    pytest.param(30_000, SMALL, partial(holding.whole_reads, (ALL_KEYS, KEYS), 300, True), id="all keys after a write"),
    pytest.param(30_000, SMALL, partial(holding.whole_reads, (ALL_RECORDS, RECORDS), 100, False), id="match_object of all"),
    pytest.param(30_000, HALVED, partial(holding.whole_reads, (holding.HALF, EVEN), 300, False), id="match_object of half"),
    pytest.param(30_000, HALVED, partial(holding.whole_reads, (holding.BY_INDEX, EVEN), 300, False), id="index_read of half"),
    pytest.param(160_000, table(holding.small_record, 10), partial(holding.short_reads, 250), id="operations in the journal"),
    pytest.param(20_000, table(LISTS, 1), partial(holding.writes_over, LISTS, 200), id="writes over a record", marks=FEW_BYTES),
    pytest.param(20_000, table(LISTS, 1), partial(holding.watched_writes, 8, LISTS, 100), id="events that nobody reads", marks=FEW_EVENTS),
    pytest.param(30_000, SMALL, partial(holding.answers, 300, KEYS), id="a one-shot's answers"),
    pytest.param(34_000, table(holding.small_record, 1), partial(holding.rows, holding.small_record, 100_000), id="rows of a server", marks=FULL),
    pytest.param(48_000, OF_TEN, partial(holding.rows, holding.of_ten, 100_000), id="rows of a bag", marks=FULL),
    pytest.param(30_000, table(LONG, 50), partial(holding.dumps, 32, LONG, 50), id="dumps in an outbox"),
    pytest.param(8_000, table(LONG, MANY), partial(holding.dumps, 1, LONG, MANY), id="a dump on its way"),
    pytest.param(8_000, table(LONG, MANY), partial(holding.old_records, LONG, MANY), id="old records on their way"),
    pytest.param(30_000, OF_ONE_KEY, partial(holding.bag_writes, 3_000, 100), id="writes to a bag's key"),
]


@pytest.mark.parametrize("bound, make, hold", CASES)
def test_holds(held: Held, bound: int, make: Callable[[Connection], None], hold: Callable[[Server, Connection], int]) -> None:
    """At most so many kilobytes in addition to the table."""
    alone, all_of = holding.measured(held, make, hold)
    assert all_of - alone <= bound, "kilobytes"


# More dumps of a record of a megabyte than a connection's buffers take up.
QUEUED = 16
ROUNDS, FIRST_ROUNDS, GROWTH = 40, 10, 8_000


def test_the_last_lets_go(held: Held) -> None:
    """What a table, the journal and an outbox hold is given back with the last of them, whichever of the two that is."""
    client, reader, mirror = (held.connect() for _ in range(3))
    script((client, CREATE, ATOMIC))
    for number in range(ROUNDS):
        one_round(client, reader, mirror, ("t", 1, bytes([number]) * MEGABYTE), number % 2)
        if number + 1 == FIRST_ROUNDS:
            before = held.kilobytes()
    growth = held.kilobytes() - before
    assert growth <= GROWTH, f"{growth} kB more than after {FIRST_ROUNDS} rounds, {GROWTH} at most"


def one_round(client: Connection, reader: Connection, mirror: Connection, record: Term, outbox_first: int) -> None:
    """A record is written, read, dumped, and sent as the old record of an event; then it is deleted."""
    read = ("read", "t", 1)
    change(client, ("write", record))
    holding.transaction(reader, [read] * 10, holding.size_of([record]))
    holding.ask_long(reader, ("transaction", [read, ALL_RECORDS], 0), holding.size_of(("atomic", [[record]] * 2)))
    # The last subscription goes on.
    holding.queue(mirror, client, ([DUMP, NO_MORE] * QUEUED)[:-1])
    change(client, write(1, "short"))
    if outbox_first:
        empty_outbox(mirror, record)
    holding.commit_nothing(client)
    if not outbox_first:
        empty_outbox(mirror, record)


def empty_outbox(mirror: Connection, record: Term) -> None:
    told = [mirror.receive() for _ in range(4 * QUEUED)]
    assert told.count(holding.begin_mark([record])) == QUEUED, "dumps"
    holds("old records", [term[1][3] for term in told if term[0] == "mnesia_table_event"] == [[record]])
    script((mirror, NO_MORE, HERE_OK))
    assert mirror.event() == END, "end marker"


# Some thirty megabytes of the server, which the C library gives back at once.
EVENT, EVENT_KB = holding.empty_lists(900_000), 28_125
GIVE_BACK = {"MALLOC_TRIM_THRESHOLD_": "131072", "MALLOC_MMAP_THRESHOLD_": "131072"}


def test_a_sent_event_is_dropped(tabd: str, plain: None) -> None:
    """Two writes of a record, with a session that watches and has taken the event of the first. That of the second, which is on its way, has
    a copy of its record, and the record before: two more than the table. A server that drops an item only after the next one is sent uses four."""
    with Held(tabd, "--journal-bytes", "1048576", env={**os.environ, **GIVE_BACK}) as server:
        client, mirror = server.connect(), server.connect(small=True)
        table(EVENT, 1)(client)
        holding.commit_nothing(client)
        holding.watch(mirror)
        alone = server.kilobytes()
        for _ in range(2):
            change(client, ("write", EVENT(0)))
        first = mirror.payload()
        more = soon(server.kilobytes, lambda held: held - alone < 3 * EVENT_KB) - alone
        assert more < 3 * EVENT_KB, f"{more} kB more than the table"
        assert len(mirror.payload()) == len(first), "the second event"


# The memory that the server may use in addition: enough for some of the writes below, and not for all.
ROOM = 60_000_000


def writes_until_refused(client: Connection) -> int:
    """Of a megabyte each, in the transaction that is open: how many are made."""
    for key in range(1, 1_000):
        reply = client.ask(write(key, bytes(MEGABYTE)))
        if reply != OK:
            assert reply == ("error", "no_memory"), f"write {key}"
            return key - 1
    raise AssertionError("no write was refused")


def test_no_more_memory(held: Held) -> None:
    """A write without memory is refused. The abort of its transaction frees its memory: others are served, and nothing has
    changed. With more memory the write is done."""
    client, other = held.connect(), held.connect()
    script((client, CREATE, ATOMIC))
    resource.prlimit(held.process.pid, resource.RLIMIT_AS, (held.kilobytes("VmSize") * 1024 + ROOM, resource.RLIM_INFINITY))
    for number in range(3):
        opened(client)
        made = writes_until_refused(client)
        assert 20 < made, "writes"
        others = one_shot(write(0, number), ("all_keys", "t"), ("read", "t", 0))
        script((client, ("abort", "r"), ("aborted", "r")), (other, others, ("atomic", [OK, [0], [("t", 0, number)]])))
    resource.prlimit(held.process.pid, resource.RLIMIT_AS, (resource.RLIM_INFINITY, resource.RLIM_INFINITY))
    opened(client)
    script(*((client, write(key, bytes(MEGABYTE)), OK) for key in range(1, made + 20)))
    committed(client)
