#!/usr/bin/env python3
"""What one client can make `tabd serve` hold in memory, with Python's standard library alone.

    memory.py PROGRAM            as memory.py crates/tabd/out/tabd

Each row has a server of its own, with a table whose making the journal has forgotten. Its figures are kilobytes of the server's memory (VmRSS):
with the table alone, with what the row names, and what that is more. The C library keeps some of what is freed, and gives it out again first, so
that less than some ten megabytes more say little. A server that copies what it tells takes up to 3.3 GB. Other work on the machine moves how long
a read waited, and no other figure.
"""

import os
import sys
import time
from functools import partial
from typing import Any, Callable, Iterator, List, Tuple

HERE = os.path.dirname(os.path.abspath(__file__))
sys.path.insert(0, os.path.join(HERE, ".."))
from tests.lib.checks import OK, same, script, side_by_side  # noqa: E402
from tests.lib import holding  # noqa: E402
from tests.lib.holding import ALL_KEYS, ALL_RECORDS, BY_INDEX, HALF, INDEXED, MEGABYTE, Held  # noqa: E402
from tests.lib.holding import ask_long, bag_record, fill, halved, size_of, small_record, table  # noqa: E402
from tests.lib.wire import Connection, Term, spell  # noqa: E402

Make = Callable[[Connection], None]
Hold = Callable[[Any, Connection], int]

RECORDS, TRANSACTIONS, SCANS, DUMPS, READERS, ASKED, OVER = 100_000, 1_024, 64, 32, 12, 100, 40
# More than an outbox has room for, and as many as may watch beside the client that writes.
UNREAD, WATCHERS = 66, 63
# As many as a transaction may have, but one.
OPERATIONS = 999
# Records of the key of a bag, and the writes of a one-shot there.
BAGGED, WRITES = 6_000, 899
# A one-shot that tells much takes so many seconds at most.
PATIENCE = 60


def idle_readers(count: int, record: holding.Record, records: int, server: Held, _: Connection) -> int:
    """So many connections that have each read all of the table, at once."""
    size = size_of(list(map(record, range(records))))

    def read_all(reader: Connection) -> None:
        same("begin", reader.ask("begin")[0], "tid")
        ask_long(reader, ALL_RECORDS, size)
        # An abort, since the journal keeps the replies of a commit.
        script((reader, ("abort", "read"), ("aborted", "read")))

    readers = [server.connect() for _ in range(count)]
    side_by_side([(read_all, (reader,)) for reader in readers])
    return server.kilobytes()


def follow(mirror: Connection) -> None:
    """The events of the one-shot, each of which has one record more than the one before."""
    sizes = [len(mirror.payload()) for _ in range(WRITES)]
    same("their growth", {after - before for before, after in zip(sizes, sizes[1:])}, {len(spell(bag_record(0)))})


def one_shot(server: Held, client: Connection) -> int:
    """Writes to a key of many records, told to a mirror that reads, while another reads at another key."""
    mirror, other = holding.watcher(server), server.connect()
    for connection in (client, mirror, other):
        connection.socket.settimeout(PATIENCE)
    writes = [("write", bag_record(BAGGED + number)) for number in range(WRITES)]
    waited: List[float] = []
    done: List[object] = []

    def until_done(work: Callable[..., None], *given: Any) -> None:
        work(*given)
        done.append(work)

    def read() -> None:
        while len(done) < 2:
            begun = time.monotonic()
            script((other, ("transaction", [("read", "t", 1)], 0), ("atomic", [[]])))
            waited.append(time.monotonic() - begun)

    holding.begin_peak(server)
    asked = (client, ("transaction", writes, 0), ("atomic", [OK] * WRITES))
    side_by_side([(read, ()), (until_done, (follow, mirror)), (until_done, (script, asked))])
    server.remark = f"peak {server.kilobytes('VmHWM')} kB; another's read waited {max(waited) * 1000:.0f} ms, beside other work"
    return server.kilobytes()


def person(key: int) -> Term:
    return ("person", key, bytes(40))


def of_ten(number: int) -> Term:
    """One of ten of its key, as long as each other."""
    return ("person", number // 10, number.to_bytes(40, "big"))


def persons(record: holding.Record, count: int, server: Held, client: Connection) -> int:
    """Rows of a table, and how many bytes each of them takes."""
    before = server.kilobytes()
    fill(client, record, count, 500)
    holding.commit_nothing(client)
    held = server.kilobytes()
    server.remark = f"{(held - before) * 1024 / count:.0f} bytes a row"
    return held


def full_journal(operation: Term, reply: Term, server: Held, client: Connection) -> int:
    """As many one-shots as the journal has entries, of this operation as often as a transaction may have one."""
    request, size = ("transaction", [operation] * OPERATIONS, 0), size_of(("atomic", [reply] * OPERATIONS))
    for _ in range(TRANSACTIONS):
        ask_long(client, request, size)
    return server.kilobytes()


def of_long(size: int, count: int, hold: Callable[..., int], times: int) -> Tuple[Make, Hold]:
    """A table of long records, and what holds all of them so often."""
    record = holding.long_record(size)
    return table(record, count, 1 if count < 100 else 10), partial(hold, times, record, count)


def rows() -> Iterator[Tuple[str, List[str], Make, Hold]]:
    """What, the server's further words and settings of its environment, how the table is made, and what is held with it."""
    small, keys, records = table(small_record, RECORDS), list(range(RECORDS)), [small_record(key) for key in range(RECORDS)]
    bag = table(bag_record, BAGGED, options=[("type", "bag")])
    yield "6 transactions of 500 reads of a record of 1 MB", [], table(holding.long_record(MEGABYTE), 1), partial(holding.long_reads, 6, 500)
    for what, request, answer, count in (("all_keys", ALL_KEYS, keys, TRANSACTIONS), ("match_object", ALL_RECORDS, records, SCANS)):
        for writes in (False, True):
            hold = partial(holding.whole_reads, (request, answer), count, writes)
            yield f"{count} transactions of {'a write and ' * writes}{what}, {RECORDS} records", [], small, hold
    halves, found = table(halved, RECORDS, options=INDEXED), [halved(key) for key in range(0, RECORDS, 2)]
    for what, look in (("match_object", HALF), ("index_read", BY_INDEX)):
        hold = partial(holding.whole_reads, (look, found), SCANS, False)
        yield f"{SCANS} transactions of {what} that finds half, {RECORDS} records", [], halves, hold
    few = table(small_record, 10)
    operations: List[Tuple[str, Term, Term]] = [
        ("reads", ("read", "t", 1), [small_record(1)]),
        ("writes", ("write", small_record(1)), OK),
        ("match_object that find none", ("match_object", ("t", "_", "none")), []),
    ]
    for what, operation, reply in operations:
        yield f"{TRANSACTIONS} one-shots of {OPERATIONS} {what}", [], few, partial(full_journal, operation, reply)
    lists = holding.empty_lists(MEGABYTE)
    yield f"{OVER} writes over a record with a list of 1,000,000 empty lists", [], table(lists, 1), partial(holding.writes_over, lists, OVER)
    advised = ["MALLOC_TRIM_THRESHOLD_=131072", "--journal", "16", "--journal-bytes", "16777216", "--outbox-bytes", "16777216"]
    hold = partial(holding.watched_writes, 1, lists, UNREAD)
    yield f"{UNREAD} such writes, watched by a session that does not read", [], table(lists, 1), hold
    yield " ".join([f"{UNREAD} such writes, watched by a session that does not read,", *advised]), advised, table(lists, 1), hold
    hold = partial(holding.watched_writes, WATCHERS, holding.long_record(MEGABYTE), UNREAD)
    what = f"{UNREAD} writes over a record of 1 MB, watched by {WATCHERS} that do not read"
    yield what, [], table(holding.long_record(MEGABYTE), 1), hold
    yield " ".join([what + ",", *advised]), advised, table(holding.long_record(MEGABYTE), 1), hold
    yield f"a one-shot of {ASKED} all_keys, {RECORDS} records, at its peak", [], small, partial(holding.answers, ASKED, keys)
    for size, count in ((100_000, 300), (1_000, 30_000)):
        yield f"{DUMPS} dumps of 30 MB in an outbox, {count} records", [], *of_long(size, count, holding.dumps, DUMPS)
    for size, count in ((500_000, 40), (100, 170_000)):
        yield f"{READERS} connections that have read 20 MB, {count} records", [], *of_long(size, count, idle_readers, READERS)
    yield f"a one-shot of {WRITES} writes to a key of {BAGGED} records, told in detail", [], bag, one_shot
    for count in (100_000, 1_000_000):
        yield f"{count} rows of 40 bytes", ["--journal", "16"], table(person, 0), partial(persons, person, count)
    bag = table(of_ten, 0, options=[("type", "bag")])
    yield "100000 rows of 40 bytes, ten at each key of a bag", ["--journal", "16"], bag, partial(persons, of_ten, 100_000)


def main() -> None:
    if len(sys.argv) != 2:
        sys.exit(__doc__)
    print("what | the table alone | held with it | more")
    for what, words, make, hold in rows():
        settings = dict(word.split("=") for word in words if "=" in word)
        options = [word for word in words if "=" not in word]
        with Held(os.path.abspath(sys.argv[1]), *options, env={**os.environ, **settings}) as server:
            alone, held = holding.measured(server, make, hold)
        remark = f" ({server.remark})" if server.remark else ""
        print(f"{what}{remark} | {alone} | {held} | {held - alone}", flush=True)


main()
