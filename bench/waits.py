#!/usr/bin/env python3
"""How long one client can make another of `tabd serve` wait, with Python's standard library alone.

    waits.py PROGRAM [ROUNDS [CLIENTS [WORDS]]]    as waits.py crates/tabd/out/tabd 3 16 'index deletions'

Each row has a server of its own. While one client does what the row names, so many times (3), another process reads one record of another
table, again and again, in a one-shot each. The row has how often it read, and of its reads the median and the longest, in milliseconds: with
nothing beside first, which is what the machine and the client take. The longest is that of all rounds, so other work on the machine moves it.
Where more CLIENTS than one are given, so many ask at once, and only the rows whose request each of them can make are printed. Where WORDS are
given, only the rows that contain one of them are. The last column is the processor time, in milliseconds, that the thread of one client took for
all that the row names, at most: no hold of the book's mutex is longer. What it does in several holds, as for many indexes, counts together.
"""

import contextlib
import itertools
import multiprocessing
import os
import sys
import time
from functools import partial
from typing import Any, Callable, Dict, Iterable, Iterator, List, Tuple

HERE = os.path.dirname(os.path.abspath(__file__))
sys.path.insert(0, os.path.join(HERE, ".."))
from tests.lib.checks import ATOMIC, HERE_OK, OK, committed, opened, same, script, side_by_side  # noqa: E402
from tests.lib.holding import ALL_KEYS, ALL_RECORDS, DUMP, MEGABYTE, NO_MORE, Held  # noqa: E402
from tests.lib.holding import ask_long, fill, long_reads, long_record, size_of, small_record, table  # noqa: E402
from tests.lib.servers import Server  # noqa: E402
from tests.lib.wire import Connection, Term  # noqa: E402

# What is done each time, and what makes it for a client.
Work = Callable[[], object]
Prepare = Callable[[Server, Connection], Work]

RECORDS, BAGGED, WRITES, DUMPS, READS, FINDS, WATCHERS = 100_000, 6_000, 899, 32, 999, 99, 60
# The most indexes of a table, the writes to it, the elements of a record's list that a request has room for, and index entries.
INDEXES, WIDE, ELEMENTS, ENTRIES = 254, 333, 1_000_000, 200_000
# The indexes of a bag from which a key with many records is deleted.
SOME = 16
# As many commands on tables as make a journal full, by two, and transactions behind them.
PAIRS, FOLDS = 66, 20
# The most sessions.
SESSIONS = 64
# The rounds of a row that uses up an attribute of its table in each.
MOST_ROUNDS = 5
# A read's own record, in a table of its own.
READ = (("transaction", [("read", "other", 1)], 0), ("atomic", [[("other", 1, 1)]]))
# Which keys are a client's own.
OWN = itertools.count()
# A one-shot that is told much takes so many seconds at most.
PATIENCE = 60


def read_on(place: Any, ready: Any, done: Any, found: Any) -> None:
    """Reads until the other is done; how long each read took."""
    reader, waited = Connection(place), []  # type: Connection, List[float]
    reader.socket.settimeout(PATIENCE)
    ready.set()
    while not done.is_set() or len(waited) < 2:
        begun = time.monotonic()
        script((reader, *READ))
        waited.append(time.monotonic() - begun)
    found.put(waited)


def spent(server: Server) -> Dict[str, float]:
    """The processor time of each thread of the server, in milliseconds."""
    folder = f"/proc/{server.process.pid}/task"
    found = {}
    for thread in os.listdir(folder):
        # One that ends meanwhile has no file any more.
        with contextlib.suppress(FileNotFoundError), open(f"{folder}/{thread}/schedstat", encoding="ascii") as file:
            found[thread] = int(file.read().split()[0]) / 1e6
    return found


def beside(server: Server, work: Work) -> Tuple[List[float], float]:
    """How long each read took that was made while this was done, and the most processor time that a thread took for it."""
    before = spent(server)
    ready, done = multiprocessing.Event(), multiprocessing.Event()
    found: "multiprocessing.Queue[List[float]]" = multiprocessing.Queue()
    reader = multiprocessing.Process(target=read_on, args=(server.place, ready, done, found))
    reader.start()
    ready.wait()
    try:
        work()
    finally:
        done.set()
    after = spent(server)
    waited = found.get()
    reader.join()
    return waited, max(after[thread] - time for thread, time in before.items() if thread in after)


def nothing(server: Server, client: Connection) -> Work:
    return lambda: time.sleep(1)


def asks(request: Term, size: int) -> Prepare:
    """A request, of whose reply it is looked only whether it has so many bytes."""

    def ask(server: Server, client: Connection) -> Work:
        return lambda: ask_long(client, request, size)

    return ask


def at_once(server: Server, client: Connection, prepare: Prepare, count: int) -> Work:
    """So many clients that each do this."""
    clients = [client, *(server.connect() for _ in range(count - 1))]
    for other in clients:
        other.socket.settimeout(PATIENCE)
    works = [prepare(server, other) for other in clients]
    return lambda: side_by_side([(work, ()) for work in works])


def long_transactions(reads: int) -> Prepare:
    return lambda server, client: partial(long_reads, 6, reads, server, client)


def many_dumps(server: Server, client: Connection) -> Work:
    """A session subscribes with a dump and ends that, so often, and takes all of it as it comes."""

    def work() -> None:
        client.send(DUMP)
        for _ in range(DUMPS):
            for request in (NO_MORE, DUMP):
                client.payload()
                client.payload()
                client.send(request)
        client.payload()
        client.payload()
        script_end(client)

    return work


def script_end(client: Connection) -> None:
    client.send(NO_MORE)
    client.payload()
    client.payload()


def watched(server: Server, client: Connection, watching: Tuple[str, int], request: Term, replies: Term) -> Work:
    """A one-shot, of as many events as replies, told in detail to so many that read nothing meanwhile, and take it behind it."""
    name, count = watching
    table_at, size = ("table", name, "detailed"), size_of(("atomic", replies))
    mirrors = [server.connect() for _ in range(count)]
    for mirror in mirrors:
        script((mirror, ("subscribe", table_at), HERE_OK))
        same("begin marker", mirror.event()[0], "mnesia_table_begin")

    def work() -> None:
        ask_long(client, request, size)
        for mirror in mirrors:
            for _ in replies:
                mirror.payload()

    return work


def bag_asks(server: Server, client: Connection, verb: str, first: int) -> Work:
    """So many of these at one key of a bag of its own, told in detail to one."""
    name = f"bag{next(OWN)}"
    script((client, ("create_table", name, [("type", "bag")]), ATOMIC))
    fill(client, lambda number: (name, 0, number), BAGGED, 500)
    request = ("transaction", [(verb, (name, 0, first + number)) for number in range(WRITES)], 0)
    return watched(server, client, (name, 1), request, [OK] * WRITES)


def bag_writes(server: Server, client: Connection) -> Work:
    return bag_asks(server, client, "write", BAGGED)


def bag_deletions(server: Server, client: Connection) -> Work:
    return bag_asks(server, client, "delete_object", 0)


def own_writes(server: Server, client: Connection) -> Work:
    """To keys of its own, so that no two wait for each other's locks."""
    first = next(OWN) * READS
    request = ("transaction", [("write", small_record(first + number)) for number in range(READS)], 0)
    return lambda: ask_long(client, request, size_of(("atomic", [OK] * READS)))


def long_writes(server: Server, client: Connection) -> Work:
    """A record whose list has many elements, which the journal counts when it takes it and when it folds it."""
    request: Term = ("transaction", [("write", ("t", next(OWN), [[]] * ELEMENTS))], 0)
    return lambda: ask_long(client, request, size_of(("atomic", [OK])))


def wide_table(client: Connection) -> str:
    """A table with many indexes; its name."""
    name, attributes = f"wide{next(OWN)}", [f"a{at}" for at in range(INDEXES + 1)]
    script((client, ("create_table", name, [("attributes", attributes), ("index", attributes[1:])]), ATOMIC))
    return name


def wide_writes_of(name: str, keys: Iterable[int]) -> List[Term]:
    """Writes of records that have a value of their own in each index."""
    return [("write", (name, *range(key, key + INDEXES + 1))) for key in keys]


def wide_writes(server: Server, client: Connection) -> Work:
    """Writes to a table of its own with many indexes, as many as a request has room for."""
    name, keys = wide_table(client), itertools.count()

    def work() -> None:
        writes = wide_writes_of(name, itertools.islice(keys, WIDE))
        ask_long(client, ("transaction", writes, 0), size_of(("atomic", [OK] * WIDE)))

    return work


def wide_commits(rounds: int) -> Prepare:
    """The commit of a transaction whose writes came each in a request of its own, in each round that of another session."""

    def prepare(server: Server, client: Connection) -> Work:
        sessions = [server.connect() for _ in range(rounds)]
        for session in sessions:
            opened(session)
            session.socket.settimeout(PATIENCE)
            script(*((session, write, OK) for write in wide_writes_of(wide_table(client), range(READS))))
        left = iter(sessions)
        return lambda: committed(next(left))

    return prepare


def indexed_deletions(server: Server, client: Connection) -> Work:
    """Deletions at one key of a bag of its own with an index, where many records have one value."""
    name, first = f"indexed{next(OWN)}", itertools.count()
    script((client, ("create_table", name, [("type", "bag"), ("attributes", ["key", "val", "other"]), ("index", ["val"])]), ATOMIC))
    fill(client, lambda number: (name, 0, number % 2, number), RECORDS, 900)

    def work() -> None:
        records = [(name, 0, number % 2, number) for number in itertools.islice(first, READS)]
        ask_long(client, ("transaction", [("delete_object", record) for record in records], 0), size_of(("atomic", [OK] * READS)))

    return work


def bag_record(name: str, indexes: int, key: int, number: int) -> Term:
    """With its number in each indexed position."""
    return (name, key, *[number] * indexes)


def key_deletions(rounds: int, indexes: int) -> Prepare:
    """The deletion of a key that has many records, in a bag of its own with so many indexes: in each round that of the next key."""

    def prepare(server: Server, client: Connection) -> Work:
        name, values = f"keyed{next(OWN)}", [f"v{at}" for at in range(indexes)]
        script((client, ("create_table", name, [("type", "bag"), ("attributes", ["key", *values]), ("index", values)]), ATOMIC))
        for key in range(rounds):
            fill(client, partial(bag_record, name, indexes, key), RECORDS, 500)
        left = iter(range(rounds))
        return lambda: script((client, ("transaction", [("delete", (name, next(left)))], 0), ("atomic", [OK])))

    return prepare


def refused_table(server: Server, client: Connection) -> Work:
    """A table whose last index entry, of many, is of no attribute."""
    attributes = [f"b{at}" for at in range(INDEXES)]
    options: Term = [("attributes", attributes + ["z"]), ("index", ["z"] * ENTRIES + ["nosuch"])]
    request: Term = ("create_table", "refused", options)
    return lambda: ask_long(client, request, size_of(("aborted", ("bad_def", "refused", ("index", "nosuch")))))


def index_again(client: Connection, name: str) -> None:
    """An index is added to a table and taken away."""
    script((client, ("add_table_index", name, "val"), ATOMIC), (client, ("del_table_index", name, "val"), ATOMIC))


def own_indexes(verb: str, indexed: bool) -> Prepare:
    """An index is added to a table of its own, or deleted from it: in each round that of the next attribute."""

    def prepare(server: Server, client: Connection) -> Work:
        name, values = f"own{next(OWN)}", [f"v{at}" for at in range(MOST_ROUNDS)]
        options: Term = [("attributes", ["key", *values]), ("index", values if indexed else [])]
        script((client, ("create_table", name, options), ATOMIC))
        fill(client, lambda key: (name, key, *[key] * MOST_ROUNDS), RECORDS, 500)
        left = iter(values)
        return lambda: script((client, (verb, name, next(left)), ATOMIC))

    return prepare


def index_folds(server: Server, client: Connection) -> Work:
    """Transactions that each fold a command."""
    request, size = ("transaction", [("read", "t", 1)] * READS, 0), size_of(("atomic", [[small_record(1)]] * READS))

    def work() -> None:
        for _ in range(FOLDS):
            ask_long(client, request, size)

    return work


def many_watch(server: Server, client: Connection) -> Work:
    request = ("transaction", [("write", small_record(key)) for key in range(READS)], 0)
    return watched(server, client, ("t", WATCHERS), request, [OK] * READS)


def rows(rounds: int, count: int) -> Iterator[Tuple[str, Callable[[Connection], None], Prepare]]:
    """What, how its table is made, and what is done each time."""
    small, one = table(small_record, RECORDS, 500), table(small_record, 1)
    # Of what is sent as a reply many are sent as much together as one is alone.
    finds, reads, long = FINDS // count, READS // count, 500 // count
    keys, records = list(range(RECORDS)), [small_record(key) for key in range(RECORDS)]
    indexed = [("t", key, 7) for key in range(RECORDS)]

    def with_index(client: Connection) -> None:
        script((client, ("create_table", "t", [("index", ["val"])]), ATOMIC))
        fill(client, lambda key: indexed[key], RECORDS, 500)

    def with_commands(client: Connection) -> None:
        """The journal is full of commands on the table, of which each second made an index."""
        small(client)
        for _ in range(PAIRS):
            index_again(client, "t")

    yield "nothing", small, nothing
    yield f"6 transactions of {long} reads of a record of 1 MB", table(long_record(MEGABYTE), 1), long_transactions(long)
    yield f"all_keys, {RECORDS} records", small, asks(("transaction", [ALL_KEYS], 0), size_of(("atomic", [keys])))
    yield f"match_object that finds all, {RECORDS} records", small, asks(("transaction", [ALL_RECORDS], 0), size_of(("atomic", [records])))
    none = ("match_object", ("t", "_", "none"))
    yield f"match_object that finds none, {RECORDS} records", small, asks(("transaction", [none], 0), size_of(("atomic", [[]])))
    half = ("match_object", ("t", "_", 7))
    mixed = [("t", key, 7 + key % 2) for key in range(RECORDS)]
    yield (f"match_object that finds half, {RECORDS} records", table(lambda key: mixed[key], RECORDS, 500),
           asks(("transaction", [half], 0), size_of(("atomic", [mixed[::2]]))))
    yield f"index_read that finds all, {RECORDS} records", with_index, asks(("transaction", [("index_read", "t", 7, "val")], 0), size_of(("atomic", [indexed])))
    yield f"a one-shot of {READS} writes, {RECORDS} records", small, own_writes
    yield f"a write of a list of {ELEMENTS} empty lists", one, long_writes
    yield f"a one-shot of {WIDE} writes to a table of its own with {INDEXES} indexes", one, wide_writes
    yield f"a one-shot of {READS} deletions at a key of {RECORDS} records, of a bag of its own with an index", one, indexed_deletions
    yield f"a table with {ENTRIES} index entries is refused", one, refused_table
    yield f"an index is added to a table of {RECORDS} records", one, own_indexes("add_table_index", False)
    yield f"an index is deleted from a table of {RECORDS} records", one, own_indexes("del_table_index", True)
    yield (f"a one-shot of {finds} match_object that find half, {RECORDS} records", table(lambda key: mixed[key], RECORDS, 500),
           asks(("transaction", [half] * finds, 0), size_of(("atomic", [mixed[::2]] * finds))))
    yield f"a one-shot of {reads} all_keys, {RECORDS} records", small, asks(("transaction", [ALL_KEYS] * reads, 0), size_of(("atomic", [keys] * reads)))
    yield f"{DUMPS} dumps, {RECORDS} records", small, many_dumps
    yield f"a one-shot of {WRITES} writes to a key of a bag of its own, of {BAGGED} records, told in detail", one, bag_writes
    yield f"a one-shot of {WRITES} deletions there, told in detail", one, bag_deletions
    yield f"{FOLDS} one-shots of {READS} reads that fold commands on a table of {RECORDS} records", with_commands, index_folds
    # Each commit has a session of its own.
    if count * (rounds + 1) < SESSIONS:
        yield f"the commit of {READS} writes to a table with {INDEXES} indexes", one, wide_commits(rounds)
    if count > 1:
        return
    yield f"a key of {RECORDS} records is deleted from a bag with an index", one, key_deletions(rounds, 1)
    yield f"a key of {RECORDS} records is deleted from a bag with {SOME} indexes", one, key_deletions(rounds, SOME)
    yield f"a one-shot of {READS} writes, told in detail to {WATCHERS}", small, many_watch


def main() -> None:
    if len(sys.argv) not in (2, 3, 4, 5):
        sys.exit(__doc__)
    rounds, count = [int(word) for word in sys.argv[2:4]] + [3, 1][len(sys.argv[2:4]) :]
    if rounds > MOST_ROUNDS:
        sys.exit(f"at most {MOST_ROUNDS} rounds")
    words = sys.argv[4].split() if len(sys.argv) > 4 else [""]
    print("what | reads | median | longest | processor")
    for what, make, prepare in rows(rounds, count):
        if not any(word in what for word in words):
            continue
        waited: List[float] = []
        most = 0.0
        with Held(os.path.abspath(sys.argv[1])) as server:
            client = server.connect()
            client.socket.settimeout(PATIENCE)
            script((client, ("create_table", "other", []), ATOMIC), (client, ("transaction", [("write", ("other", 1, 1))], 0), ("atomic", [OK])))
            make(client)
            work = at_once(server, client, prepare, count)
            for _ in range(rounds):
                longer, took = beside(server, work)
                waited, most = waited + longer, max(most, took)
        waited.sort()
        print(f"{what} | {len(waited)} | {waited[len(waited) // 2] * 1000:.2f} | {waited[-1] * 1000:.1f} | {most:.1f}", flush=True)


if __name__ == "__main__":
    main()
