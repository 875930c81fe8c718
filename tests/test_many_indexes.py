"""Changes of many index entries, which are made in the indexes after the commit, some at a time."""

import random
import threading
from typing import Any, Callable, Iterator, List

import pytest

from tests.lib.checks import ATOMIC, OK, change, committed, one_shot, opened, script, side_by_side
from tests.lib.holding import fill
from tests.lib.servers import Server
from tests.lib.wire import Connection, Term

# Between two parts of such a change the server yields to others, so it waits for other programs.
pytestmark = pytest.mark.serial
# The most indexes of a table, and the most writes of a transaction that begins, writes and commits by requests of its own.
INDEXES, WRITES = 254, 999
# The writes of which one has the value that is looked for.
EACH = 100
# The least bytes of a change that is kept: its record has 62 elements of 16 bytes.
PER_CHANGE = 900
# A change of many entries takes so many seconds at most.
LONG = 150
# How often a reader begins again whose lock another holds.
RETRIES = 1000
# The records of a key that is deleted, the indexes of its bag, and how often.
LARGE, SEVERAL, DELETIONS = 20_000, 8, 3
# The least bytes of an old record that an index still has.
PER_RECORD = 100
# Keys and values of the random changes, the commits, and the changes of each.
KEYS, VALUES, COMMITS, CHANGES = 40, 3, 20, 100


def wide(client: Connection, kind: str, indexes: int) -> None:
    """In a new server: a table with an index at each attribute but the key."""
    attributes = [f"a{at}" for at in range(indexes + 1)]
    script((client, ("create_table", "t", [("type", kind), ("attributes", attributes), ("index", attributes[1:])]), ATOMIC))


def changes(kind: str, indexes: int, chance: random.Random) -> Iterator[Term]:
    """Writes and deletions at random, with few values in all positions."""
    while True:
        record = ("t", chance.randrange(KEYS), *[chance.randrange(VALUES)] * indexes)
        verb = chance.choice(["write", "write", "write", "delete", "delete_object"])
        yield (verb, record[:2] if verb == "delete" else record)


def test_changes_are_kept_no_longer(serve: Callable[..., Server]) -> None:
    """Changes that are made in all indexes take no memory any more."""
    server = serve("--connections", "1", "--journal", "16")
    writer = server.connect()
    indexes, keys, times = 60, 300, 100
    wide(writer, "set", indexes)

    def write_all(turn: int) -> None:
        writes = [("write", ("t", key, turn, *[0] * (indexes - 1))) for key in range(keys)]
        script((writer, one_shot(*writes), ("atomic", [OK] * keys)))

    for turn in range(10):
        write_all(turn)
    before = server.kilobytes()
    for turn in range(times):
        write_all(turn)
    assert server.kilobytes() - before < keys * times * PER_CHANGE / 1024


@pytest.mark.parametrize("kind", ["set", "bag"])
def test_index_reads_beside_commits(serve: Callable[..., Server], kind: str) -> None:
    """What a reader finds by an index is what it finds in the whole table, in the same transaction."""
    server, chance, done = serve("--connections", "2"), random.Random(7), threading.Event()
    writer, reader = server.clients(2)
    indexes = 200
    wide(writer, kind, indexes)
    made = changes(kind, indexes, chance)

    def write_on() -> None:
        try:
            for _ in range(COMMITS):
                script((writer, one_shot(*(next(made) for _ in range(CHANGES))), ("atomic", [OK] * CHANGES)))
        finally:
            done.set()

    def read_on() -> None:
        while not done.is_set():
            value, at = chance.randrange(VALUES), chance.randrange(indexes)
            request = one_shot(("match_object", ("t", *["_"] * (indexes + 1))), ("index_read", "t", value, f"a{at + 1}"))
            _, (records, found) = reader.ask(request)
            assert found == [record for record in records if record[at + 2] == value]

    side_by_side([(write_on, ()), (read_on, ())])


def test_others_come_between(serve: Callable[..., Server]) -> None:
    """While the writes of one commit are made in all indexes, another session's reads are answered, and see all of them."""
    server, done = serve("--connections", "2"), threading.Event()
    writer, reader = server.clients(2)
    wide(writer, "set", INDEXES)
    opened(writer)
    writer.socket.settimeout(LONG)
    for key in range(WRITES):
        script((writer, ("write", ("t", key, *[int(key % EACH == 0)] * INDEXES)), OK))
    found: List[Any] = []

    def commit() -> None:
        try:
            committed(writer)
        finally:
            done.set()

    def read_on() -> None:
        while not done.is_set():
            found.append(reader.ask(one_shot(("index_read", "t", 1, "a1"), ("index_read", "t", 1, f"a{INDEXES}"), retries=RETRIES))[1])

    side_by_side([(read_on, ()), (commit, ())])
    sizes = [(len(first), len(last)) for first, last in found]
    few = WRITES // EACH + 1
    assert set(sizes) <= {(0, 0), (few, few)}
    assert sizes.count((few, few)) > 3


def of_bag(key: int, number: int) -> Term:
    """A record that its number tells from others of the key, and of which few have 1 in the indexed positions."""
    return ("t", key, *[int(number % EACH == 0)] * SEVERAL, number)


def large_key(client: Connection) -> None:
    """In a new server: a bag with a key of many records."""
    attributes = [f"a{at}" for at in range(SEVERAL + 2)]
    options: Term = [("type", "bag"), ("attributes", attributes), ("index", attributes[1:-1])]
    script((client, ("create_table", "t", options), ATOMIC))
    client.socket.settimeout(LONG)
    fill_key(client)


def fill_key(client: Connection) -> None:
    fill(client, lambda number: of_bag(0, number), LARGE, 500)


def test_a_deleted_key_is_kept_no_longer(serve: Callable[..., Server]) -> None:
    """Its records are out of all indexes after the reply, and take no memory any more."""
    server = serve("--connections", "1", "--journal", "16")
    client = server.connect()
    large_key(client)
    used = []
    for _ in range(DELETIONS):
        change(client, ("delete", ("t", 0)))
        fill_key(client)
        used.append(server.kilobytes())
    assert used[-1] - used[0] < LARGE * PER_RECORD / 1024


def test_a_large_key_is_deleted_in_parts(serve: Callable[..., Server]) -> None:
    """While a key's records are taken out of the indexes, another session's reads find none of them, but one that it writes then."""
    server, done = serve("--connections", "2"), threading.Event()
    deleter, reader = server.clients(2)
    large_key(deleter)
    other, again = of_bag(1, 0), of_bag(0, LARGE)
    change(deleter, ("write", other))
    found: List[Any] = []

    def delete() -> None:
        try:
            change(deleter, ("delete", ("t", 0)))
        finally:
            done.set()

    def read_on() -> None:
        while not done.is_set() or found[-1] == [[other], [other]]:
            found.append(reader.ask(one_shot(*(("index_read", "t", 1, at) for at in ("a1", f"a{SEVERAL}")), retries=RETRIES))[1])
            if found[-1] == [[other], [other]]:
                change(reader, ("write", again))

    side_by_side([(read_on, ()), (delete, ())])
    sizes = [(len(first), len(last)) for first, last in found]
    few = LARGE // EACH + 1
    assert set(sizes) <= {(few, few), (1, 1), (2, 2)}
    assert sizes == sorted(sizes, key=[(few, few), (1, 1), (2, 2)].index)
    assert sizes.count((2, 2)) > 3
    assert found[-1] == [[again, other]] * 2
