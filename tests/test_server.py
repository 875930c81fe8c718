"""`tabd serve` with several connections: the replies and events of each.

No contract covers the replies of a server's threads, which are made under a lock: that sessions go on during another's open
transaction, that a waiting session is woken, that each increment of a contended record counts once, that mirrors end with the table's records,
that only the session that reads too slowly overflows. Each case has a server of its own, which has to end by itself when the connections
are closed.
"""

import random
import select
import time
from typing import Any, Callable, List

import pytest

from tests.lib.checks import ATOMIC, CREATE, END, HERE_OK, MARK, OK, QUIET, UNWATCH, add, at_last, begun, change, committed, event, follow
from tests.lib.checks import gets, holds, one_shot, raised, script, side_by_side, watch, write
from tests.lib.playing import play, scripted
from tests.lib.sending import Sent, both_ways, items, reads, served
from tests.lib.servers import Server
from tests.lib.wire import Connection, Term, frame, memory

# A length over the longest payload's.
TOO_LONG = (1_048_577).to_bytes(4, "big")
BADTERM = ("error", "badterm")


def ends_after(connection: Connection, *replies: Term) -> None:
    """The last replies on it, before the server ends its stream."""
    assert [connection.receive() for _ in replies] == [("reply", reply) for reply in replies]
    assert connection.stream.read() == b"", "its end"


def too_long(connection: Connection) -> None:
    connection.socket.sendall(TOO_LONG)
    ends_after(connection, BADTERM)


def too_long_after_others(connection: Connection) -> None:
    """In one piece, the requests before it are answered, and those after it are not."""
    connection.socket.sendall(frame(("read", "t", 2)) + TOO_LONG + frame("commit"))
    ends_after(connection, [], BADTERM)


def cut(connection: Connection) -> None:
    """Its stream ends inside a frame: there is no reply, and the stream the other way ends too."""
    connection.socket.sendall(frame("commit")[:-1])
    connection.half_close()
    ends_after(connection)


def unread(connection: Connection) -> None:
    """It reads nothing until a reply can't be written, and is gone then."""
    script((connection, write(2, bytes(500_000)), OK))
    connection.socket.sendall(frame(("read", "t", 2)) * 40)
    time.sleep(QUIET)
    connection.break_off()


test_others_go_on = served(3)(scripted("others go on"))
test_a_session_leaves_a_queue = served(3)(scripted("a session leaves a queue"))
test_batches = served(3, "--batches")(scripted("batches"))


@served(2)
@pytest.mark.parametrize("end", ["by an abort", "by a commit", "by an end", "by a broken connection"])
def test_woken(clients: List[Connection], end: str) -> None:
    """A session that waits gets the record as soon as the other's transaction ends, in each way."""
    play(clients, f"woken {end}")


@pytest.mark.parametrize(
    "count",
    [
        pytest.param(4, id="four", marks=served(4)),
        pytest.param(16, id="sixteen, journal of 16", marks=served(16, "--journal", "16")),
    ],
)
def test_raise(clients: List[Connection], count: int) -> None:
    """A hot record is raised on each connection; each raise counts once, and has a number of its own."""
    raises = raised(clients, 100 // count)
    assert sorted(number for _, number in raises) == list(range(2, len(raises) + 2)), "numbers"


def copy_of(log: Any) -> Any:
    """The table as events leave it that begins with record 2."""
    copy = {2: [("t", 2, 2)]}
    for _, (word, what, _) in log:
        copy[what[1]] = [what] if word == "write" else []
    return copy


# No session may overflow, also on a busy machine.
@served(4, "--outbox", "1024")
def test_two_mirrors(clients: List[Connection]) -> None:
    """Two write and delete; each mirror gets the same events, and ends with the table's records."""
    one, other, *mirrors = clients
    each = 60
    logs: List[Any] = [[] for _ in mirrors]

    def change_all(connection: Connection, seed: int) -> None:
        chance = random.Random(seed)
        for turn in range(each):
            key = chance.randrange(5)
            what = ("delete", ("t", key)) if turn % 5 == 0 else write(key, chance.randrange(1000))
            assert connection.ask(one_shot(what, retries=1000))[0] == "atomic", "commit"

    def read_all(mirror: Connection, log: Any) -> None:
        log += [mirror.event() for _ in range(2 * each)]

    script((one, CREATE, ATOMIC))
    change(one, write(2, 2))
    for mirror in mirrors:
        script((mirror, watch("dump"), HERE_OK))
        assert mirror.event() == ("mnesia_table_begin", "t", "simple", [("t", 2, 2)]), "begin marker"
    side_by_side([(change_all, (one, 1)), (change_all, (other, 2)), *((read_all, given) for given in zip(mirrors, logs))])
    assert logs[0] == logs[1], "logs"
    change(one, write("last", 0))
    for mirror, log in zip(mirrors, logs):
        log.append(mirror.event())
        assert log[-1][1][:2] == ("write", ("t", "last", 0)), "no more"
    one.ask("begin")
    assert {key: one.ask(("read", "t", key)) for key in copy_of(logs[0])} == copy_of(logs[0]), "the copies"
    assert set(one.ask(("all_keys", "t"))) <= set(copy_of(logs[0])), "no other records"


@both_ways("of events", "of batches", 3, "--outbox", "16", small=True)
def test_a_slow_reader(clients: List[Connection], sent: Sent) -> None:
    """A client that reads nothing gets an overflow after the events that were sent; the other gets each commit, and no one waits."""
    idle, writer, reader = clients
    value, count = b"v" * 4000, 200
    wanted = items([value] * count, sent)
    script((writer, CREATE, ATOMIC), (idle, watch(), HERE_OK))
    follow(reader)
    for number, item in enumerate(wanted, 1):
        change(writer, write(number, value))
        assert reader.event() == item, "the one that reads"
    idle.widen()
    assert idle.event() == MARK, "begin marker"
    for number, item in enumerate(wanted, 1):
        if (told := idle.event()) != item:
            break
    assert told == ("mnesia_overflow", number), "overflow"
    assert number < count, "so many at most"
    # It may watch again.
    follow(idle)
    change(writer, write(count + 1, 0))
    assert [idle.event()] == sent(count + 1, [event(count + 1, 0, count + 1)]), "event"


@both_ways("of events", "of batches", 3, "--outbox-bytes", "50000", small=True)
def test_an_outbox_of_bytes(clients: List[Connection], sent: Sent) -> None:
    """A client that reads nothing overflows at so many bytes, long before it has as many items as it may; the other gets each commit. What
    comes after the overflow is not for the client until it watches again."""
    idle, writer, reader = clients
    value, count = b"v" * 100_000, 60
    wanted = items([value] * count, sent)
    script((writer, CREATE, ATOMIC))
    follow(idle, reader)
    for number, item in enumerate(wanted, 1):
        change(writer, write(number, value))
        holds("the one that reads", reader.event() == item)
    idle.widen()
    for number, item in enumerate(wanted, 1):
        if (told := idle.event()) != item:
            break
    assert told == ("mnesia_overflow", number), "overflow"
    assert number < count, "so many at most"
    follow(idle)
    change(writer, write(count + 1, 0))
    assert [idle.event()] == sent(count + 1, [event(count + 1, 0, count + 1)]), "event"


@served(2, "--outbox", "1")
def test_an_outbox_of_one_item(clients: List[Connection]) -> None:
    """With an outbox of one item, a client overflows if commits come faster than it reads, and gets the overflow also if nothing was sent before."""
    watcher, writer = clients
    overflows = 0
    script((writer, CREATE, ATOMIC))
    for first in range(1, 400, 40):
        numbers = range(first, first + 40)
        follow(watcher)
        writer.send(*(one_shot(write(number, 0)) for number in numbers))
        gets(writer, *[("atomic", [OK]) for _ in numbers])
        for number in numbers:
            told = watcher.event()
            if told == ("mnesia_overflow", number):
                overflows += 1
                break
            assert told == event(number, 0, number), "event"
        else:
            script((watcher, UNWATCH, HERE_OK))
            assert watcher.event() == END, "end marker"
    assert overflows, "it read too fast"


OF_THREE = pytest.param(3, id="of three items", marks=served(2, "--outbox", "3"))
# The bytes of the record in an event that writes a number: the rest of an event is not counted.
EACH = memory(("t", 0, 1))
OF_BYTES = [(1, 1), (2, EACH + 1), (3, 3 * EACH), (4, 3 * EACH + 1), (64, 65 * EACH)]
BY_BYTES = [pytest.param(size, id=f"of {most} bytes", marks=served(2, "--outbox-bytes", str(most))) for size, most in OF_BYTES]


@pytest.mark.parametrize("size", [OF_THREE, pytest.param(64, id="by default", marks=served(2)), *BY_BYTES])
def test_an_outbox(clients: List[Connection], size: int) -> None:
    """After a commit that is being sent an outbox has room for so many items, and the next one overflows. The commit's end is not sent before
    its beginning is read, as no socket has room for 16 MB."""
    idle, writer = clients
    value, keys, next_one = bytes(1_000_000), range(16), size + 2
    begun(writer)
    follow(idle)
    script(*((writer, write(key, value), OK) for key in keys), (writer, "commit", ("atomic", 1)))
    # Something of the long commit has come, so it is not in the outbox any more.
    assert bool(select.select([idle.socket], [], [], 10)[0]), "it is sent"
    for number in range(2, next_one + 1):
        change(writer, write(0, number))
    holds("the long one", [idle.event() for _ in keys] == [event(key, value, 1) for key in keys])
    assert [idle.event() for _ in range(size)] == [event(0, number, number) for number in range(2, next_one)], "the commits after it"
    assert idle.event() == ("mnesia_overflow", next_one), "the next"


@served(2, "--outbox", "1024")
def test_during_long_replies(clients: List[Connection]) -> None:
    """A reply that is longer than a socket's buffer stays in one piece, while the events of others' commits go to the same connection."""
    reader, writer = clients
    each, rows = 20, [("u", key, bytes([key]) * 200_000) for key in range(40)]
    all_rows = ("match_object", ("u", "_", "_"))
    script((writer, CREATE, ATOMIC), (writer, ("create_table", "u", []), ATOMIC))
    follow(reader)
    for row in rows:
        change(writer, ("write", row))
    script((reader, "begin", ("tid", len(rows) + 1)))
    for first in range(0, 5 * each, each):
        reader.send(all_rows)
        time.sleep(QUIET)
        for key in range(first, first + each):
            change(writer, write(key, 0))
        holds("the reply is whole", reader.reply() == rows)
        for key in range(first, first + each):
            assert reader.event() == event(key, 0, len(rows) + 2 + key), "event"
    script((reader, "commit", ("atomic", len(rows) + 5 * each + 1)))
    holds("a one-shot's", reader.ask(one_shot(all_rows, all_rows)) == ("atomic", [rows] * 2))


@both_ways("of events", "in batches", 2)
def test_long_items(clients: List[Connection], sent: Sent) -> None:
    """A dump, and commits with long old records, come whole, in order with short commits. All are made before the dump is read, which has
    no end before that, so they follow it at once."""
    def changed(number: int, changes: Any) -> Any:
        return sent(number, [("mnesia_table_event", ("write", "t", ("t", key, 0), old, ("tid", number))) for key, old in changes])
    mirror, writer = clients
    rows, detailed = [("t", key, bytes([key]) * 1_000_000) for key in range(16)], ("table", "t", "detailed")
    script((writer, CREATE, ATOMIC))
    for row in rows:
        change(writer, ("write", row))
    mirror.send(("subscribe", detailed, "dump"))
    assert bool(select.select([mirror.socket], [], [], 10)[0]), "something is sent"
    wanted: List[Any] = [("mnesia_table_begin", "t", "detailed", rows)]
    for number, keys in enumerate(([16], [17], [0, 1, 2], [18], [3], [4, 19], [20]), len(rows) + 1):
        change(writer, *(write(key, 0) for key in keys))
        wanted += changed(number, [(key, rows[key : key + 1]) for key in keys])
    mirror.send(("unsubscribe", detailed))
    wanted.append(END)
    assert [mirror.reply(), mirror.reply()] == [HERE_OK] * 2, "replies"
    reads(mirror, wanted)


@served(5, "--batches", "--outbox", "1024")
def test_four_move_amounts(clients: List[Connection]) -> None:
    """Each moves amounts between two accounts, one move in each transaction. A client that applies whole commits never sees another sum, and the
    commits' numbers rise by one."""
    mirror, *writers = clients
    each, first = 50, {"a": 1000, "b": 1000}

    def move_all(connection: Connection, seed: int) -> None:
        chance = random.Random(seed)
        for _ in range(each):
            one, other = chance.sample(list(first), 2)
            amount = chance.randrange(1, 100)
            add(connection, (one, -amount), (other, amount))
            committed(connection)

    def read_all() -> None:
        accounts = dict(first)
        for wanted in range(2, each * len(writers) + 2):
            word, number, events = mirror.event()
            assert (word, number) == ("batch", wanted), "a commit"
            for _, (_, (_, key, value), _) in events:
                accounts[key] = value
            assert sum(accounts.values()) == sum(first.values()), f"the sum after commit {number}"

    script((writers[0], CREATE, ATOMIC))
    change(writers[0], *(write(key, value) for key, value in first.items()))
    follow(mirror)
    side_by_side([(read_all, ()), *((move_all, (one, seed)) for seed, one in enumerate(writers))])


@served(1)
def test_refused(clients: List[Connection]) -> None:
    """A payload that is no term or no command is refused, and the session goes on; a payload that is too long ends it."""
    [connection] = clients
    script((connection, "join", ("error", "badcommand")), (connection, (1, "begin"), ("error", "badcommand")))
    connection.socket.sendall(b"\0\0\0\1\x82")
    assert connection.reply() == BADTERM, "no term"
    script((connection, "begin", ("tid", 1)))
    too_long(connection)


ENDS = {
    "a length too long": too_long,
    "a length too long after others": too_long_after_others,
    "a frame that is cut": cut,
    "replies that are not read": unread,
}


@served(2)
@pytest.mark.parametrize("end", ENDS.values(), ids=ENDS.keys())
def test_frees(clients: List[Connection], end: Any) -> None:
    """A session whose stream ends so leaves, and its locks are released."""
    first, second = clients
    script((first, CREATE, ATOMIC))
    for what, payload in ("an empty frame", b"\0\0\0\0"), ("a float", b"\0\0\0\x0a\x83\x46" + bytes(8)):
        first.socket.sendall(payload)
        assert first.reply() == BADTERM, what
    script((first, "begin", ("tid", 1)), (first, write(1, "a"), OK), (first, ("write_lock_table", "t"), OK))
    end(first)
    script((second, "begin", ("tid", 2)))
    assert at_last(second, ("read", "t", 1)) == [], "its lock"
    script((second, write(1, "b"), OK), (second, "commit", ("atomic", 1)), (second, ("delete_table", "t"), ATOMIC))


@served(2)
def test_names_of_any_length(clients: List[Connection]) -> None:
    """Names of any length come back as they were sent: of up to 22 bytes, which are stored in the term, and longer ones, which are shared."""
    client, mirror = clients
    for letter, size in [("n", size) for size in (1, 21, 22, 23, 24, 254)] + [("ä", 10), ("ä", 11), ("ä", 12), ("ä", 254)]:
        name, attribute, one, other, value = (letter * size + last for last in ("", "i", "k", "l", "v"))
        first, second = (name, one, value), (name, other, value)
        script(
            (client, ("create_table", name, [("attributes", ["key", attribute]), ("index", [attribute])]), ATOMIC),
            (mirror, ("subscribe", ("table", name, "detailed")), HERE_OK),
            (client, one_shot(("write", second), ("write", first)), ("atomic", [OK, OK])),
            (client, one_shot(("index_read", name, value, attribute), ("match_object", (name, "_", value))), ("atomic", [[first, second]] * 2)),
            (client, one_shot(("delete", (name, one)), ("all_keys", name)), ("atomic", [OK, [other]])),
        )
        assert mirror.event() == ("mnesia_table_begin", name, "detailed"), "begin marker"
        for wanted in ("write", name, second, []), ("write", name, first, []), ("delete", name, (name, one), [first]):
            assert mirror.event()[1][:4] == wanted, "an event"


def test_an_accept_that_fails(serve: Callable[..., Server]) -> None:
    """If there are no more handles, the next connection is closed with no frame, and no more are accepted. The existing ones
    are served to their end, and the server ends with status 1."""
    server = serve("--connections", "4")
    first = server.connect()
    begun(first)
    server.accepts_no_more()
    script((first, write(1, "a"), OK), (first, "commit", ("atomic", 1)))
    server.ends(1, "tabd: device\ntabd: Too many open files (os error 24)\n")
