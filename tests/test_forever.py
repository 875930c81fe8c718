"""`tabd serve --forever`, which serves as many concurrent connections as its option says and never ends.

Each case has servers of its own: one at a port, and one at a socket file.
"""

import contextlib
import random
import os
import re
import signal
import subprocess
import time
from typing import Any, Callable, Iterator, List

import pytest

from tests.lib.checks import ATOMIC, CREATE, HERE_OK, LIMIT, OK, at_last, begun, change, event, fill_outbox, follow, gets, one_shot
from tests.lib.checks import opened, overflow, read_waits, script, waits, watch, write
from tests.lib.playing import scripted
from tests.lib.servers import Server, descriptors, forever
from tests.lib.wire import Connection, frame

seats = pytest.mark.seats
# The address of a session's client in a line.
AT = r"(?: \(127\.0\.0\.1:\d+\))?"
HAS_ENDED = "tabd: standard input has ended\n"
pytestmark = [pytest.mark.serial, pytest.mark.parametrize("place", ["at a port", "at a file"])]


def at(connection: Connection) -> str:
    """The address of a session's client, as a line has it."""
    return f" ({connection.address()})" if connection.address() else ""


@pytest.fixture
def server(request: pytest.FixtureRequest, tabd: str, passed: Callable[[], bool], tmp_path: Any, place: str) -> Iterator[Server]:
    """That of the mark `seats`. After a case that passes it still runs, and has printed what `said` matches."""
    mark = request.node.get_closest_marker("seats")
    files = mark.kwargs.get("files")
    path = str(tmp_path / "socket") if place == "at a file" else None
    with forever(tabd, *mark.args, path=path, preexec_fn=descriptors(files) if files else None) as server:
        yield server
        if passed():
            assert re.fullmatch(mark.kwargs.get("said", ""), server.stopped()), "what it printed"


@pytest.fixture
def clients(server: Server, request: pytest.FixtureRequest) -> List[Connection]:
    """As many as it serves."""
    return server.clients(request.node.get_closest_marker("seats").args[0])


@seats(8)
def test_the_ninth_is_refused(server: Server) -> None:
    """A connection too many is refused and closed, and the others go on; after one has left another is served."""
    connections = server.clients(8)
    begun(*connections)
    ninth = server.connect()
    assert (ninth.receive(), ninth.stream.read()) == (LIMIT, b""), "the ninth"
    script(*((connection, "commit", ("atomic", number)) for number, connection in enumerate(connections, 1)))
    connections[3].close()
    tenth, found = server.seated()
    assert found == ("tid", 9), "the tenth"
    assert connections[0].ask("begin") == ("tid", 10), "the others"


@seats(2)
def test_a_pause(server: Server) -> None:
    """The server waits for the only client, which has sent many requests, without using a processor, and keeps its transaction."""
    connection = server.connect()
    begun(connection)
    script(*((connection, write(1, number), OK) for number in range(100)))
    before = server.used()
    time.sleep(1)
    used = server.used() - before
    assert used <= 0.1, f"{used:.2f} seconds of a processor in one in which no one asked"
    script((connection, ("read", "t", 1), [("t", 1, 99)]), (connection, "commit", ("atomic", 1)))


@seats(2)
def test_tables_outlive_connections(server: Server) -> None:
    """All have left, one during a transaction, and the next client finds what was committed."""
    first, second = server.clients(2)
    script((first, CREATE, ATOMIC))
    change(first, write(1, "a"))
    script((second, "begin", ("tid", 2)), (second, write(1, "b"), OK))
    first.close()
    second.break_off()
    third, found = server.seated()
    assert found[0] == "tid", "the third"
    assert at_last(third, ("wread", ("t", 1))) == [("t", 1, "a")], "it left"


@seats(8)
def test_a_thousand_connections(server: Server, sanitizer: Any) -> None:
    """A thousand connections, one after the other, leave no thread, no descriptor and no memory."""
    held = server.clients(7)
    opened(*held)
    script((held[0], "commit", ("atomic", 1)), (held[0], CREATE, ATOMIC))
    before = server.settled(server.held()[:2])
    for number in range(1000):
        connection, _ = server.seated()
        script((connection, write(number % 5, number), OK), (connection, "commit", ("atomic", number + 2)))
        connection.close()
        if number == 100:
            before = (*before[:2], server.settled(before[:2])[2])
    after = server.settled(before[:2])
    assert after[:2] == before[:2], "threads and descriptors"
    assert sanitizer or after[2] - before[2] <= 1000, f"{after[2] - before[2]} kilobytes more"


# A descriptor that is free again may be too few for the next, so there may be a line for each connection that ends.
@seats(64, files=20, said="(tabd: no connection was accepted\n){1,12}")
def test_out_of_descriptors(server: Server) -> None:
    """If no connection can be accepted it prints a line, once and not at each attempt, and goes on as soon as one can."""
    connections = server.clients(12)
    time.sleep(2)
    for connection in connections:
        connection.break_off()
    _, found = server.seated()
    assert found[0] == "tid", "the last"


@seats(8, "--transaction-limit", "60", files=16, said=r"(tabd: no connection was accepted\n)*")
def test_few_descriptors(server: Server) -> None:
    """A connection for which a descriptor is missing has no session, and no request of it is done."""
    connections = server.clients(8)
    for number, connection in enumerate(connections):
        connection.send(("create_table", f"t{number}", []))
    first, last = connections[0], connections[-1]
    assert first.reply() == ATOMIC, "the first"
    last.socket.settimeout(0.5)
    with contextlib.suppress(TimeoutError):
        assert last.stream.read(1) == b"", "the last"
    script((first, ("create_table", "t7", []), ATOMIC))


@seats(3, "--idle", "1", said=rf"tabd: session 2{AT} was idle\n")
@pytest.mark.tries(3)
def test_idle(server: Server) -> None:
    """An idle transaction ends, with its connection, and its locks are released. A session that waits for its lock, and a session without
    a transaction, is not idle, though nothing comes from either."""
    older, younger, mirror = server.clients(3)
    begun(older, younger)
    follow(mirror)
    script((younger, write(1, "b"), OK))
    older.send(("read", "t", 1))
    assert younger.stream.read() == b"", "its end"
    assert older.receive() == ("reply", []), "the one that waits"
    script((older, write(1, "a"), OK), (older, "commit", ("atomic", 1)))
    assert mirror.event() == event(1, "a", 1), "event"
    # Half of a request, and no transaction.
    mirror.socket.sendall(frame("begin")[:5])
    time.sleep(2.5)
    mirror.socket.sendall(frame("begin")[5:])
    assert mirror.receive() == ("reply", ("tid", 3)), "the one without a transaction"
    script((mirror, "commit", ("atomic", 2)), (older, "begin", ("tid", 4)), (older, "commit", ("atomic", 3)))


@seats(3, "--idle", "60")
def test_a_server_that_is_stopped(server: Server) -> None:
    """A server that is stopped and goes on keeps its sessions and their transactions, with a time limit on their reads too: of a session from
    which a request is expected, and of one that waits for a lock."""
    older, younger, quiet = server.clients(3)
    read_waits(older, younger)
    for sent in (signal.SIGSTOP, signal.SIGCONT):
        server.process.send_signal(sent)
        time.sleep(0.2)
    script((younger, write(1, "c"), OK), (younger, "commit", ("atomic", 1)), (quiet, "begin", ("tid", 3)))
    assert older.receive() == ("reply", [("t", 1, "c")]), "the one that waited"


@seats(2, "--idle", "1")
@pytest.mark.tries(3)
def test_a_reader_that_takes_nothing(server: Server) -> None:
    """A client that reads nothing for so long is disconnected, so that another can be served."""
    reader, writer = server.connect(small=True), server.connect()
    script((reader, CREATE, ATOMIC), (reader, watch(), HERE_OK))
    fill_outbox(writer, 400)
    other, found = server.seated()
    assert found[0] == "tid", "another is served"
    # It prints the line once another can be served.
    assert re.fullmatch(rf"tabd: session 1{AT} was idle\n", server.log()), "what it said"


@seats(3, "--transaction-limit", "1", said=rf"tabd: session 1{AT} is ended: its transaction is open for 1 s\n")
@pytest.mark.tries(3)
def test_a_transaction_limit(server: Server) -> None:
    """A transaction that is open for too long ends with its session, whatever its client sends meanwhile; one that waits for its locks goes on."""
    younger, older, third = server.clients(3)
    script((younger, CREATE, ATOMIC), (younger, "begin", ("tid", 1)), (younger, write(1, "a"), OK), (older, one_shot(write(2, "b")), ("atomic", [OK])))
    begun_at = time.monotonic()
    with pytest.raises(OSError):
        while time.monotonic() - begun_at < 10:
            younger.ask(("read", "t", 2))
    assert 0.9 < time.monotonic() - begun_at < 3, "its time"
    script((third, one_shot(write(1, "c")), ("atomic", [OK])), (third, one_shot(("read", "t", 1)), ("atomic", [[("t", 1, "c")]])))


@seats(3, "--idle-sessions", "2", "--idle", "1", said=rf"tabd: session 1{AT} was idle\n")
@pytest.mark.tries(3)
def test_an_idle_session(server: Server) -> None:
    """A session that sends nothing for so long ends, and one that sends in time or has subscribed does not."""
    idle, busy, mirror = server.clients(3)
    script((busy, CREATE, ATOMIC))
    follow(mirror)
    began = time.monotonic()
    for number in range(1, 6):
        script((busy, one_shot(write(number, "a")), ("atomic", [OK])))
        assert mirror.event() == event(number, "a", number), "its event"
        time.sleep(0.8)
    assert idle.stream.read() == b"", "the idle one"
    assert time.monotonic() - began > 3, "the time of the others"
    script((busy, "begin", ("tid", 6)), (busy, "commit", ("atomic", 6)))


@seats(2, "--log", "--outbox", "16")
def test_a_log(server: Server) -> None:
    """Each start, end and overflow of a session, and each refusal of a connection, has a line."""
    reader = server.connect(small=True)
    assert server.log() == f"tabd: session 1{at(reader)} has started\n", "a start"
    writer = server.connect()
    assert server.log() == f"tabd: session 2{at(writer)} has started\n", "another"
    writers, readers = at(writer), at(reader)
    third = server.connect()
    assert (third.receive(), server.log()) == (LIMIT, "tabd: no seat for a connection\n"), "the third"
    script((writer, CREATE, ATOMIC), (reader, watch(), HERE_OK))
    fill_outbox(writer, 200)
    lost = overflow(reader)
    assert server.log() == f"tabd: session 1{readers} lost its events from commit {lost} on\n", "an overflow"
    writer.break_off()
    assert server.log() == f"tabd: session 2{writers} has ended\n", "an end"
    reader.close()
    assert server.log() == f"tabd: session 1{readers} has ended\n", "another"


@seats(2, "--slow", "1")
def test_slow_transactions(server: Server) -> None:
    """A transaction that has been open for a second has a line then, and one after its end, whether it is committed or its client goes; a shorter
    one has none."""
    first, second = server.clients(2)
    begun(first, second)
    script((second, "commit", ("atomic", 1)), (second, one_shot(write(1, "a")), ("atomic", [OK])), (second, "begin", ("tid", 4)))
    assert re.fullmatch(rf"tabd: session 1{AT} has a transaction open for 1 s; locks: -\n", server.log()), "the first"
    assert re.fullmatch(rf"tabd: session 2{AT} has a transaction open for 1 s; locks: -\n", server.log()), "the second"
    script((first, "commit", ("atomic", 3)))
    assert re.fullmatch(rf"tabd: session 1{AT} had a transaction open for \d+ s\n", server.log()), "a commit"
    second.close()
    assert re.fullmatch(rf"tabd: session 2{AT} had a transaction open for \d+ s\n", server.log()), "an end"


@seats(3, "--slow", "1", said=rf"(tabd: session \d{AT} had a transaction open for \d+ s\n)*")
def test_a_contest_in_the_log(server: Server) -> None:
    """Slow transactions that contend: lines name sessions, clients, the tables of their locks, and the table and session that are waited for."""
    older, younger, third = server.connect(), server.connect(), server.connect()
    read_waits(older, younger)
    script((third, ("create_table", "u", []), ATOMIC), (third, "begin", ("tid", 3)))
    script((third, ("write", ("u", 1, "a")), OK), (third, ("write", ("u", 2, "a")), OK), (third, ("read", "t", 2), []))
    opened = "has a transaction open for 1 s; locks: "
    assert server.log() == f"tabd: session 1{at(older)} {opened}-; waits for: t of 2\n", "the one that waits"
    assert server.log() == f"tabd: session 2{at(younger)} {opened}t=1\n", "the one that has the lock"
    assert server.log() == f"tabd: session 3{at(third)} {opened}u=2,t=1\n", "another"
    script((younger, "commit", ("atomic", 1)))
    assert re.fullmatch(rf"tabd: session 2{AT} had a transaction open for \d+ s\n", server.log()), "its end"
    assert older.receive() == ("reply", [("t", 1, "b")]), "its reply"


@pytest.fixture
def drained(tabd: str, request: pytest.FixtureRequest, tmp_path: Any, place: str) -> Iterator[Server]:
    """A server with `--drain` and the options of the mark `words`, whose standard input is a pipe."""
    mark = request.node.get_closest_marker("words")
    path = str(tmp_path / "socket") if place == "at a file" else None
    with forever(tabd, 4, "--drain", *(mark.args if mark else ()), path=path, stdin=subprocess.PIPE) as server:
        yield server
    assert path is None or server.process.returncode != 0 or not os.path.exists(path), "its file"


def end_input(server: Server) -> float:
    """Ends its standard input, and says when."""
    server.process.stdin.close()  # type: ignore[union-attr]
    server.process.stdin = None
    return time.monotonic()


def test_the_end_of_input(drained: Server) -> None:
    """No more are accepted, one without a transaction is closed, a transaction goes on to its end, and a subscriber gets the events of its commit."""
    writer, reader, idle = drained.connect(), drained.connect(), drained.connect()
    script((writer, CREATE, ATOMIC), (reader, watch(), HERE_OK), (idle, "begin", ("tid", 1)), (idle, "commit", ("atomic", 1)))
    script((writer, ("transaction", [write(1, "a")], 0), ("atomic", [OK])), (writer, "begin", ("tid", 3)), (writer, write(2, "b"), OK))
    drained.process.stdin.write("this is read, and nothing more\n")  # type: ignore[union-attr]
    drained.process.stdin.flush()  # type: ignore[union-attr]
    script((idle, "begin", ("tid", 4)), (idle, "commit", ("atomic", 3)))
    end_input(drained)
    assert idle.stream.read() == b"", "one without a transaction"
    assert [reader.event()[0] for _ in range(2)] == ["mnesia_table_begin", "mnesia_table_event"], "its events"
    with pytest.raises(ConnectionRefusedError):
        drained.connect()
    script((writer, ("read", "t", 1), [("t", 1, "a")]), (writer, "commit", ("atomic", 4)))
    assert writer.stream.read() == b"", "the last that writes"
    assert (reader.event(), reader.stream.read()) == (event(2, "b", 3), b""), "the one that watches"
    drained.ends(said=HAS_ENDED)


@pytest.mark.words("--idle", "2")
def test_a_transaction_at_the_end_of_input(drained: Server) -> None:
    """Transactions go on for as long as a session may be idle, also one that waits for a lock and has sent more."""
    older, younger = drained.connect(), drained.connect()
    read_waits(older, younger)
    older.send(("read", "t", 3))
    waits(older)
    ended = end_input(drained)
    time.sleep(1)
    script((younger, ("read", "t", 4), []))
    assert younger.stream.read() == b"", "the younger's end"
    assert time.monotonic() - ended > 1.5, "its time"
    drained.ends(said=HAS_ENDED)
    assert time.monotonic() - ended < 8, "the end"


def test_an_input_that_has_ended(drained: Server) -> None:
    """A server without connections ends at once."""
    ended = end_input(drained)
    drained.ends(said=HAS_ENDED)
    assert time.monotonic() - ended < 2, "its end"


def test_an_end_without_forever(tabd: str, tmp_path: Any, place: str) -> None:
    """Without `--forever` too, before as many connections came as it accepts."""
    path = str(tmp_path / "socket") if place == "at a file" else None
    with Server(tabd, "--connections", "3", "--drain", path=path, stdin=subprocess.PIPE) as server:
        client = server.connect()
        script((client, "begin", ("tid", 1)), (client, "commit", ("atomic", 1)))
        end_input(server)
        assert client.stream.read() == b"", "its client"
        server.ends(said=HAS_ENDED)


test_broken_off_during_a_wait = seats(3)(scripted("broken off during a wait"))
test_half_closed_during_a_wait = seats(2)(scripted("half-closed during a wait"))
test_an_abort_ends_a_wait = seats(2, "--abort-waits")(scripted("an abort ends a wait"))
test_an_abort_in_the_same_piece = seats(2, "--abort-waits")(scripted("an abort in the same piece"))
test_others_are_answered_after_a_wait = seats(2, "--abort-waits")(scripted("others are answered after a wait"))
test_an_abort_is_answered_after_a_wait = seats(2)(scripted("an abort is answered after a wait"))
test_an_abort_ends_a_one_shot = seats(3, "--abort-waits")(scripted("an abort ends a one-shot"))


@seats(2, "--abort-waits")
def test_an_abort_at_a_commit(server: Server) -> None:
    """An abort comes about when the lock is free: the operation is answered, and the abort after it, or only the abort."""
    chance = random.Random(1)
    older, younger = server.clients(2)
    script((older, CREATE, ATOMIC))
    given_up = set()
    for turn in range(200):
        script((older, "begin", ("tid", 2 * turn + 1)), (younger, "begin", ("tid", 2 * turn + 2)), (younger, write(1, turn), OK))
        older.send(("read", "t", 1))
        # After the first sleep, in which an abort is not noticed.
        time.sleep(0.03)
        for connection, request in chance.sample([(younger, "commit"), (older, ("abort", turn))], 2):
            connection.send(request)
            time.sleep(chance.random() * 0.0005)
        found = older.reply()
        given_up.add(found == ("aborted", turn))
        if found != ("aborted", turn):
            assert (found, older.reply()) == ([("t", 1, turn)], ("aborted", turn)), "the replies"
        gets(younger, ("atomic", turn + 1))
    assert given_up == {True, False}, "only one of the two was seen"
