"""`tabd serve --metrics`: the counters of its page, compared with its clients' requests and replies."""

import contextlib
import http.client
import random
import socket
import subprocess
import time
from typing import Any, Callable, Dict, Iterator, List

import pytest

from tests.lib.checks import ATOMIC, CREATE, HERE_OK, LIMIT, OK, UNWATCH, begun, change, fill_outbox, gets, one_shot, opened, overflow, read_waits
from tests.lib.checks import same, script, side_by_side, soon, watch, write
from tests.lib.servers import COUNTED, Client, Metered, Server

# A client of the page has so many seconds for its request; another is answered in less meanwhile.
PATIENCE, MEANWHILE = 2, 1.5
TAKEN = "tabd: device\ntabd: Address already in use (os error 98)\n"


@pytest.fixture
def server(tabd: str, request: pytest.FixtureRequest, passed: Callable[[], bool]) -> Iterator[Any]:
    """A server with the options of the mark `words`, for four clients. After a case that passes it has printed nothing."""
    mark = request.node.get_closest_marker("words")
    with Metered(tabd, 4, *(mark.args if mark else ())) as server:
        yield server
        if passed():
            server.is_stopped()


def test_each_is_counted(server: Metered) -> None:
    """One request after another, and the counters after each."""
    first, second, mirror = server.clients(3)
    script((first, CREATE, ATOMIC), (mirror, watch(), HERE_OK))
    server.has(sessions=3, sessions_started_total=3, tables=1, records=0, commits_total=0, journal_entries=2, items_sent_total=1)
    # A commit with a child, one that does nothing, and a one-shot.
    script((first, "begin", ("tid", 1)), (first, "begin", ("tid", 1)), (first, write(1, "a"), OK), (first, "commit", ATOMIC))
    server.has(open_transactions=1, commits_total=0, records=0)
    script((first, "commit", ("atomic", 1)), (first, "begin", ("tid", 2)), (first, "commit", ("atomic", 2)))
    change(second, write(2, "b"))
    server.has(open_transactions=0, commits_total=3, aborts_total=0, records=2, items_sent_total=3)
    # A child's abort is no transaction's; then three ends: an abort, an operation that fails, and a one-shot's.
    script((first, "begin", ("tid", 4)), (first, "begin", ("tid", 4)), (first, ("abort", "no"), ("aborted", "no")))
    server.has(open_transactions=1, aborts_total=0)
    script((first, ("abort", "no"), ("aborted", "no")), (first, "begin", ("tid", 5)))
    script((first, ("read", "u", 1), ("aborted", ("no_exists", "u"))), (first, "commit", ("error", "no_transaction")))
    script((second, one_shot(("read", "u", 1)), ("aborted", ("no_exists", "u"))))
    server.has(open_transactions=0, commits_total=3, aborts_total=3)


def test_waits_and_restarts(server: Metered) -> None:
    older, younger = server.clients(2)
    server.has(waiting_operations=0, lock_wait_seconds_total=0)
    began = time.monotonic()
    read_waits(older, younger)
    server.has(waits_total=1, waiting_operations=1, restarts_total=0, open_transactions=2, commits_total=0)
    time.sleep(0.2)
    script((younger, "commit", ("atomic", 1)))
    gets(older, [("t", 1, "b")])
    server.has(waiting_operations=0)
    assert 0.2 <= server.page()["lock_wait_seconds_total"] <= time.monotonic() - began
    script((younger, one_shot(write(1, "c")), ("aborted", "nomore")))
    server.has(waits_total=1, restarts_total=1, given_up_total=1, open_transactions=1, commits_total=1, aborts_total=1)
    script((younger, "begin", ("tid", 4)), (younger, "begin", ("tid", 4)), (younger, write(1, "c"), "restart"), (younger, "commit", ("atomic", 2)))
    server.has(restarts_total=2, open_transactions=1, commits_total=2)
    time.sleep(1.2)
    assert 1 <= server.page()["oldest_transaction_seconds"] <= 10
    older.break_off()
    server.has(sessions=1, open_transactions=0, oldest_transaction_seconds=0, aborts_total=2)


def test_bytes(server: Metered) -> None:
    """As the clients have them: of requests, and of replies and items, short and long."""
    first, mirror = server.clients(2)
    script((first, CREATE, ATOMIC), (mirror, watch(), HERE_OK))
    for keys in [0], [1], [2], [3], [4, 5]:
        change(first, *(write(key, b"v" * 50_000) for key in keys))
    script((mirror, UNWATCH, HERE_OK), (mirror, watch("dump"), HERE_OK))
    script((first, "begin", ("tid", 6)), (first, ("all_keys", "t"), [0, 1, 2, 3, 4, 5]))
    assert len(first.ask(("match_object", ("t", "_", "_")))) == 6, "the records"
    # Two markers, six events of five commits, and a marker with the records.
    told = [mirror.event() for _ in range(9)]
    assert len(told[-1][3]) == 6, "the dump"
    server.has(read_bytes_total=first.sent + mirror.sent, written_bytes_total=first.received + mirror.received, items_sent_total=8)


@pytest.mark.words("--outbox", "16")
def test_overflows(server: Metered) -> None:
    reader, writer = server.connect(small=True), server.connect()
    script((writer, CREATE, ATOMIC), (reader, watch(), HERE_OK))
    fill_outbox(writer, 200)
    overflow(reader)
    server.has(overflows_total=1, commits_total=200)


def test_many_clients(server: Metered) -> None:
    """Four concurrent clients, at three records: each counter is the sum over their replies."""
    clients = server.clients(4)
    script((clients[0], CREATE, ATOMIC))
    sums = [dict(commits_total=0, aborts_total=0, given_up_total=0) for _ in clients]

    def run(client: Client, told: Any, seed: int) -> None:
        chance = random.Random(seed)
        for _ in range(150):
            if chance.random() < 0.4:
                parts = [write(chance.randrange(3), 1) for _ in range(chance.randrange(1, 4))]
                reply = client.ask(one_shot(*parts, retries=chance.randrange(3)))
                told["given_up_total"] += reply == ("aborted", "nomore")
            else:
                opened(client)
                while client.ask(("wread", ("t", chance.randrange(3)))) == "restart":
                    pass
                client.ask(write(chance.randrange(3), 2))
                reply = client.ask("commit" if chance.random() < 0.7 else ("abort", "no"))
            told["commits_total" if reply[0] == "atomic" else "aborts_total"] += 1

    side_by_side([(run, (client, told, seed)) for seed, (client, told) in enumerate(zip(clients, sums))])
    server.has(open_transactions=0, **{name: sum(told[name] for told in sums) for name in sums[0]})
    server.has(read_bytes_total=sum(client.sent for client in clients), written_bytes_total=sum(client.received for client in clients))


def test_other_requests(server: Metered) -> None:
    """What is asked of another path, by another method, in pieces, too long, wrongly or not at all."""
    assert server.ask(path="/")[0] == 404, "another path"
    assert server.ask(method="POST")[0] == 405, "another method"
    for given, wanted in [(b"no request\r\n\r\n", b"400"), (b"GET /metrics HTTP/1.1\r\nx: " + b"y" * 9000 + b"\r\n\r\n", b"431")]:
        with socket.create_connection(("127.0.0.1", server.pages)) as client:
            client.sendall(given)
            assert client.recv(12) == b"HTTP/1.1 " + wanted, given[:20]
    with socket.create_connection(("127.0.0.1", server.pages)) as client:
        for byte in b"GET /metrics HTTP/1.0\r\n\r\n":
            client.sendall(bytes([byte]))
            time.sleep(0.002)
        assert client.recv(15) == b"HTTP/1.1 200 OK", "in pieces"
    assert server.connect().ask("begin") == ("tid", 1), "another client"


def test_head_and_query(server: Metered) -> None:
    """A query changes nothing, and HEAD gets the head without the page."""
    assert server.ask(path="/metrics?name=a&b")[::2] == server.ask()[::2], "a query"
    assert server.ask(path="/metricsx")[0] == 404, "a longer path"
    connection = http.client.HTTPConnection("127.0.0.1", server.pages, timeout=10)
    connection.request("HEAD", "/metrics")
    reply = connection.getresponse()
    assert (reply.status, reply.getheader("Content-Length"), reply.read()) == (200, str(len(server.ask()[2])), b""), "HEAD"


def sessions(server: Metered) -> List[Dict[str, str]]:
    """The page of sessions: the columns of each line."""
    status, kind, text = server.ask(path="/sessions")
    same("the page", (status, kind), (200, "text/plain; charset=utf-8"))
    heading, *lines = text.splitlines()
    names = heading.split()
    for line in lines:
        same(line, len(line.split()), len(names))
    return [dict(zip(names, line.split())) for line in lines]


def shows(server: Metered, session: int, **wanted: str) -> None:
    """These columns of a session, at last."""
    __tracebackhide__ = True

    def find() -> Dict[str, str]:
        found = [each for each in sessions(server) if each["session"] == str(session)]
        return {name: found[0][name] for name in wanted} if found else {}

    same(f"session {session}", soon(find, lambda found: found == wanted, COUNTED), wanted)


NOTHING = {"waits_for": "-", "blocked_by": "-", "locks": "-"}


def test_the_sessions_of_a_contest(server: Metered) -> None:
    """Each has a line: which waits for which lock of which other, which backs off, and what each has."""
    older, younger, third = server.connect(), server.connect(), server.connect()
    same("none", [each["state"] for each in sessions(server)], ["idle"] * 3)
    read_waits(older, younger)
    shows(server, 1, state="waits", levels="1", waits_for="t", blocked_by="2", locks="-", peer=older.address())
    shows(server, 2, **{**NOTHING, "locks": "t=1"}, state="open", levels="1", peer=younger.address())
    shows(server, 3, **NOTHING, state="idle", levels="0", seconds="0", peer=third.address())
    # A table lock of the younger's that the third is restarted for, and names that are not written as they are.
    script((third, ("create_table", "my table, 50%=x", []), ATOMIC), (third, "begin", ("tid", 3)))
    script((third, ("write", ("my table, 50%=x", 1, "a")), OK), (third, "begin", ("tid", 3)), (third, ("read", "t", 1), "restart"))
    shows(server, 3, state="backs-off", levels="1", waits_for="t", blocked_by="2", locks="-")
    script((third, "commit", ("atomic", 1)), (third, "begin", ("tid", 4)), (third, "begin", ("tid", 4)))
    script((third, ("write", ("my table, 50%=x", 1, "a")), OK))
    shows(server, 3, **{**NOTHING, "locks": "my%20table%2C%2050%25%3Dx=1"}, state="open", levels="2")
    time.sleep(1.2)
    assert all(1 <= int(each["seconds"]) <= 10 for each in sessions(server)[:2]), "the time"
    script((younger, "commit", ("atomic", 2)))
    assert older.receive() == ("reply", [("t", 1, "b")]), "its reply"
    shows(server, 1, **{**NOTHING, "locks": "t=1"}, state="open")
    shows(server, 2, **NOTHING, state="idle", seconds="0")
    # Each that has a lock in the way is named, and each that asked for one before.
    script((younger, ("create_table", "v", []), ATOMIC), (younger, "begin", ("tid", 5)), (younger, ("read", "v", 1), []))
    script((third, ("read", "v", 1), []))
    older.send(("write", ("v", 1, "a")))
    shows(server, 1, state="waits", waits_for="v", blocked_by="2,3")
    younger.break_off()
    shows(server, 1, state="waits", waits_for="v", blocked_by="3")
    assert [each["session"] for each in sessions(server)] == ["1", "3"], "one has left"


def test_what_a_session_was_sent(server: Metered) -> None:
    """The bytes that each client received, and the items that wait for one that does not read."""
    writer, reader = server.connect(), server.connect(small=True)
    script((writer, CREATE, ATOMIC), (reader, watch(), HERE_OK))
    for number in range(1, 41):
        script((writer, ("transaction", [write(1, b"v" * 100_000)], 0), ("atomic", [OK])))
    assert 1 <= int(sessions(server)[1]["outbox"]) <= 40, "items that wait"
    reader.widen()
    for _ in range(41):
        reader.event()
    shows(server, 1, sent_bytes=str(writer.received), outbox="0")
    shows(server, 2, sent_bytes=str(reader.received), outbox="0")
    assert server.ask(path="/sessions?x")[0] == 200 and server.ask(path="/sessionsx")[0] == 404, "other paths"
    assert server.ask(method="POST", path="/sessions")[0] == 405, "another method"
    assert server.ask(method="HEAD", path="/sessions")[2] == "", "a head"
    # A session that is new has not been sent what its predecessors were.
    for number in range(3, 140):
        client = server.connect()
        script((client, "begin", ("tid", number + 38)), (client, "commit", ("atomic", number + 38)))
        shows(server, number, sent_bytes=str(client.received))
        client.close()
        gone = soon(lambda: len(sessions(server)), lambda count: count < 10, COUNTED)
        assert gone < 10, "sessions whose client is gone"


def test_slow_clients(server: Metered) -> None:
    """A client has two seconds for its whole request, and others are answered meanwhile."""
    slow = [socket.create_connection(("127.0.0.1", server.pages)) for _ in range(8)]
    begun = time.monotonic()
    while (now := time.monotonic()) < begun + 1.5 * PATIENCE:
        for client in slow[:4]:
            with contextlib.suppress(OSError):
                client.sendall(b"G")
        server.page()
        assert time.monotonic() - now < MEANWHILE, "a client beside"
        time.sleep(0.3)
    for client in slow:
        client.settimeout(MEANWHILE)
        with contextlib.suppress(ConnectionError):
            assert client.recv(1) == b"", "its time is over"


def test_each_table(server: Metered) -> None:
    """The tables' names, as the text format escapes them, and how many records each has."""
    client = server.connect()
    for name in ("t", 'a "b"', "back\\slash", "line\nfeed", "\u00fc{}"):
        script((client, ("create_table", name, []), ATOMIC))
    change(client, *(write(key, "a") for key in range(3)))
    names = {'a \\"b\\"': 0, "back\\\\slash": 0, "line\\nfeed": 0, "t": 3, "\u00fc{}": 0}
    assert server.samples()["table_records"] == {f'table="{name}"': count for name, count in names.items()}
    server.has(tables=5, records=3)
    script((client, ("delete_table", "t"), ATOMIC))
    assert 'table="t"' not in server.samples()["table_records"], "a table that is deleted"


def test_watchers_of_each_table(server: Metered) -> None:
    """How many sessions watch each table: those that subscribed and did not unsubscribe, and whose table was not deleted."""
    clients = server.clients(3)
    script(*((clients[0], ("create_table", name, []), ATOMIC) for name in ("t", "u")))

    def watchers() -> Any:
        return server.samples()["table_watchers"]

    assert watchers() == {'table="t"': 0, 'table="u"': 0}
    script(*((client, watch(), HERE_OK) for client in clients), (clients[1], ("subscribe", ("table", "u", "detailed")), HERE_OK))
    assert watchers() == {'table="t"': 3, 'table="u"': 1}
    script((clients[2], UNWATCH, HERE_OK))
    assert watchers() == {'table="t"': 2, 'table="u"': 1}
    script((clients[0], ("delete_table", "u"), ATOMIC))
    assert watchers() == {'table="t"': 2}


def test_refused_connections(server: Metered) -> None:
    """How many may be served at once, how many were refused, and the version."""
    served = server.clients(4)
    begun(*served)
    for _ in range(3):
        assert server.connect().receive() == LIMIT, "a fifth"
    server.has(connections_limit=4, connections_refused_total=3, sessions=len(served), sessions_idle_ended_total=0)
    assert server.samples()["build_info"] == {'version="0.1.0"': 1}
    assert 0 <= time.time() - server.page()["start_time_seconds"] <= 60, "its start"


def test_idle_sessions(tabd: str) -> None:
    """Those that are ended since they were idle."""
    with Metered(tabd, 2, "--idle", "1") as server:
        idle, other = server.clients(2)
        script((idle, "begin", ("tid", 1)))
        assert idle.stream.read() == b"", "it is ended"
        other.close()
        server.has(sessions_idle_ended_total=1, sessions=0, sessions_started_total=2)


def test_limited_sessions(tabd: str) -> None:
    """Those whose transaction was open for too long."""
    with Metered(tabd, 2, "--transaction-limit", "1") as server:
        late, other = server.clients(2)
        script((late, "begin", ("tid", 1)), (other, "begin", ("tid", 2)), (other, "commit", ("atomic", 1)))
        assert late.stream.read() == b"", "it is ended"
        server.has(sessions_limit_ended_total=1, sessions_idle_ended_total=0, sessions=1)


def test_ends_by_itself(tabd: str, serve: Callable[..., Server]) -> None:
    """Without `--forever` the page ends with the last connection; one whose port is taken doesn't start."""
    server = serve("--connections", "1", "--metrics", "0")
    pages = server.line().rsplit(":", 1)[1].strip()
    words = [tabd, "serve", "--port", "0", "--connections", "1", "--metrics", pages]
    taken = subprocess.run(words, capture_output=True, text=True, timeout=10, check=False)
    assert (taken.returncode, taken.stdout, taken.stderr) == (1, "", TAKEN), "a port that is taken"
    script((server.connect(), "begin", ("tid", 1)))
    server.ends()
