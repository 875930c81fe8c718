"""A server with one allocation or thread refused, each in turn, while one connection is served, and another asks.

Each case is run once for each allocation and each thread that the server makes for one request, one connection or one event: with the
nth refused. The session gets `no_memory` and goes on, or, if memory was refused for a connection, a thread, a reply's frame or an
event, it is closed with no frame. It leaves no lock, level or request: another connection
writes the same key and changes the table's indexes. A request that got `no_memory` gets its reply when it is sent again. The
allocations of many commits show which is the first that folds the journal of a server whose options don't set it.
"""

import contextlib
import itertools
import re
import select
import sys
from dataclasses import dataclass
from functools import partial
from typing import Any, Callable, List, Sequence, Union

import pytest

from tests.lib.checks import ATOMIC, HERE_OK, MARK, OK, event, same, script, soon, watch, write
from tests.lib.notation import Cases, Step
from tests.lib.refusing import NO_MEMORY, RefusedServer, tried
from tests.lib.wire import Connection, Term

OF_FILE = Cases("refused.txt", 6)
# The frame that is read takes the first allocations: the bytes, the payload, and the list of the frames.
OF_A_FRAME = 3
# No request takes so many: it is counted, and nothing refused.
COUNTED, COUNTS = 1_000_000, 3
# The entries of a journal by default.
JOURNAL = 1024
# A session waits for a lock if it got nothing for so many seconds.
QUIET = 0.05
CREATES: List[Any] = [("create_table", name, []) for name in ("t", "u", "w")]


def becomes(connection: Connection, request: Any, wanted: Any) -> None:
    """The reply, in the end: a session needs a moment to leave."""
    same(f"{request}", soon(partial(connection.ask, request), lambda reply: reply == wanted), wanted)


def is_free(connection: Connection, *tables: str) -> None:
    """No transaction has or awaits a lock in the tables."""
    for table in tables:
        becomes(connection, ("add_table_index", table, "val"), ATOMIC)
        becomes(connection, ("del_table_index", table, "val"), ATOMIC)


def probe(connection: Connection) -> None:
    """It writes the key, and changes both tables."""
    same("begin", connection.ask("begin")[0], "tid")
    for table in ("u", "t"):
        becomes(connection, ("write", (table, 1, "probe")), OK)
        becomes(connection, ("write_lock_table", table), OK)
    script((connection, ("abort", "probe"), ("aborted", "probe")))
    is_free(connection, "t", "u")


@dataclass
class Case:
    """What connections 1 and 2 are asked before, a request of connection 1 and its reply; what else is so (refused.txt), and the options."""

    name: str
    before: Sequence[Step]
    request: Term
    reply: Term
    how: Sequence[str]
    words: Sequence[str] = ()

    def told(self, first: Connection, second: Connection) -> Term:
        """The reply. The second commits if the first waits for it; this may be refused too."""
        first.send(self.request)
        if "waits" in self.how and not select.select([first.socket], [], [], QUIET)[0]:
            with contextlib.suppress(ConnectionError):
                second.ask("commit")
            second.close()
        try:
            return first.reply()
        except ConnectionError:
            return "closed"

    def again(self, first: Connection, second: Connection, other: Connection) -> None:
        """After `no_memory` nothing is left of it. Sent again it gets its reply."""
        if "waits" in self.how:
            # It waits again if the second's transaction is still open, and ends.
            first.send(self.request)
            second.close()
            same("again", first.reply(), self.reply)
        elif "inside" in self.how:
            is_free(other, "u")
            script((first, self.request, self.reply))
        else:
            script((first, "commit", ("error", "no_transaction")))
            is_free(other, "t", "u")
            # No reply has the age that it used up.
            same("again", first.ask(self.request)[0], self.reply[0])

    def run(self, serve: Callable[..., RefusedServer], nth: int) -> str:
        with serve("--connections", "3", *self.words) as server:
            first, second, other = connections = [server.connect() for _ in range(3)]
            # Each has been answered: no thread of theirs is still to be made.
            script(*((other, create, ATOMIC) for create in CREATES), *((one, "commit", ("error", "no_transaction")) for one in (first, second)))
            script(*((connections[who - 1], request, reply) for who, request, reply in self.before))
            if (1, watch(), HERE_OK) in self.before:
                same("begin marker", first.event(), MARK)
            server.refuse(nth)
            told = self.told(first, second)
            self.count = server.made()
            end = "none" if self.count < nth else self.judged(told, nth)
            if end == "none":
                same("nothing refused, and the reply", told, self.reply)
            if end == "replied no_memory":
                self.again(first, second, other)
            first.close()
            second.close()
            probe(other)
            server.ends()
            return end

    def judged(self, told: Term, nth: int) -> str:
        if told == NO_MEMORY:
            return "replied no_memory"
        if told == self.reply:
            return "got its reply"
        if told == "closed" and "marks" in self.how and nth > OF_A_FRAME:
            return "were closed for an event"
        if told == "closed" and nth >= self.all:
            return "were closed for a reply's frame"
        raise AssertionError(f"replied {told}, wanted {self.reply}")

    def counted(self, serve: Callable[..., RefusedServer]) -> None:
        """How many allocations it takes if none is refused. A thread of a connection that begins late takes some more."""
        self.all = sys.maxsize
        for _ in range(COUNTS):
            self.run(serve, COUNTED)
            self.all = min(self.all, self.count)


@dataclass
class Watched:
    """The second changes a table that the first watches, after earlier commits: the first gets each event once, or is closed."""

    name: str
    before: Sequence[Step] = ()
    words: Sequence[str] = ()
    value: bytes = b"v" * 3000
    count = 6

    def run(self, serve: Callable[..., RefusedServer], nth: int) -> str:
        self.number = len(self.before) + 1
        with serve("--connections", "2", *self.words) as server:
            first, second = server.connect(), server.connect()
            script(*((second, create, ATOMIC) for create in CREATES), (first, watch(), HERE_OK))
            same("begin marker", first.event(), MARK)
            script(*((second, request, reply) for _, request, reply in self.before), (second, "begin", ("tid", self.number)))
            script(*((second, write(key, self.value), OK) for key in range(self.count)))
            server.refuse(nth)
            told = second.ask("commit")
            end = self.told(first, told)
            made = server.made()
            assert made >= nth or end == "got its reply", f"nothing refused, and replied {told}"
            if told == NO_MEMORY:
                script((second, "commit", ("atomic", self.number)))
                same("again", self.told(first, ("atomic", self.number)), "got its reply")
            if end != "were closed for an event":
                self.next_event(first, second)
            first.close()
            probe(second)
            server.ends()
            return end if made >= nth else "none"

    def told(self, first: Connection, told: Term) -> str:
        """How the first received the committed events: if it is closed, a beginning of them."""
        if told == NO_MEMORY:
            return "replied no_memory"
        same("a commit", told, ("atomic", self.number))
        try:
            for key in range(self.count):
                same("event", first.receive(), event(key, self.value, self.number))
        except ConnectionError:
            return "were closed for an event"
        return "got its reply"

    def next_event(self, first: Connection, second: Connection) -> None:
        """The next frame of the first is the event of the next commit."""
        script((second, ("transaction", [write("next", 0)], 0), ("atomic", [OK])))
        same("the next event", first.receive(), event("next", 0, self.number + 1))


@dataclass
class Joins:
    """There is no memory or no thread for a connection: it is closed with no frame, and counts among those that are served; with
    `--forever` another can be served again."""

    name: str
    words: Sequence[str] = ()

    def run(self, serve: Callable[..., RefusedServer], nth: int) -> str:
        with serve("--connections", "2", *self.words) as server:
            second = server.connect()
            script(*((second, create, ATOMIC) for create in CREATES))
            server.refuse(nth)
            first = server.connect()
            end = self.joined(first)
            made = server.made()
            assert made >= nth or end == "got its reply", "nothing refused"
            probe(second)
            first.close()
            if self.words:
                server.seated()[0].close()
            if not self.words:
                status, errors = server.ended()
                assert status == 0 and re.fullmatch(r"(tabd: no (memory|thread) for a session\n)?", errors), errors
            return end if made >= nth else "none"

    def joined(self, first: Connection) -> str:
        try:
            if (told := first.ask("begin")) == NO_MEMORY:
                told = first.ask("begin")
        except ConnectionError:
            return "were closed for a connection"
        same("begin", told, ("tid", 1))
        return "got its reply"


# Of so many terms, none of which is long, that its frame grows again and again.
LONG = ("u", 6, list(range(1_000, 31_000)))
IN_LONG = [(2, ("transaction", [("write", LONG)], 0), ("atomic", [OK])), *OF_FILE.steps["in t after a commit"]]
CASES: List[Union[Case, Watched, Joins]] = [
    *(Case(name, OF_FILE.joined(before), request, reply, how, words) for name, how, words, before, request, reply in OF_FILE.rows),
    Case("a first write", OF_FILE.steps["begun"], ("write", ("u", b"k" * 40, [1, ("x", 2**100)])), OK, ["inside"]),
    Case("a long read", IN_LONG, ("read", "u", 6), [LONG], ["inside"]),
    Watched("a commit that is watched"),
    # The events are longer together than what is kept before it is sent.
    Watched("a long commit that is watched", value=b"v" * 15_000),
    Watched("a commit that is watched and folds", OF_FILE.steps["a full journal"], ["--journal", "16"]),
    Joins("a connection"),
    Joins("a connection of a server without an end", ["--forever"]),
]


@pytest.fixture(scope="session")
def refused(tabd: str, library: Callable[[str], str]) -> Any:
    """Starts a server with some options whose allocations can be refused."""
    serve = partial(RefusedServer, tabd, library("refusing_server"))
    with serve("--connections", "1") as server:
        server.refuse(COUNTED)
        server.connect().ask("begin")
        if not server.made():
            pytest.skip("the program has an allocator of its own, and no allocation can be refused it")
    return serve


@pytest.mark.parametrize("case", CASES, ids=[case.name for case in CASES])
def test_refused(refused: Any, case: Any) -> None:
    """Refuses each allocation in turn."""
    if isinstance(case, Case):
        case.counted(refused)
    ends, faults = tried(itertools.count(1), partial(case.run, refused))
    assert not faults
    assert ends.keys() > {"none"}, "nothing was refused"


def test_the_default_journal(refused: Any) -> None:
    """A commit that folds takes more allocations. The table's entry is before the commits, so as many fold nothing as the
    journal has entries, but one."""
    made = []
    with refused("--connections", "1") as server:
        connection = server.connect()
        script((connection, CREATES[0], ATOMIC))
        for number in range(1, JOURNAL + 10):
            server.refuse(COUNTED)
            script((connection, ("transaction", [write(1, number)], 0), ("atomic", [OK])))
            made.append(server.made())
    assert max(n for n, count in enumerate(made, 1) if count == min(made)) == JOURNAL - 1, "the last commit that folds nothing"


@pytest.mark.parametrize("words", [(), ("--metrics", "0")], ids=["", "--metrics"])
def test_a_start(refused: Any, words: List[str]) -> None:
    """A start that is refused any allocation or thread says where it listens and serves, or fails and does not say it."""
    failed = 0
    for nth in itertools.count(1):
        try:
            with refused("--connections", "2", "--forever", *words, nth=nth) as server:
                server.seated()[0].close()
                if server.made() < nth:
                    break
        except OSError as error:
            same(f"allocation {nth}", str(error), "the server does not start: tabd: no memory\n")
            failed += 1
    assert failed, "nothing was refused"
