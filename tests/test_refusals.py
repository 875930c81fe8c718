"""The replay with one allocation refused, each in turn: a step with the reply `no_memory` is sent again.

Each stream of streams.py, but those that take a thousand operations and those that are damaged, is asked frame by frame, once
for each allocation that it makes: with the nth refused. A request with the reply `{error, no_memory}` is sent again at once, and then
all replies are the stream's. A run may instead end with status 1 and its line if memory was refused at the start or for the
frame itself, after the replies to all earlier frames. A one-shot uses up an age, so each of one_shots.txt has runs of its own, with a probe
after it: it left no level, no lock, no request and no change. On a connection each larger allocation is refused, so that there is no memory
for a long frame: the reply says so, and the session goes on. No contract ties a reply to refused memory, so only these tests show it.
With `--wrong` the program is each of a few wrong ones, which end by themselves if they are refused memory, and each has to be found in
each stream; and one that leaves something after a one-shot of a stream.
"""

import sys
import time
from functools import partial
from typing import Any, Callable, Dict, List

import pytest

from tests.lib.checks import ATOMIC, CREATE
from tests.lib.notation import Cases
from tests.lib.refusing import NO_MEMORY, RefusedReplay, is_no_memory, tried
from tests.lib.servers import Server
from tests.lib.streams import streams
from tests.lib.wire import frame, term_of

# Streams of which every frame is asked with a thousand before it, and those that are no whole frames.
LEFT_OUT = {"limit operations", "child count", "one shot operations", "sessions and tables", "damage cut", "damage too long"}
# A frame that is read takes so many allocations: the bytes, the list of the frames, and the payload, if it is not empty.
OF_A_FRAME, OF_AN_EMPTY = 3, 2
# Wrong programs: the first allocation since a piece at whose refusal one ends, and the status.
WRONG = [
    pytest.param({"ENDS": "1", "WRONG": "1"}, id="it ends at each refusal"),
    pytest.param({"ENDS": str(OF_A_FRAME + 1), "WRONG": "1"}, id="it ends if a step is refused memory"),
    pytest.param({"ENDS": str(OF_A_FRAME + 1), "WRONG": "0"}, id="it ends if a step is refused memory, and prints nothing"),
]
LINE = b"tabd: no memory\n"
# What a wrong program leaves after a one-shot that was refused memory: more requests of its session, with a table.
LEAVES = [
    pytest.param(lambda table: ["begin"], id="it leaves a level"),
    pytest.param(lambda table: [("transaction", [("write", (table, 1, "left"))], 0)], id="it leaves a change"),
    pytest.param(lambda table: ["begin", ("abort", 0)] * 2, id="it uses up more ages"),
]
# A one-shot with these replies has made no step.
NOT_BEGUN = [("error", "in_transaction"), ("error", "waiting"), ("error", "badsession")]


class OneShot:
    """A one-shot after the requests before it, as a stream; and the replies to a probe after it."""

    words = ["replay"]

    def __init__(self, name: str, before: Any, request: Any, reply: Any, after: Any) -> None:
        self.name, self.before, self.request, self.reply, self.after = name, before, request, reply, after
        steps = [*before, (1, request, reply)]
        self.given = [frame((session, asked)) for session, asked, _ in steps]
        self.told = [frame((session, told)) for session, _, told in steps]


class OneShotOfAStream:
    """A one-shot of a stream, with the requests before it and after it, and a probe. The probe shows whether its session has a level, whether
    a lock is owned or awaited in each table, the records and the next age."""

    def __init__(self, stream: Any, place: int) -> None:
        self.name, self.words, self.place = f"{stream.name}, request {place + 1}", stream.words, place
        self.given, self.told = stream.given, stream.told
        self.session, self.request = term_of(self.given[place])
        self.reply = term_of(self.told[place])[1]
        asked = [term_of(given)[1] for given in self.given[:place]]
        self.tables = sorted({one[1] for one in asked if one[0] == "create_table"})
        indexes = [(one, table, "val") for table in self.tables for one in ("add_table_index", "del_table_index")]
        self.probe = ["commit", *indexes, "begin", *(("match_object", (table, "_", "_")) for table in self.tables), ("abort", "probe")]

    def probed(self, run: Any) -> Any:
        """The replies to the probe, and the age that it begins with."""
        told = [term_of(run.ask(frame((self.session, asked))))[1] for asked in self.probe]
        (age,) = [reply[1] for reply in told if reply[0:1] == ("tid",)]
        return [reply for reply in told if reply != ("tid", age)], age

    def measure(self, replay: Any) -> None:
        """How many allocations the one-shot makes, and what a probe in its place is answered, if nothing is refused."""
        self.count = counts(replay, self)[self.place + 1]
        if self.reply not in NOT_BEGUN:
            with replay(self.words, 0) as run:
                same(run, self.given[: self.place], self.told)
                self.shown, self.age = self.probed(run)

    def ages_used(self, run: Any) -> int:
        """So many ages more than in the stream are used up after the probe, which shows nothing of the one-shot else."""
        if self.reply in NOT_BEGUN:
            return 0
        shown, age = self.probed(run)
        assert shown == self.shown, f"the probe shows {shown}, and before the one-shot {self.shown}"
        used: int = age - self.age
        assert used in (0, 1), f"it used up {used} ages"
        return used + 1


def same(run: Any, given: Any, told: Any) -> None:
    for asked, wanted in zip(given, told):
        assert run.ask(asked) == wanted, f"frame {run.answered}"


def shifted(term: Any, last: int, by: int) -> Any:
    """The term with each age after the last one so much greater."""
    if isinstance(term, list):
        return [shifted(one, last, by) for one in term]
    if not isinstance(term, tuple):
        return term
    if term[:1] == ("tid",) and len(term) == 2 and term[1] > last:
        return ("tid", term[1] + by)
    return tuple(shifted(one, last, by) for one in term)


ROWS = [stream for stream in streams() if stream.name not in LEFT_OUT and stream.given and b"\x77\x0btransaction" not in stream.all]
ONE_SHOTS = Cases("one_shots.txt", 5)
PROBED = ONE_SHOTS.steps["the probe"]
SHOTS = [OneShot(name, ONE_SHOTS.joined(before), request, reply, ONE_SHOTS.joined(after)) for name, before, request, reply, after in ONE_SHOTS.rows]
IN_STREAMS = [
    OneShotOfAStream(stream, place)
    for stream in streams()
    if stream.name not in LEFT_OUT
    for place, given in enumerate(stream.given)
    if b"\x77\x0btransaction" in given
]
BEGUN = [case for case in IN_STREAMS if case.reply not in NOT_BEGUN]


@pytest.fixture(scope="session")
def replay(tabd: str, library: Callable[[str], str]) -> Any:
    """Starts a replay with some options whose nth allocation is refused."""
    start = partial(RefusedReplay, tabd, library("refusing_replay"))
    with start(["replay"], 1) as run:
        run.ask(frame((1, "join")))
        if not run.ended()[0]:
            pytest.skip("the program has an allocator of its own, and no allocation can be refused it")
    return start


def end_of(run: Any, case: Any, is_whole: Any) -> Any:
    """How a run ended: `whole`, if all frames of the case were answered, or the refused allocation: at the `start`, for a
    `frame`; `none` if nothing was refused."""
    where, status, err = run.ended()
    if is_whole:
        assert (status, err) == (0, b""), "all is answered"
        return "asked again" if run.refused else "whole" if where else "none"
    assert where, f"it ended at frame {run.answered + 1}, and nothing was refused: status {status}, {err}"
    reads, since = where
    assert (status, err) == (1, LINE)
    is_there = not run.refused and run.answered == max(reads - 1, 0)
    assert is_there, f"it ended at frame {run.answered + 1}, and memory was refused at frame {reads}"
    if not reads:
        return "start"
    of_it = OF_A_FRAME if len(case.given[reads - 1]) > 4 else OF_AN_EMPTY
    assert since <= of_it, f"it ended at frame {reads} for allocation {since}, which is not the frame's"
    return "frame"


def counts(replay: Any, case: Any) -> Dict[int, int]:
    """How many allocations are made after each frame that is read, and before the first (0), if nothing is refused."""
    with replay(case.words, 0) as run:
        same(run, case.given, case.told)
        where, status, err = run.ended()
    assert (status, err) == (0, b""), "nothing refused"
    return dict(zip(where[::2], where[1::2]))


def row_end(run: Any, stream: Any) -> Any:
    """How the run of a stream ended."""
    is_whole = all(run.asked(given, wanted) for given, wanted in zip(stream.given, stream.told))
    return end_of(run, stream, is_whole)


def one_shot_end(run: Any, case: Any) -> Any:
    """How the run of a one-shot ended, if memory was refused only to the one-shot."""
    same(run, case.given[:-1], case.told)
    told = run.ask(case.given[-1])
    if told is not None and is_no_memory(told, case.told[-1]):
        run.refused += 1
        probe(run, case)
    else:
        assert told in (None, case.told[-1]), f"replied {told}, wanted {case.told[-1]}"
    return end_of(run, case, told is not None)


def probe(run: Any, case: Any) -> None:
    """It left no level, no lock, no request and no change; sent again it has its reply."""
    # No reply has the age that it used up.
    ages = 1 + sum(asked == "begin" or asked[0] == "transaction" for _, asked, _ in case.before)
    begun = run.ask(frame((1, "begin")))
    age = next((age for age in (ages, ages + 1) if begun == frame((1, ("tid", age)))), None)
    assert age, f"the reply to a begin after it is {begun}"
    steps = [(1, "commit", ("atomic", 2)), (2, "begin", ("tid", age + 1)), *PROBED, (2, ("abort", "probe"), ("aborted", "probe"))]
    for session, asked, wanted in [*steps, *case.after, (1, case.request, case.reply)]:
        told = run.ask(frame((session, asked)))
        assert told == frame((session, wanted)), f"the reply to {asked} after it is {told}, wanted {wanted}"


def in_stream_end(run: Any, case: Any, left: Any = ()) -> Any:
    """How the run of a stream ended, if memory was refused only to its one-shot. A wrong program leaves something after it."""
    same(run, case.given[: case.place], case.told)
    told, used = run.ask(case.given[case.place]), 0
    if told is not None and is_no_memory(told, case.told[case.place]):
        for request in left:
            run.ask(frame((case.session, request)))
        run.refused, used = 1, case.ages_used(run)
        told = run.ask(case.given[case.place])
    assert told in (None, case.told[case.place]), f"replied {told}, wanted {case.reply}"
    if told is not None:
        rest = [frame(shifted(term_of(reply), case.age - 1, used)) if used else reply for reply in case.told[case.place + 1 :]]
        same(run, case.given[case.place + 1 :], rest)
    return end_of(run, case, told is not None)


def faults_of(replay: Any, does: Any, case: Any, start: int, most: int = sys.maxsize, **wrong: Any) -> List[str]:
    """The faults, for each allocation in turn, and at most for so many."""

    def end(nth: int) -> Any:
        with replay(case.words, nth, start, **wrong) as run:
            return does(run, case)

    ends, faults = tried(range(1, most + 1), end)
    assert faults or ends.keys() & {"start", "frame", "asked again"}, "nothing was refused"
    return faults


def faults_in_stream(replay: Any, case: Any, left: Any = (), **wrong: Any) -> List[str]:
    """The faults, for each allocation of the one-shot in turn."""
    case.measure(replay)
    return faults_of(replay, partial(in_stream_end, left=left), case, case.place + 1, case.count, **wrong)


def test_the_start(replay: Any) -> None:
    """Each allocation before a frame is read."""
    assert not faults_of(replay, row_end, ROWS[0], 0, counts(replay, ROWS[0])[0])


def each(name: str, cases: List[Any]) -> pytest.MarkDecorator:
    return pytest.mark.parametrize(name, cases, ids=[case.name for case in cases])


@each("stream", ROWS)
def test_stream(replay: Any, stream: Any) -> None:
    assert not faults_of(replay, row_end, stream, 1)


@each("case", SHOTS)
def test_one_shot(replay: Any, case: Any) -> None:
    assert not faults_of(replay, one_shot_end, case, len(case.given))


@each("case", IN_STREAMS)
def test_one_shot_of_a_stream(replay: Any, case: Any) -> None:
    assert not faults_in_stream(replay, case)


@pytest.mark.wrong
@each("stream", ROWS)
@pytest.mark.parametrize("wrong", WRONG)
def test_a_wrong_program_is_found(replay: Any, wrong: Any, stream: Any) -> None:
    assert faults_of(replay, row_end, stream, 1, **wrong)


@pytest.mark.wrong
@each("case", SHOTS)
@pytest.mark.parametrize("wrong", WRONG)
def test_a_wrong_program_is_found_by_a_one_shot(replay: Any, wrong: Any, case: Any) -> None:
    assert faults_of(replay, one_shot_end, case, len(case.given), **wrong)


@pytest.mark.wrong
@each("case", IN_STREAMS)
@pytest.mark.parametrize("wrong", WRONG)
def test_a_wrong_program_is_found_by_a_one_shot_of_a_stream(replay: Any, wrong: Any, case: Any) -> None:
    assert faults_in_stream(replay, case, **wrong)


@pytest.mark.wrong
@each("case", BEGUN)
@pytest.mark.parametrize("left", LEAVES)
def test_what_a_one_shot_leaves_is_found(replay: Any, left: Any, case: Any) -> None:
    assert faults_in_stream(replay, case, left([*case.tables, "t"][0]))


def test_a_served_frame(replay: Any, serve: Callable[..., Server], library: Callable[[str], str]) -> None:
    """A frame on a connection for which no memory is found, cut in several ways, between two that find some."""
    connection = serve("--connections", "1", env={"LD_PRELOAD": library("refusing_replay"), "LARGEST": "300000"}).connect()
    short, long = frame(("read", "t", 1)), frame(("write", ("t", 1, bytes(900_000))))
    assert [connection.ask(CREATE), connection.ask("begin")] == [ATOMIC, ("tid", 1)]
    for cut in (0, 1, 4, 70_000, 400_000, len(long) - 1):
        connection.socket.sendall(short + long[:cut])
        time.sleep(0.05)
        connection.socket.sendall(long[cut:] + short)
        assert [connection.receive() for _ in range(3)] == [("reply", reply) for reply in ([], NO_MEMORY, [])], f"cut at {cut}"
