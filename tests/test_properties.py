"""Properties, for examples that hypothesis generates, and shrinks if one fails.

A replay is deterministic, also if sessions wait and are restarted, so each example is one run of some sessions in a program that goes on. Its
replies are compared with those of a model (sessions.py). Each property has a fault planted in its model, which has to be found and shrunk. The
examples are the same in each run, and few; `--examples N` makes up N others.
"""

import itertools
from typing import Any, Callable, Iterator, List, Set, Tuple

import pytest
import tabd as client
from hypothesis import find, given, settings
from hypothesis import strategies as st

from tests.lib import planted
from tests.lib.asking import Replay, Step
from tests.lib.model import OPTIONS
from tests.lib.sessions import Book, mirrored
from tests.lib.strategies import ANY_STEPS, DAMAGES, KEYS, MEETING_STEPS, STEPS, TABLE_OPTIONS, WATCHERS, WATCHING
from tests.lib.strategies import damaged, encodings, otherwise, terms
from tests.lib.wire import Map, Term, frame, spell

ROOM = 3


@pytest.fixture(scope="module")
def replay(tabd: str) -> Iterator[Replay]:
    replay = Replay(tabd, ROOM)
    yield replay
    replay.close()


def least(strategy: st.SearchStrategy[Any], check: Callable[[Any], None]) -> Any:
    """The least example for which a check fails, as it has to with a planted fault."""

    def fails(example: Any) -> bool:
        try:
            check(example)
        except AssertionError:
            return True
        return False

    return find(strategy, fails, settings=settings(max_examples=2_000, derandomize=True, database=None, deadline=None))


# Terms: written in one encoding, and read in each.


def payload(encoding: bytes) -> bytes:
    return (len(encoding) + 1).to_bytes(4, "big") + b"\x83" + encoding


def written(replay: Replay, encoding: bytes) -> bytes:
    """How the program writes what is encoded so: the reason of an abort."""
    replay.fresh(1)
    head = spell((replay.first, ("abort", 0)))[:-2]
    _, told = replay.told(replay.frames([(0, "begin")]) + payload(head + encoding), 2)
    wanted = spell((replay.first, ("aborted", 0)))[:-2]
    assert told[5:].startswith(wanted)
    return told[5 + len(wanted) :]


@given(term=terms())
def test_a_term_comes_back(replay: Replay, term: Term) -> None:
    assert written(replay, spell(term)) == spell(term)


@st.composite
def encoded(draw: Any) -> Tuple[Term, bytes]:
    """A term, and an encoding of it."""
    term = draw(terms())
    return term, otherwise(draw, term)


@given(given=encoded())
def test_other_encodings_are_read(replay: Replay, given: Any) -> None:
    term, encoding = given
    assert written(replay, encoding) == spell(term)


def test_a_planted_writer_is_found(replay: Replay) -> None:
    """It writes a term as it has read it: the least that is written otherwise is the integer 0, of two bytes and a sign."""

    def check(given: Any) -> None:
        assert written(replay, given[1]) == given[1]

    term, encoding = least(encoded(), check)
    assert term in (0, "") and encoding != spell(term)


def test_a_planted_map_is_found(replay: Replay) -> None:
    """Its keys are written in falling order."""

    def planted(term: Term) -> bytes:
        if isinstance(term, Map):
            pairs = [spell(key) + spell(value) for key, value in reversed(term)]
            return b"t" + len(pairs).to_bytes(4, "big") + b"".join(pairs)
        return spell(term)

    def check(term: Term) -> None:
        assert written(replay, spell(term)) == planted(term)

    assert least(terms(), check) == [(0, 0), (1, 0)]


def check_payload(replay: Replay, given: Any, model: Callable[[int], Book] = Book) -> None:
    """What a payload is: no term, no request, or which."""
    encoding, damage = given
    replay.fresh(1)
    one = b"\x83h\x02b" + replay.first.to_bytes(4, "big") + encoding
    one = damaged(one, damage)
    assert replay.told(len(one).to_bytes(4, "big") + one, 1) == replay.book(model).frames([bytes(4) + one])


PAYLOADS = st.tuples(encodings(), DAMAGES)


@given(given=PAYLOADS)
def test_any_payload(replay: Replay, given: Any) -> None:
    check_payload(replay, given)


def test_a_planted_reader_is_found(replay: Replay) -> None:
    """The least payload that is no request: the integer 0."""
    assert least(PAYLOADS, lambda given: check_payload(replay, given, planted.NamesNoSession)) == (spell(0), None)


# The Python client's codec.


def of_client(term: Term) -> Any:
    """The client's term: a map is a dict, or pairs if its keys can't be a dict's."""
    if isinstance(term, Map):
        pairs = tuple((of_client(key), of_client(value)) for key, value in term)
        try:
            return dict(pairs)
        except TypeError:
            return client.terms.Pairs(pairs)
    return type(term)(map(of_client, term)) if isinstance(term, (list, tuple)) else term


def check_codec(term: Term, spelled: Callable[[Term], bytes] = spell) -> None:
    payload = b"\x83" + spelled(term)
    assert client.terms.encode(of_client(term)) == payload
    assert client.terms.decode(payload) == of_client(term)


@given(term=terms())
def test_the_client_encodes_and_decodes(term: Term) -> None:
    check_codec(term)


def test_a_planted_encoding_is_found() -> None:
    """Of a list of small integers as one of terms."""
    planted = lambda term: b"l\0\0\0\1a" + bytes(term) + b"j" if isinstance(term, list) and len(term) == 1 and term[0] in range(256) else spell(term)
    assert least(terms(), lambda term: check_codec(term, planted)) == [0]


# Keys: in the order of their encodings.


def check_order(replay: Replay, keys: List[Term], order: Callable[[Term], Any] = spell) -> None:
    replay.fresh(1)
    told = [("write", ("t", key, 0, 0)) for key in keys]
    wanted = sorted(keys, key=order)
    [reply] = replay.ask([(0, ("transaction", [*told, ("all_keys", "t"), ("match_object", ("t", "_", 0, "_"))], 0))])
    assert reply == ("atomic", [*["ok"] * len(keys), wanted, [("t", key, 0, 0) for key in wanted]])


DIFFERENT_KEYS = st.lists(terms(3), max_size=8, unique_by=spell)


@given(keys=DIFFERENT_KEYS)
def test_keys_are_in_order(replay: Replay, keys: List[Term]) -> None:
    check_order(replay, keys)


def test_a_planted_order_is_found(replay: Replay) -> None:
    """By the encodings without their first bytes."""
    found = least(DIFFERENT_KEYS, lambda keys: check_order(replay, keys, lambda key: spell(key)[1:]))
    assert len(found) == 2


# Transactions, of one session and of several that meet; the options of tables; subscriptions; and all of it together.


def check_steps(replay: Replay, count: int, asked: List[Step], model: Callable[[int], Book] = Book) -> Tuple[Book, List[Term]]:
    """Checks the replies to steps of so many sessions; returns the model after them, and the replies."""
    replay.fresh(count)
    found = replay.ask(asked)
    book = replay.book(model)
    for at, (who, request) in enumerate(asked):
        assert found[at] == book.tell(replay.first + who, request), f"step {at}, session {who}: {request}"
    return book, found


def check_sessions(replay: Replay, count: int, asked: List[Step], model: Callable[[int], Book] = Book) -> None:
    """Steps after a begin of each, and the tables after all have left, which one more session asks for."""
    looks = ("transaction", [("match_object", (tab, "_", "_", "_")) for tab in OPTIONS], 0)
    begun, left = [(who, "begin") for who in range(count)], [(who, "leave") for who in range(count)]
    check_steps(replay, count + 1, [*begun, *asked, *left, (count, looks)], model)


@given(asked=STEPS)
def test_one_session(replay: Replay, asked: List[Step]) -> None:
    check_sessions(replay, 1, asked)


@given(asked=MEETING_STEPS)
def test_sessions_that_meet(replay: Replay, asked: List[Step]) -> None:
    check_sessions(replay, 3, asked)


@pytest.mark.parametrize("model, most", planted.MEETING.items())
def test_a_planted_session_is_found(replay: Replay, model: Callable[[int], Book], most: int) -> None:
    """In so many steps at most after the begins."""
    found = least(MEETING_STEPS, lambda asked: check_sessions(replay, 3, asked, model))
    assert len(found) <= most, found


def check_options(replay: Replay, options: List[Term], model: Callable[[int], Book] = Book) -> None:
    infos = [("table_info", "o", what) for what in ("type", "attributes", "index", "size")]
    check_steps(replay, 1, [(0, request) for request in (("create_table", "o", options), *infos, ("delete_table", "o"))], model)


@given(options=TABLE_OPTIONS)
def test_options(replay: Replay, options: List[Term]) -> None:
    check_options(replay, options)


def test_a_planted_option_is_found(replay: Replay) -> None:
    assert least(TABLE_OPTIONS, lambda options: check_options(replay, options, planted.IndexesTheKey)) == [("index", [2])]


def check_outboxes(replay: Replay, asked: List[Step], model: Callable[[int], Book] = Book) -> None:
    """Of each session its slice of the commits, through an outbox of few items; and a mirror, which follows only these, ends with the tables."""
    asked = [*asked, *[(who, "take") for who in range(1, WATCHERS + 1) for _ in range(ROOM + 2)]]
    book, found = check_steps(replay, WATCHERS + 1, asked, model)
    for who in range(1, WATCHERS + 1):
        items = [reply for step, reply in zip(asked, found) if step == (who, "take") and reply != "empty"]
        for tab, copy in mirrored(items).items():
            assert copy == book.tables[tab], f"a copy of {tab}"


@given(asked=WATCHING)
def test_subscriptions_and_mirrors(replay: Replay, asked: List[Step]) -> None:
    check_outboxes(replay, asked)


@pytest.mark.parametrize("model, most", planted.WATCHING.items())
def test_a_planted_outbox_is_found(replay: Replay, model: Callable[[int], Book], most: int) -> None:
    found = least(WATCHING, lambda asked: check_outboxes(replay, asked, model))
    assert len(found) <= most, found


@given(asked=ANY_STEPS)
def test_all_together(replay: Replay, asked: List[Step]) -> None:
    check_steps(replay, 3, asked)


def test_a_planted_type_is_found(replay: Replay) -> None:
    def check(asked: List[Step]) -> None:
        check_steps(replay, 3, asked, planted.CallsABagASet)

    assert least(ANY_STEPS, check) == [(0, ("table_info", "b", "type"))]


# The splitter: frames that come in any pieces.


def check_pieces(replay: Replay, pieces: Any, is_read: Callable[[int, Set[int]], bool] = lambda *_: True) -> None:
    """Writes in one transaction, cut at these offsets of its bytes. Each frame is answered, or those that are read with the planted fault."""
    keys, cuts = pieces
    replay.fresh(1)
    each = [replay.frames([(0, what)]) for what in ("begin", *(("write", ("t", key, 0, 0)) for key in keys))]
    ends = list(itertools.accumulate(map(len, each)))
    places = {cut for cut in cuts if cut < ends[-1]}
    replies = replay.told(b"".join(each), len(each), places)
    assert replies[1:] == [frame((replay.first, "ok")) for first in ends[:-1] if is_read(first, places)]


PIECES = st.tuples(st.lists(st.sampled_from(KEYS), max_size=5), st.lists(st.integers(1, 150), max_size=8))


@given(pieces=PIECES)
def test_frames_in_pieces(replay: Replay, pieces: Any) -> None:
    check_pieces(replay, pieces)


def test_a_planted_splitter_is_found(replay: Replay) -> None:
    """A frame is lost that is cut in its length."""
    is_read = lambda first, places: not any(first < place < first + 4 for place in places)
    keys, cuts = least(PIECES, lambda pieces: check_pieces(replay, pieces, is_read))
    assert (len(keys), len(cuts)) == (1, 1)
