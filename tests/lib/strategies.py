"""What the properties are tried with: terms, encodings of terms, steps of transactions, options of tables, and subscriptions."""

import itertools
from typing import Any, Callable, List, Optional, Tuple

from hypothesis import strategies as st

from tests.lib.model import INDEXED, OPTIONS
from tests.lib.wire import Map, Term, spell

EDGES = [0, 1, 255, 256, -1, 2**31 - 1, 2**31, -(2**31), -(2**31) - 1, 2**127 - 1, -(2**127)]
INTEGERS = st.one_of(st.integers(0, 300), st.sampled_from(EDGES), st.integers(-(2**127), 2**127 - 1))
ATOMS = st.text(st.characters(blacklist_categories=["Cs"]), max_size=6)
LEAVES = st.one_of(INTEGERS, ATOMS, st.binary(max_size=6))


def sorted_map(pairs: List[Any]) -> Map:
    """In the order in which the program writes the keys."""
    return Map(sorted(pairs, key=lambda pair: spell(pair[0])))


def above(inner: st.SearchStrategy[Term]) -> st.SearchStrategy[Term]:
    """Terms that are one level deeper."""
    many = st.lists(inner, max_size=4)
    pairs = st.lists(st.tuples(inner, inner), max_size=4, unique_by=lambda pair: spell(pair[0]))
    return st.one_of(many, many.map(tuple), pairs.map(sorted_map))


def terms(depth: int = 4) -> st.SearchStrategy[Term]:
    return LEAVES if depth == 1 else st.one_of(LEAVES, above(terms(depth - 1)))


KEYS: List[Term] = [1, "a", -1, 300, (1, 2), b"x", []]
# A step has few choices, each an index of a list, so that it is shrunk in few tries.
ENDS: List[Term] = ["begin", "commit", ("abort", "why")]


def updates(tabs: List[str], keys: List[Term], values: List[Term]) -> List[Term]:
    rows = list(itertools.product(tabs, keys, values, values))
    return [*[("write", row) for row in rows], *[("delete_object", row) for row in rows], *[("delete", row) for row in itertools.product(tabs, keys)]]


def looks(tabs: List[str], keys: List[Term], values: List[Term]) -> List[Term]:
    one = list(itertools.product(tabs, keys))
    patterns = itertools.product(tabs, [*keys, "_"], [*values, "_"], ["_"])
    found: List[Term] = [("read", *it) for it in one]
    found += [("wread", it) for it in one] + [("match_object", it) for it in patterns]
    found += [("index_read", *it) for it in itertools.product(tabs, values, [INDEXED, "class"])]
    return found + list(itertools.product(["all_keys", "read_lock_table", "write_lock_table"], tabs))


def failing(keys: List[Term]) -> List[Term]:
    """Of a table that is not there, of records that do not fit, and by what is no index."""
    rows = [("no", key, 0, 0) for key in keys] + list(itertools.product(OPTIONS, keys))
    by_no_index = [("index_read", tab, 0, "value") for tab in OPTIONS]
    return [("read", "no", 1), *itertools.product(["write", "delete_object", "match_object"], rows), *by_no_index]


def of_any(*lists: List[Term]) -> st.SearchStrategy[Term]:
    return st.one_of(*map(st.sampled_from, lists))


ALONE = (list(OPTIONS), KEYS, [0, 1, "v"])
MEETING = (["t"], [1, "a"], [0])
MOVES = of_any(updates(*ALONE), looks(*ALONE), ENDS, failing(KEYS))
STEPS = st.lists(st.tuples(st.just(0), MOVES), max_size=16)
MEETING_STEPS = st.lists(st.tuples(st.integers(0, 2), of_any(updates(*MEETING), looks(*MEETING), ENDS, ["retry"])), max_size=24)

NAMES = st.sampled_from(["k", "v", "w"])
OPTION = st.one_of(
    st.tuples(st.just("type"), st.sampled_from(["set", "bag", "list"])),
    st.tuples(st.just("attributes"), st.one_of(st.lists(st.one_of(NAMES, st.just(1)), max_size=4), st.just("k"))),
    st.tuples(st.just("index"), st.one_of(st.lists(st.one_of(NAMES, st.integers(1, 6), st.just("val")), max_size=3), st.just("v"))),
    st.tuples(st.just("ram_copies"), st.sampled_from([[], ["n"], "n"])),
    st.tuples(st.just("record_name"), st.sampled_from(["o", "other"])),
    st.sampled_from(["type", ("nosuch", 1), ("type", "set", 1)]),
)
TABLE_OPTIONS = st.lists(OPTION, max_size=4)

WATCHERS = 2
TABS, LEVELS = st.sampled_from(list(OPTIONS)), st.sampled_from(["simple", "detailed"])
WHO = st.integers(1, WATCHERS)
WATCHED = st.tuples(st.just("table"), TABS, LEVELS)
COMMITS = st.lists(st.sampled_from(updates(list(OPTIONS), [1, "a"], [0, 1])), max_size=3).map(lambda parts: ("transaction", parts, 0))
# Session 0 commits, and creates and deletes tables; the others watch and take.
WATCHING = st.lists(
    st.one_of(
        st.tuples(st.just(0), COMMITS),
        st.tuples(st.just(0), COMMITS),
        st.tuples(st.just(0), TABS.flatmap(lambda tab: st.sampled_from([("delete_table", tab), ("create_table", tab, OPTIONS[tab])]))),
        st.tuples(WHO, st.one_of(st.tuples(st.just("subscribe"), WATCHED), st.tuples(st.just("subscribe"), WATCHED, st.just("dump")))),
        st.tuples(WHO, st.tuples(st.just("unsubscribe"), WATCHED)),
        st.tuples(WHO, st.just("take")),
    ),
    max_size=20,
)


PARTS = of_any(updates(*MEETING), looks(*MEETING), [("abort", "why")], failing([1]))
ONE_SHOTS = st.lists(st.one_of(PARTS, st.lists(PARTS, max_size=3).map(lambda parts: ("transaction", parts))), max_size=4)
ON_TABLES = [(name, tab, attribute) for name in ("add_table_index", "del_table_index") for tab in OPTIONS for attribute in ("value", 3, "key")]
INFOS = list(itertools.product(["table_info"], [*OPTIONS, "no"], ["type", "attributes", "index", "size"]))
MARKS = list(itertools.product(["unsubscribe"], itertools.product(["table"], [*OPTIONS, "no"], ["simple", "detailed"])))
# Most of it does nothing outside of a transaction, so there are many begins.
ANY = st.one_of(
    st.just("begin"),
    of_any(updates(*MEETING), looks(*MEETING)),
    of_any(updates(*MEETING), looks(*MEETING), failing([1]), [*ENDS, "retry", "take"]),
    of_any(ENDS, ["take", "leave", *[("delete_table", tab) for tab in OPTIONS], *[("create_table", *it) for it in OPTIONS.items()]]),
    of_any(ON_TABLES, INFOS, MARKS, [("subscribe", what) for _, what in MARKS], [("subscribe", what, "dump") for _, what in MARKS]),
    st.tuples(st.just("transaction"), ONE_SHOTS, st.sampled_from([0, 1])),
)
ANY_STEPS = st.lists(st.tuples(st.integers(0, 2), ANY), max_size=24)


def changed(request: Term) -> st.SearchStrategy[Term]:
    """A request of which a part is another term, or which has one more."""
    if not isinstance(request, tuple):
        return terms(2)
    return st.tuples(st.integers(0, len(request)), terms(2)).map(lambda it: (*request[: it[0]], it[1], *request[it[0] + 1 :]))


@st.composite
def encodings(draw: Any) -> bytes:
    """Of requests, and of what is almost one."""
    return otherwise(draw, draw(st.one_of(terms(3), ANY, ANY.flatmap(changed))))


# Where a byte is taken away or put in, or what follows it is cut.
DAMAGES = st.one_of(st.none(), st.tuples(st.integers(0, 60), st.sampled_from([0, 1, 60]), st.binary(max_size=1)))


def damaged(payload: bytes, damage: Optional[Tuple[int, int, bytes]]) -> bytes:
    if damage is None:
        return payload
    at, count, more = damage
    return payload[:at] + more + payload[at + count :]


def otherwise(draw: Callable[[Any], Any], term: Term) -> bytes:
    """An encoding of a term that is read, and may be another than the one that is written."""
    if isinstance(term, int):
        size = max(1, (abs(term).bit_length() + 7) // 8)
        big = b"n" + bytes([size + 1, term < 0]) + abs(term).to_bytes(size + 1, "little")
        return bytes(draw(st.sampled_from([spell(term), big])))
    if isinstance(term, str):
        text = term.encode()
        return bytes(draw(st.sampled_from([spell(term), b"v" + len(text).to_bytes(2, "big") + text])))
    if isinstance(term, bytes):
        return spell(term)
    if isinstance(term, Map):
        pairs = draw(st.permutations([otherwise(draw, key) + otherwise(draw, value) for key, value in term]))
        return b"t" + len(pairs).to_bytes(4, "big") + b"".join(pairs)
    parts = [otherwise(draw, part) for part in term]
    count = len(parts).to_bytes(4, "big")
    if isinstance(term, tuple):
        return bytes(draw(st.sampled_from([b"h" + bytes([len(parts)]), b"i" + count]))) + b"".join(parts)
    return b"l" + count + b"".join(parts) + b"j"
