"""A serial model of transactions, on plain tables. The judge (judging.py) compares a served run with it, and sessions.py makes its sessions'
transactions by it. It shares no code with the server.

A table's records are stored under the encodings of their keys, and those of a key in the order of their insertion. Tables are never changed:
each change makes new ones, so those of every commit can be kept.
"""

from typing import Any, Dict, FrozenSet, List, NamedTuple, Optional, Tuple

from tests.lib.wire import Map, Term, spell

Rows = Dict[bytes, Tuple[Term, ...]]
# A table's name, the encoding of a key or None for all of them, and whether it is for a write.
Lock = Tuple[str, Optional[bytes], bool]
# An update is its name and what it has: a record, or a table and a key.
Update = Tuple[str, Term]


class Table(NamedTuple):
    """Its type, the names of its attributes, the positions that have an index, and its records."""

    kind: str
    names: Tuple[str, ...]
    indexed: FrozenSet[int] = frozenset()
    rows: Rows = {}

    def position(self, attribute: Term) -> Optional[int]:
        """Of an attribute after the key, by its name or its position."""
        places: Dict[Term, int] = {name: at for at, name in enumerate(self.names[1:], 3)}
        places.update((at, at) for at in range(3, len(self.names) + 2))
        return places.get(attribute)


Tables = Dict[str, Table]

# The tables of most tests; both have a key, a class, by which there is an index, and a value.
KINDS = {"t": "set", "b": "bag"}
OPTIONS: Dict[str, Term] = {tab: [("type", kind), ("attributes", ["key", "class", "value"]), ("index", ["class"])] for tab, kind in KINDS.items()}
EMPTY: Tables = {tab: Table(kind, ("key", "class", "value"), frozenset([3])) for tab, kind in KINDS.items()}
INDEXED = 3
UPDATES = ("write", "delete", "delete_object")


def table_of(move: Term) -> Tuple[str, Term]:
    """The table of an operation, and the part of it that has the key."""
    return (move[1][0], move[1]) if move[0] in ("wread", "match_object", *UPDATES) else (move[1], move)


def is_open(pattern: Term) -> bool:
    """Whether '_' is in it, outside of a map."""
    return pattern == "_" or isinstance(pattern, (tuple, list)) and not isinstance(pattern, Map) and any(map(is_open, pattern))


def lock_of(move: Term) -> Lock:
    """The lock that an operation asks for."""
    table, part = table_of(move)
    if move[0] in ("wread", *UPDATES):
        return table, spell(part[1]), True
    if move[0] == "read":
        return table, spell(move[2]), False
    if move[0] == "match_object" and not is_open(part[1]):
        return table, spell(part[1]), False
    return table, None, move[0] == "write_lock_table"


def conflict(one: Lock, other: Lock) -> bool:
    return one[0] == other[0] and (one[2] or other[2]) and (None in (one[1], other[1]) or one[1] == other[1])


def whole(table: Table) -> List[Term]:
    return [record for key in sorted(table.rows) for record in table.rows[key]]


def is_same(one: Term, other: Term) -> bool:
    """As terms: a map is no list of pairs."""
    return one == other and spell(one) == spell(other)


def fits(pattern: Term, term: Term) -> bool:
    if isinstance(pattern, (tuple, list)) and not isinstance(pattern, Map) and type(pattern) is type(term):
        return len(pattern) == len(term) and all(map(fits, pattern, term))
    return pattern == "_" or is_same(pattern, term)


def updated(tables: Tables, update: Update) -> Tuple[Tables, List[Term]]:
    """The tables after an update, and the key's records before it."""
    name, what = update
    table, key = tables[what[0]], spell(what[1])
    old = table.rows.get(key, ())
    if name == "delete":
        new: Tuple[Term, ...] = ()
    elif name == "delete_object":
        new = tuple(record for record in old if not is_same(record, what))
    elif table.kind == "set":
        new = (what,)
    else:
        new = old if any(is_same(record, what) for record in old) else (*old, what)
    rows = {**table.rows, key: new}
    if not new:
        del rows[key]
    return {**tables, what[0]: table._replace(rows=rows)}, list(old)


def mirror(copies: Tables, event: Term) -> None:
    """Takes over an event, at either level, into the copy of its table, if there is one."""
    what = event[1] if len(event) == 3 else event[2]
    name = "write" if event[0] == "write" else "delete" if len(what) == 2 else "delete_object"
    if what[0] in copies:
        copies.update(updated(copies, (name, what))[0])


def events(tables: Tables, updates: List[Update], age: int) -> Tuple[List[Tuple[str, Dict[str, Term]]], Tables]:
    """The events of a commit: of each its table and its terms at both levels; and the tables after it."""
    told, tid = [], ("tid", age)
    for name, what in updates:
        tables, old = updated(tables, (name, what))
        detailed = ("write" if name == "write" else "delete", what[0], what, old, tid)
        terms: Dict[str, Term] = {"simple": (name, what, tid), "detailed": detailed}
        told.append((what[0], {level: ("mnesia_table_event", term) for level, term in terms.items()}))
    return told, tables


class Alone:
    """A transaction on tables that no one else changes. `over` says that its outermost level has ended, and how."""

    def __init__(self, tables: Tables) -> None:
        self.tables, self.over = tables, None  # type: Tuple[Tables, Any]
        self.updates: List[Update] = []
        self.saved = [(tables, 0)]

    def back(self, reason: Term) -> Term:
        """The innermost level ends, and nothing of it stays."""
        self.tables, count = self.saved.pop()
        del self.updates[count:]
        if not self.saved:
            self.over = reason
        return ("aborted", reason)

    def tell(self, move: Term) -> Term:
        """The reply to a move: an operation, or the begin, the commit or the abort of a level."""
        if move == "begin":
            self.saved.append((self.tables, len(self.updates)))
            return None
        if move == "commit":
            self.saved.pop()
            return ("atomic", "ok")
        return self.back(move[1]) if move[0] == "abort" else self.operation(move)

    def operation(self, move: Term) -> Term:
        (name, part), what = table_of(move), move[0]
        table = self.tables.get(name)
        if table is None:
            return self.back(("no_exists", name))
        if what in ("write", "delete_object", "match_object") and len(part) != len(table.names) + 1:
            return self.back(("bad_type", name, part))
        if what == "index_read":
            position = table.position(move[3])
            if position is None or position not in table.indexed:
                return self.back(("no_index", name, move[3]))
            return [record for record in whole(table) if is_same(record[position - 1], move[2])]
        if what in UPDATES:
            self.updates.append((what, part))
            self.tables, _ = updated(self.tables, (what, part))
            return "ok"
        return self.answer(what, move, part, table)

    @staticmethod
    def answer(what: str, move: Term, part: Term, table: Table) -> Term:
        if what in ("read", "wread"):
            return list(table.rows.get(spell(move[2] if what == "read" else part[1]), ()))
        if what == "match_object":
            return [record for record in whole(table) if fits(part, record)]
        return [table.rows[key][0][1] for key in sorted(table.rows)] if what == "all_keys" else "ok"

    def members(self, parts: List[Term]) -> List[Term]:
        """The replies to the members of a one-shot, up to the end of the level that they began in."""
        depth, told = len(self.saved), []
        for part in parts:
            told.append(self.child(part[1]) if part[0] == "transaction" else self.tell(part))
            if len(self.saved) < depth:
                break
        return told

    def child(self, parts: List[Term]) -> Term:
        self.tell("begin")
        depth = len(self.saved)
        told = self.members(parts)
        if len(self.saved) < depth:
            return told[-1]
        self.tell("commit")
        return ("atomic", told)

    def one_shot(self, parts: List[Term]) -> Term:
        told = self.members(parts)
        return told[-1] if self.over is not None else ("atomic", told)
