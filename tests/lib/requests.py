"""What a payload is: a term in any of its encodings, and a request of docs/PROTOCOL.md, or neither."""

from typing import Callable, Dict, List, Tuple

from tests.lib.wire import Map, Term, spell

DEPTH, ATOM = 64, 255
LEVELS = ("simple", "detailed")


class Reader:
    """Reads one term, from its first byte to its last. ValueError: it is none."""

    def __init__(self, data: bytes) -> None:
        self.data, self.at = data, 0

    def take(self, count: int) -> bytes:
        self.at += count
        if self.at > len(self.data):
            raise ValueError("it ends too early")
        return self.data[self.at - count : self.at]

    def number(self, size: int) -> int:
        return int.from_bytes(self.take(size), "big")

    def payload(self) -> Term:
        if self.number(1) != 131:
            raise ValueError("its first byte is not 131")
        term = self.term(DEPTH)
        if self.at < len(self.data):
            raise ValueError("it ends too late")
        return term

    def term(self, depth: int) -> Term:
        """Of so many levels at most."""
        if not depth:
            raise ValueError("it is too deep")
        tag = self.number(1)
        if tag in (97, 98, 110):
            return self.integer(tag)
        if tag in (100, 115, 118, 119):
            return self.atom(tag)
        if tag == 109:
            return self.take(self.number(4))
        if tag in (104, 105):
            return tuple(self.many(self.number(1 if tag == 104 else 4), depth))
        if tag == 116:
            return self.map(depth)
        return self.list(tag, depth)

    def many(self, count: int, depth: int) -> List[Term]:
        return [self.term(depth - 1) for _ in range(count)]

    def integer(self, tag: int) -> int:
        if tag == 97:
            return self.number(1)
        if tag == 98:
            return int.from_bytes(self.take(4), "big", signed=True)
        size, sign = self.take(2)
        found = int.from_bytes(self.take(size), "little") * (-1 if sign else 1)
        if sign > 1 or not -(2**127) <= found < 2**127:
            raise ValueError("no integer of 128 bits")
        return found

    def atom(self, tag: int) -> str:
        text = self.take(self.number(2 if tag in (100, 118) else 1)).decode("latin-1" if tag in (100, 115) else "utf-8")
        if len(text) > ATOM:
            raise ValueError("an atom is too long")
        return text

    def list(self, tag: int, depth: int) -> Term:
        if tag == 106:
            return []
        if tag == 107:
            found = [*self.take(self.number(2))]
            if found and depth < 2:
                raise ValueError("it is too deep")
            return found
        if tag != 108:
            raise ValueError("another tag")
        terms = self.many(self.number(4), depth)
        if self.number(1) != 106:
            raise ValueError("another tail")
        return terms

    def map(self, depth: int) -> Map:
        pairs = [(self.term(depth - 1), self.term(depth - 1)) for _ in range(self.number(4))]
        if len({spell(key) for key, _ in pairs}) < len(pairs):
            raise ValueError("a key twice")
        return Map(sorted(pairs, key=lambda pair: spell(pair[0])))


Check = Callable[[Term], bool]
is_any: Check = lambda term: True
is_atom: Check = lambda term: isinstance(term, str)
is_attribute: Check = lambda term: isinstance(term, (str, int))
is_list: Check = lambda term: isinstance(term, list) and not isinstance(term, Map)
is_key: Check = lambda term: isinstance(term, tuple) and len(term) == 2 and is_atom(term[0])
is_record: Check = lambda term: isinstance(term, tuple) and len(term) >= 2 and is_atom(term[0])
is_watched: Check = lambda term: isinstance(term, tuple) and len(term) == 3 and term[0] == "table" and is_atom(term[1]) and term[2] in LEVELS


def are_members(term: Term) -> bool:
    """Of a one-shot: an inner one has no number of retries."""
    return is_list(term) and all(has_shape(it, {**OPERATIONS, "abort": [(is_any,)], "transaction": [(are_members,)]}) for it in term)


Shapes = Dict[str, List[Tuple[Check, ...]]]
OPERATIONS: Shapes = {
    "read": [(is_atom, is_any)],
    "wread": [(is_key,)],
    "write": [(is_record,)],
    "delete": [(is_key,)],
    "delete_object": [(is_record,)],
    "match_object": [(is_record,)],
    "index_read": [(is_atom, is_any, is_attribute)],
    "all_keys": [(is_atom,)],
    "read_lock_table": [(is_atom,)],
    "write_lock_table": [(is_atom,)],
}
SHAPES: Shapes = {
    **OPERATIONS,
    "abort": [(is_any,)],
    "create_table": [(is_atom, is_list)],
    "delete_table": [(is_atom,)],
    "add_table_index": [(is_atom, is_attribute)],
    "del_table_index": [(is_atom, is_attribute)],
    "table_info": [(is_atom, lambda it: it in ("type", "attributes", "index", "size"))],
    "transaction": [(are_members, lambda it: isinstance(it, int) and 0 <= it <= 1_000)],
    "subscribe": [(is_watched,), (is_watched, lambda it: bool(it == "dump"))],
    "unsubscribe": [(is_watched,)],
}
WORDS = ("begin", "commit", "join", "leave", "retry", "take")


def has_shape(term: Term, shapes: Shapes) -> bool:
    if not isinstance(term, tuple) or not term or not is_atom(term[0]):
        return False
    checks = (it for it in shapes.get(term[0], []) if len(it) == len(term) - 1)
    return any(all(check(part) for check, part in zip(it, term[1:])) for it in checks)


def is_request(term: Term) -> bool:
    return term in WORDS if is_atom(term) else has_shape(term, SHAPES)
