# SPDX-License-Identifier: Apache-2.0
"""Terms as Python values, and their encoding in Erlang's external term format."""

from __future__ import annotations

import struct
from dataclasses import dataclass
from typing import Any, Dict, List, Sequence, Tuple, Union

from .errors import BadTerm

Term = Union[int, str, bytes, Tuple[Any, ...], List[Any], Dict[Any, Any], "Pairs"]
Record = Tuple[Any, ...]

# Levels of a term, at most.
MOST_LEVELS = 64
# How many atoms are cached, of those that were decoded and of those that were encoded.
MOST_ATOMS = 4096

_LENGTH, _COUNT = struct.Struct(">I"), struct.Struct(">H")
_NUMBER, _INTEGER = _LENGTH.unpack_from, struct.Struct(">i").unpack_from
_BYTES = [bytes((97, number)) for number in range(256)]
_ATOMS: Dict[bytes, str] = {}
_SPELLED: Dict[str, bytes] = {}


@dataclass(frozen=True)
class Pairs:
    """A map by its pairs, in any order."""

    pairs: Tuple[Tuple[Any, Any], ...]


def no_term(value: object, why: str) -> BadTerm:
    return BadTerm(f"{value!r:.100}: {why}")


def _spell_integer(number: int) -> bytes:
    if 0 <= number < 256:
        return bytes([97, number])
    if -(2**31) <= number < 2**31:
        return b"b" + struct.pack(">i", number)
    if not -(2**127) <= number < 2**127:
        raise no_term(number, "an integer has at most 128 bits")
    digits = abs(number).to_bytes(16, "little").rstrip(b"\0")
    return bytes([110, len(digits), number < 0]) + digits


def _spell_atom(atom: str) -> bytes:
    if len(atom) > 255:
        raise no_term(atom, "an atom has at most 255 characters; text is bytes")
    try:
        text = atom.encode()
    except UnicodeEncodeError as error:
        raise no_term(atom, "an atom is text of Unicode") from error
    return (bytes([119, len(text)]) if len(text) < 256 else b"v" + _COUNT.pack(len(text))) + text


def _kept_atom(atom: str) -> bytes:
    """The encoding of an atom, from a cache, since a client sends the same ones again and again."""
    spelled = _spell_atom(atom)
    if len(_SPELLED) >= MOST_ATOMS:
        _SPELLED.clear()
    _SPELLED[atom] = spelled
    return spelled


def _spell_many(tag: bytes, terms: Sequence[Any], levels: int) -> bytes:
    return tag + _LENGTH.pack(len(terms)) + b"".join([_spell(term, levels) for term in terms])


def _spell_tuple(terms: Tuple[Any, ...], levels: int) -> bytes:
    """Small elements are encoded here, which saves a call for each."""
    if len(terms) > 255:
        return _spell_many(b"i", terms, levels - 1)
    if levels == 1 and terms:
        raise no_term(terms, f"a term has at most {MOST_LEVELS} levels")
    parts = [bytes((104, len(terms)))]
    for term in terms:
        kind = type(term)
        if kind is str:
            parts.append(_SPELLED.get(term) or _kept_atom(term))
        elif kind is int and 0 <= term < 256:
            parts.append(_BYTES[term])
        elif kind is bytes:
            parts += (b"m", _LENGTH.pack(len(term)), term)
        else:
            parts.append(_spell(term, levels - 1))
    return b"".join(parts)


def _spell_list(terms: List[Any], levels: int) -> bytes:
    if not terms:
        return b"j"
    if len(terms) < 65536 and all(type(term) is int and 0 <= term < 256 for term in terms):
        return b"k" + _COUNT.pack(len(terms)) + bytes(terms)
    return _spell_many(b"l", terms, levels) + b"j"


def _spell_map(pairs: Sequence[Tuple[Any, Any]], levels: int) -> bytes:
    spelled = sorted([(_spell(key, levels), _spell(value, levels)) for key, value in pairs])
    return b"t" + _LENGTH.pack(len(spelled)) + b"".join([key + value for key, value in spelled])


def _spell(term: Any, levels: int) -> bytes:
    """Encodes a term as the server does, with at most so many levels."""
    if levels == 0:
        raise no_term(term, f"a term has at most {MOST_LEVELS} levels")
    if isinstance(term, tuple):
        return _spell_tuple(term, levels)
    if isinstance(term, str):
        return _spell_atom(term)
    if isinstance(term, bytes):
        return b"m" + _LENGTH.pack(len(term)) + term
    if isinstance(term, bool):
        raise no_term(term, 'there is no bool; the atoms are "true" and "false"')
    if isinstance(term, int):
        return _spell_integer(term)
    if isinstance(term, list):
        return _spell_list(term, levels - 1)
    if isinstance(term, dict):
        return _spell_map(list(term.items()), levels - 1)
    if isinstance(term, Pairs):
        return _spell_map(term.pairs, levels - 1)
    raise no_term(term, f"there is no term for a {type(term).__name__}")


def encode(term: Term) -> bytes:
    """A payload: the byte 131 and the term. Equal terms have equal payloads."""
    return b"\x83" + _spell(term, MOST_LEVELS)


def _atom(text: bytes) -> str:
    """The atom of a text that came for the first time. Each later one is the same str."""
    atom = text.decode()
    if len(_ATOMS) >= MOST_ATOMS:
        _ATOMS.clear()
    _ATOMS[text] = atom
    return atom


def _many(data: bytes, at: int, count: int) -> Tuple[List[Any], int]:
    """So many terms from an offset on, and the offset after them, which is greater than the data's length if a part of a term is missing.

    The tags of most terms are read here, in the order of how often they come; each call for one would cost as much again."""
    terms: List[Any] = []
    add = terms.append
    for _ in range(count):
        tag = data[at]
        if tag == 119:
            end = at + 2 + data[at + 1]
            text = data[at + 2 : end]
            add(_ATOMS.get(text) or _atom(text))
            at = end
        elif tag == 97:
            add(data[at + 1])
            at += 2
        elif tag == 98:
            add(_INTEGER(data, at + 1)[0])
            at += 5
        elif tag == 109:
            end = at + 5 + _NUMBER(data, at + 1)[0]
            add(data[at + 5 : end])
            at = end
        elif tag == 104:
            inner, at = _many(data, at + 2, data[at + 1])
            add(tuple(inner))
        elif tag == 108:
            inner, at = _many(data, at + 5, _NUMBER(data, at + 1)[0])
            add(inner)
            at += 1
        elif tag == 106:
            add([])
            at += 1
        else:
            term, at = _rare(data, at, tag)
            add(term)
    return terms, at


def _rare(data: bytes, at: int, tag: int) -> Tuple[Any, int]:
    if tag == 107:
        end = at + 3 + int.from_bytes(data[at + 1 : at + 3], "big")
        return list(data[at + 3 : end]), end
    if tag == 110:
        end = at + 3 + data[at + 1]
        magnitude = int.from_bytes(data[at + 3 : end], "little")
        return -magnitude if data[at + 2] else magnitude, end
    if tag == 118:
        end = at + 3 + int.from_bytes(data[at + 1 : at + 3], "big")
        return data[at + 3 : end].decode(), end
    if tag == 105:
        inner, at = _many(data, at + 5, _NUMBER(data, at + 1)[0])
        return tuple(inner), at
    if tag == 116:
        flat, at = _many(data, at + 5, 2 * _NUMBER(data, at + 1)[0])
        return _map(tuple(zip(flat[::2], flat[1::2]))), at
    raise ValueError(f"tag {tag} is not read here")


def _map(pairs: Tuple[Tuple[Any, Any], ...]) -> Union[Dict[Any, Any], Pairs]:
    try:
        return dict(pairs)
    except TypeError:
        return Pairs(pairs)


def decode_part(data: bytes, start: int, end: int) -> Any:
    """The term of a payload that is a part of the data."""
    if data[start : start + 1] != b"\x83":
        raise ValueError("a payload's first byte is 131")
    try:
        terms, at = _many(data, start + 1, 1)
    except (IndexError, struct.error) as error:
        raise ValueError("a payload ends too early") from error
    if at != end:
        raise ValueError("a payload ends too early" if at > end else "a payload has one term")
    return terms[0]


def decode(payload: bytes) -> Any:
    """The term of a payload."""
    return decode_part(bytes(payload), 0, len(payload))
