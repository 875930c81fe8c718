# SPDX-License-Identifier: Apache-2.0
"""Terms as text, in Erlang's syntax.

    abc 'any text' _           atoms; a bare `_` is the atom '_', as a pattern has it
    7 -7 1_000 16#ff $a        integers; `$a` is the code of the character
    {a, 1} [a, 1] #{a => 1}    a tuple, a list, a map
    <<"text">> <<1, 2>> <<>>   binaries; text with characters over 127 is written <<"text"/utf8>>
    "ab"                       the list of the characters' codes, [97,98]

In quotes a backslash begins `\\n`, `\\r`, `\\t`, `\\0`, `\\e`, `\\s`, `\\xHH` and `\\x{H..}`, or escapes the character after it. A name
that begins with a capital is a variable in Erlang, so it is refused. tabd has no floats.

`show` writes a text that `parse` reads back as the same term. A list of integers is never written as a string, since both are the same
term. A binary that is printable text is written as text.
"""

from __future__ import annotations

import base64
import re
from typing import Any, Dict, List, Tuple

from ..terms import Pairs

SPACE = re.compile(r"(?:\s|%[^\n]*)*")
ATOM = re.compile(r"[a-zß-öø-ÿ][\w@]*")
INTEGER = re.compile(r"[+-]?(?:(\d+)#([0-9a-zA-Z]+(?:_[0-9a-zA-Z]+)*)|\d+(?:_\d+)*)")
ESCAPES = {"n": "\n", "r": "\r", "t": "\t", "0": "\0", "e": "\x1b", "s": " ", "b": "\b", "f": "\f", "v": "\v", "d": "\x7f"}
HEXADECIMAL = re.compile(r"x\{([0-9a-fA-F]+)\}|x([0-9a-fA-F]{2})")
BARE = re.compile(r"[a-z][A-Za-z0-9_@]*\Z")
# Erlang's reserved words, which are atoms only in quotes.
RESERVED = frozenset(
    "after and andalso band begin bnot bor bsl bsr bxor case catch cond div else end fun if let maybe not of or orelse receive rem try".split()
    + ["when", "xor"]
)


class Fault(ValueError):
    """A text that is no term; the message has the column."""


class _Parser:
    def __init__(self, text: str) -> None:
        self.text, self.at = text, 0

    def fault(self, why: str) -> Fault:
        return Fault(f"{self.text!r:.100} is no term: at character {self.at + 1}: {why}")

    def skip(self) -> None:
        found = SPACE.match(self.text, self.at)
        assert found is not None
        self.at = found.end()

    def take(self, word: str) -> bool:
        """Whether `word` comes next; if so, it is consumed."""
        self.skip()
        if not self.text.startswith(word, self.at):
            return False
        self.at += len(word)
        return True

    def want(self, word: str) -> None:
        if not self.take(word):
            raise self.fault(f"{word} is missing")

    def term(self) -> Any:
        self.skip()
        if self.take("{"):
            return tuple(self.many("}"))
        if self.take("["):
            return self.many("]")
        if self.take("#{"):
            return self.map()
        if self.take("<<"):
            return self.binary()
        if self.take("'"):
            return self.quoted("'")
        if self.take('"'):
            return [ord(letter) for letter in self.quoted('"')]
        if self.take("$"):
            return ord(self.letter())
        return self.word()

    def word(self) -> Any:
        """An integer or an atom without quotes."""
        found = INTEGER.match(self.text, self.at)
        if found is not None:
            if self.text[found.end() : found.end() + 2].strip("0123456789") == ".":
                raise self.fault("there are no floats")
            value = self.integer(found)
            self.at = found.end()
            return value
        found = ATOM.match(self.text, self.at)
        if found is not None:
            if found.group() in RESERVED:
                raise self.fault(f"{found.group()} is a reserved word of Erlang: write it in single quotes")
            self.at = found.end()
            return found.group()
        if re.match(r"_(?!\w)", self.text[self.at :]):
            self.at += 1
            return "_"
        if self.text[self.at : self.at + 1].isalpha() or self.text.startswith("_", self.at):
            raise self.fault("a name that begins so is a variable in Erlang: write an atom in single quotes")
        raise self.fault("a term is missing" if self.at >= len(self.text) else "no term begins so")

    def integer(self, found: "re.Match[str]") -> int:
        if found.group(1) is None:
            return int(found.group().replace("_", ""))
        base = int(found.group(1))
        try:
            if not 2 <= base <= 36:
                raise ValueError
            value = int(found.group(2).replace("_", ""), base)
        except ValueError:
            raise self.fault("no number is written so") from None
        return -value if found.group().startswith("-") else value

    def many(self, end: str) -> List[Any]:
        terms: List[Any] = []
        if self.take(end):
            return terms
        while True:
            terms.append(self.term())
            if self.take(end):
                return terms
            if self.take("|"):
                raise self.fault("there are no lists with another tail than []")
            if not self.take(","):
                raise self.fault(f", or {end} is missing")

    def map(self) -> Any:
        pairs: List[Tuple[Any, Any]] = []
        while not self.take("}"):
            if pairs:
                self.want(",")
            key = self.term()
            self.want("=>")
            pairs.append((key, self.term()))
        try:
            found: Dict[Any, Any] = dict(pairs)
        except TypeError:
            return Pairs(tuple(pairs))
        if len(found) < len(pairs):
            raise self.fault("a key of the map occurs twice")
        return found

    def binary(self) -> bytes:
        parts: List[bytes] = []
        while not self.take(">>"):
            if parts:
                self.want(",")
            parts.append(self.segment())
        return b"".join(parts)

    def segment(self) -> bytes:
        if self.take('"'):
            text = self.quoted('"')
            if self.take("/utf8"):
                return text.encode()
            if text.isascii():
                return text.encode()
            raise self.fault('text with such characters is written <<"text"/utf8>>')
        self.skip()
        found = INTEGER.match(self.text, self.at)
        if found is None:
            raise self.fault("a byte or a text is missing")
        value = self.integer(found)
        if not 0 <= value < 256:
            raise self.fault("a byte is from 0 to 255")
        self.at = found.end()
        return bytes([value])

    def quoted(self, end: str) -> str:
        letters: List[str] = []
        while not self.text.startswith(end, self.at):
            letters.append(self.letter())
        self.at += 1
        return "".join(letters)

    def letter(self) -> str:
        """One character, possibly an escape sequence."""
        letter = self.text[self.at : self.at + 1]
        if not letter:
            raise self.fault("the quote doesn't end")
        self.at += 1
        if letter != "\\":
            return letter
        found = HEXADECIMAL.match(self.text, self.at)
        if found is not None:
            self.at = found.end()
            code = int(found.group(1) or found.group(2), 16)
            if code > 0x10FFFF:
                raise self.fault("there is no such character")
            return chr(code)
        letter = self.text[self.at : self.at + 1]
        self.at += 1
        return ESCAPES.get(letter, letter)


def parse(text: str) -> Any:
    """The term of a text, or `Fault`."""
    parser = _Parser(text)
    term = parser.term()
    parser.skip()
    if parser.at < len(text):
        raise parser.fault("there is text after the term")
    return term


_SPELLED = {"\n": "\\n", "\r": "\\r", "\t": "\\t", "\\": "\\\\"}


def _quoted(text: str, quote: str) -> str:
    spelled = (
        "\\" + letter if letter == quote else _SPELLED.get(letter, letter if letter.isprintable() else f"\\x{{{ord(letter):X}}}")
        for letter in text
    )
    return quote + "".join(spelled) + quote


def show_atom(atom: str) -> str:
    return atom if BARE.match(atom) and atom not in RESERVED else _quoted(atom, "'")


def _show_binary(data: bytes) -> str:
    try:
        text = data.decode()
    except UnicodeDecodeError:
        text = "\0"
    if data and all(letter.isprintable() or letter in "\n\r\t" for letter in text):
        return f"<<{_quoted(text, chr(34))}{'' if text.isascii() else '/utf8'}>>"
    return f"<<{','.join(map(str, data))}>>"


def _pairs(term: Any) -> List[Tuple[Any, Any]]:
    return list(term.pairs if isinstance(term, Pairs) else term.items())


def show(term: Any) -> str:
    """The text of a term, on one line."""
    if isinstance(term, str):
        return show_atom(term)
    if isinstance(term, bytes):
        return _show_binary(term)
    if isinstance(term, tuple):
        return f"{{{','.join(map(show, term))}}}"
    if isinstance(term, list):
        return f"[{','.join(map(show, term))}]"
    if isinstance(term, (dict, Pairs)):
        return "#{" + ",".join(f"{show(key)} => {show(value)}" for key, value in _pairs(term)) + "}"
    return str(term)


def plain(term: Any) -> Any:
    """What `json.dumps` writes for a term, with nothing lost: an atom as a string, an integer as a number, a list as an array, and all else
    as an object of one name: {"tuple": [..]}, {"binary": "text"}, {"base64": "bytes that are no UTF-8"}, {"map": [[key, value], ..]}."""
    if isinstance(term, bytes):
        try:
            return {"binary": term.decode()}
        except UnicodeDecodeError:
            return {"base64": base64.b64encode(term).decode()}
    if isinstance(term, tuple):
        return {"tuple": [plain(element) for element in term]}
    if isinstance(term, list):
        return [plain(element) for element in term]
    if isinstance(term, (dict, Pairs)):
        return {"map": [[plain(key), plain(value)] for key, value in _pairs(term)]}
    return term
