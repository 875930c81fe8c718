"""Terms as Erlang writes them, and as documents and the scripts of this folder have them."""

import pathlib
import re
from typing import Any, Dict, Iterator, List, Sequence, Tuple

from tests.lib.wire import Term

TOKEN = re.compile(r"<<|>>|[{}\[\],]|-?\d+|[a-z][\w@]*|'[^']*'|\"[^\"]*\"")
CLOSED: Dict[str, Tuple[str, Any]] = {"{": ("}", tuple), "[": ("]", list), "<<": (">>", bytes)}
# A session or connection, its request and the reply.
Step = Tuple[int, Term, Term]


def terms_of(text: str) -> Iterator[Term]:
    """The terms of a text, one after another, with any spaces and lines between them; a text in double quotes is a name."""
    tokens = iter(TOKEN.findall(text))

    def term(token: str) -> Term:
        if token not in CLOSED:
            return int(token) if token.lstrip("-").isdigit() else token.strip("'\"")
        end, kind = CLOSED[token]
        return kind([term(it) for it in iter(tokens.__next__, end) if it != ","])

    return map(term, tokens)


def text_of(name: str) -> str:
    """The text of a file in this folder."""
    return (pathlib.Path(__file__).parent / name).read_text(encoding="utf-8")


def columns_of(name: str) -> Iterator[List[str]]:
    """The columns of each row of a file, which are separated by tabs; `#` begins a comment."""
    return (line.split("\t") for line in text_of(name).splitlines() if line and not line.startswith("#"))


def parts_of(name: str) -> Iterator[List[Term]]:
    """The terms of each part of a file: an empty line ends a part, and `%` begins a comment."""
    for part in re.sub(" *%.*\n", "", text_of(name)).strip().split("\n\n"):
        yield list(terms_of(part))


def rows_of(terms: Sequence[Term], width: int = 3) -> List[Any]:
    """So many terms in each row: three are a step."""
    return [tuple(terms[first : first + width]) for first in range(0, len(terms), width)]


class Cases:
    """Those of a file, whose last part has a row of so many terms for each; the parts before it are steps, each with its name."""

    def __init__(self, name: str, width: int) -> None:
        *parts, (_, *rows) = parts_of(name)
        self.rows = rows_of(rows, width)
        self.steps: Dict[str, List[Step]] = {part: rows_of(terms) for part, *terms in parts}

    def joined(self, names: List[str]) -> List[Step]:
        return [step for name in names for step in self.steps[name]]
