#!/usr/bin/env python3
"""Finds each line of the program's crates that returns NoMemory itself, and compares them with the list.

    no_memory.py            compares with no_memory.tsv
    no_memory.py list       prints the lines of the crates, without reasons

A contract lets a call that takes memory return NoMemory, and can't see whether memory was refused: a body that gives up is proved.
So each line that has NoMemory as a value, and doesn't pass on a callee's, has a row in no_memory.tsv with the allocation that was refused
before it, or the reason why it returns so without one. A line that is new, gone or moved to another function fails. Not found: a growth
that no memory can serve, as of the greatest size, and an error that is passed on but was not returned. One line reports each
difference; the last line is `N passed, M failed`, and the status is 1 if one failed.
"""

import collections
import os
import re
import sys
from typing import Counter, Iterator, List, Tuple

HERE = os.path.dirname(os.path.abspath(__file__))
CRATES = os.path.join(HERE, "..", "crates")
LIST = os.path.join(HERE, "no_memory.tsv")

# Crates that the program doesn't stand on.
OTHERS = re.compile(r"_tests$|^tab_test_tools$|^bench$")
# As a value: not as a type's parameter, a parameter's type or a variant's declaration.
VALUE = re.compile(r"(?<!: )\bAllocError\b(?!>)|\bAllocFailed\b(?!<)|::NoMemory\b|\bno_memory\(\)|\bReadError::Memory\b")
# Lines in which the words are no values.
SKIPPED = re.compile(r"\s*(use|pub use|ghost|ensures|requires|impl|#\[)\b")
# What brings the words in under another name, or without their type's.
HIDDEN = re.compile(r"\buse\b.*(\b(AllocError|AllocFailed|NoMemory) as\b|::\{?[^;]*\bNoMemory\b|(Reply|Fault|Ended|ReadError)::(\*|\{))")
FUNCTION = re.compile(r"\bfn (\w+)")
# A file, a function and a line's text.
Place = Tuple[str, ...]


def code_of(line: str) -> str:
    """The line without its comment, and without what stands before an arm's arrow: patterns are no values."""
    return line.split("//")[0].rsplit("=>", 1)[-1]


def places_in(path: str) -> Iterator[Tuple[str, str]]:
    """The function and the text of each line that has the answer as a value."""
    function = ""
    with open(path, encoding="utf-8") as file:
        for line in file:
            if found := FUNCTION.search(line):
                function = found[1]
            is_hidden = HIDDEN.search(line) and not line.lstrip().startswith("ghost")
            if is_hidden or (not SKIPPED.match(line) and VALUE.search(code_of(line)) and not line.lstrip().startswith(("fn", "pub fn"))):
                yield function, " ".join(line.split())


def places() -> Counter[Place]:
    """How often each file, function and text stands there."""
    found: Counter[Place] = collections.Counter()
    for crate in sorted(os.listdir(CRATES)):
        for folder, _, names in sorted(os.walk(os.path.join(CRATES, crate, "src"))):
            for name in sorted(names) if not OTHERS.search(crate) else ():
                path = os.path.join(folder, name)
                for function, text in places_in(path) if name.endswith(".rt") else ():
                    found[os.path.relpath(path, CRATES), function, text] += 1
    return found


def listed() -> Tuple[Counter[Place], List[str]]:
    """The same of the list. Each row has its reason."""
    rows: Counter[Place] = collections.Counter()
    faults: List[str] = []
    with open(LIST, encoding="utf-8") as file:
        for number, line in enumerate(file, 1):
            if not line.strip() or line.startswith("#"):
                continue
            row = line.rstrip("\n").split("\t")
            if len(row) != 5 or not row[4].strip():
                faults.append(f"no_memory.tsv:{number}: a row has a file, a function, a text, a count and a reason")
            else:
                rows[tuple(row[:3])] += int(row[3])
    return rows, faults


def main() -> None:
    found = places()
    if sys.argv[1:] == ["list"]:
        for place, count in found.items():
            print(*place, count, sep="\t")
        return
    if sys.argv[1:]:
        sys.exit(__doc__)
    rows, faults = listed()
    for place in sorted(found | rows):
        if found[place] != rows[place]:
            faults.append(f"{': '.join(place)}: {found[place]} times, and in no_memory.tsv {rows[place]} times")
    for fault in faults:
        print(fault)
    print(f"{sum((found & rows).values())} passed, {len(faults)} failed")
    sys.exit(1 if faults else 0)


main()
