"""Words that the documents and the comments of .rt files should use less: those of the table in CONTRIBUTING.md, "Write".

Code spans, code blocks and that table itself are not counted. `.ci/words.tsv` has the number of uses of each word, and a greater number fails.
"""

import glob
import os
import re
import subprocess
from typing import Dict, Iterable, List, Optional, Set, Tuple

TOP = os.path.dirname(os.path.dirname(os.path.abspath(__file__)))
NUMBERS = ".ci/words.tsv"
DOCUMENTS = ["*.md", "docs/*.md", "crates/*/README.md", "clients/*/README.md", "clients/*/tabd/README.md"]
SOURCES = ["crates/**/*.rt"]
TABLE = re.compile(r"^\| Instead of \| Write \|\n\|.*\n((?:\|.*\n)+)", re.M)
# A fence with its block, an indented block after an empty line, a span, which may go over the end of a line, and a comment.
CODE = re.compile(r"^ *```.*?^ *```|(?<=\n\n) {4}[^\n]*(?:\n {4}[^\n]*)*|`[^`]*`|<!--.*?-->", re.M | re.S)
# Strings and characters, which may have a `//`, and comments.
COMMENT = re.compile(r'"(?:\\.|[^"\\])*"|\'(?:\\.|[^\'\\])\'|//([^\n]*)', re.S)


def read(path: str) -> str:
    with open(os.path.join(TOP, path), encoding="utf-8") as file:
        return file.read()


def files(patterns: Iterable[str]) -> List[str]:
    paths = {it for pattern in patterns for it in glob.glob(os.path.join(TOP, pattern), recursive=True)}
    return sorted(os.path.relpath(it, TOP) for it in paths if "/out/" not in it)


def blank(found: "re.Match[str]") -> str:
    """As many empty lines, so that those after it keep their numbers."""
    return "\n" * found[0].count("\n")


def prose_of(path: str) -> List[str]:
    """A document without its code, or the comments of a source, line by line."""
    text = read(path)
    if path.endswith(".rt"):
        text = COMMENT.sub(lambda found: blank(found) if found[1] is None else "\0" + found[1], text)
        text = "\n".join(line.partition("\0")[2] for line in text.split("\n"))
    return CODE.sub(blank, TABLE.sub(blank, text)).split("\n")


def listed() -> List[str]:
    """The words of the table."""
    rows = TABLE.search(read("CONTRIBUTING.md"))
    cells = [row.split("|")[1] for row in rows[1].strip().split("\n")] if rows else []
    return [word.strip() for cell in cells for word in cell.split(",")]


def places(words: List[str]) -> Dict[str, List[str]]:
    """The lines that have each word, once for each use."""
    found: Dict[str, List[str]] = {word: [] for word in words}
    one = re.compile(rf"(?<![\w-])({'|'.join(re.escape(it) for it in sorted(words, key=len, reverse=True))})(?![\w-])", re.I)
    for path in files(DOCUMENTS) + files(SOURCES):
        for number, line in enumerate(prose_of(path), 1):
            for word in one.findall(line):
                found[word.lower()].append(f"{path}:{number}")
    return found


def numbers() -> Dict[str, int]:
    if not os.path.exists(os.path.join(TOP, NUMBERS)):
        return {}
    rows = [line.split("\t") for line in read(NUMBERS).split("\n") if line and not line.startswith("#")]
    return {word: int(number) for word, number in rows}


def write(reset: bool) -> None:
    """Lowers the numbers to the current counts; `reset` sets them, and may raise them."""
    old = numbers()
    new = {word: len(lines) if reset else min(len(lines), old.get(word, 0)) for word, lines in places(listed()).items()}
    with open(os.path.join(TOP, NUMBERS), "w", encoding="utf-8") as file:
        file.write("# How often a word is used at most: `.ci/documents.py --write` lowers these numbers.\n")
        file.writelines(f"{word}\t{number}\n" for word, number in new.items())
    print(f"{NUMBERS}: {sum(old.values())} uses before, {sum(new.values())} now")


def added() -> Set[str]:
    """The lines that are new since the numbers were committed; none if git does not know."""
    git = ["git", "-C", TOP]
    since = subprocess.run([*git, "log", "-1", "--format=%H", "--", NUMBERS], capture_output=True, text=True, check=False).stdout.strip()
    if not since:
        return set()
    asked = [*git, "diff", "-U0", "--no-prefix", since, "--", "*.md", "*.rt"]
    lines: Set[str] = set()
    path = ""
    for line in subprocess.run(asked, capture_output=True, text=True, check=False).stdout.split("\n"):
        if line.startswith("+++ "):
            path = line[4:]
        elif found := re.match(r"@@ -\S+ \+(\d+)(?:,(\d+))? @@", line):
            lines |= {f"{path}:{int(found[1]) + at}" for at in range(int(found[2] or 1))}
    return lines


def faults() -> Tuple[int, List[str]]:
    """How many words were counted, and a line for each that is used more often than its number."""
    most, found = numbers(), places(listed())
    fresh: Optional[Set[str]] = None
    risen = []
    for word, lines in found.items():
        more = len(lines) - most.get(word, 0)
        if more > 0:
            fresh = added() if fresh is None else fresh
            where = [it for it in lines if it in fresh] or lines[:5]
            risen.append(f'"{word}" is used {more} times more than {NUMBERS} has: {", ".join(where)} (CONTRIBUTING.md, "Write")')
    return len(found), risen
