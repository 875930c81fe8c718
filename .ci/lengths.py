"""The lengths of documents: a sentence has at most 30 words, README.md fewer than 90 lines, docs/PROOF.md fewer than 200, and all documents
together have at most 30,000 words, those of the clients included. A word has a letter or a digit: a table's bars and a list's dashes are none.
"""

import re
from typing import Iterator, List, Tuple

import words

SENTENCE_WORDS, ALL_WORDS, LINES = 30, 30_000, {"README.md": 89, "docs/PROOF.md": 199}
WORD = re.compile(r"\S*\w\S*")
SPAN = re.compile(r"`[^`\n]+`")
# The target of a link, a paragraph or an item of a list, and the end of a sentence in it.
TARGET = re.compile(r"\]\([^)]*\)")
BLOCK = re.compile(r"\n\s*\n|\n(?=\s*(?:[-#|]|\d+\.) )")
END = re.compile(r"(?<=[.?!:])(?:\*\*)?\s+")


def sentences(text: str) -> Iterator[str]:
    """The sentences outside of code and tables, each code span being one word."""
    prose = words.CODE.sub(words.blank, TARGET.sub("", SPAN.sub("X", words.TABLE.sub(words.blank, text))))
    for block in BLOCK.split(prose):
        if not block.lstrip().startswith("|"):
            yield from (" ".join(sentence.split()) for sentence in END.split(block))


def faults() -> Tuple[int, List[str]]:
    """How many lengths were checked, and a line for each that is too long."""
    found, count, size = [], 1, 0
    for path in words.files(words.DOCUMENTS):
        text = words.read(path)
        size += len(WORD.findall(text))
        for sentence in sentences(text):
            count, length = count + 1, len(WORD.findall(sentence))
            if length > SENTENCE_WORDS:
                found.append(f"{path}: a sentence has {length} words: {sentence}")
        if text.count("\n") > LINES.get(path, text.count("\n")):
            found.append(f"{path}: more than {LINES[path]} lines")
    if size > ALL_WORDS:
        found.append(f"all documents have {size} words, and {ALL_WORDS} is the most")
    return count, found
