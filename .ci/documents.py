#!/usr/bin/env python3
"""Checks that the names in documents exist, and that the built program replies with the bytes that docs/PROTOCOL.md prints.

    documents.py PROGRAM
    documents.py --write | --reset

Of the documents at the top, docs/*.md and the README.md of crates and clients: each file that is named in backticks or by a link is in the
repository; so is each section that is named with its document, and each crate, function, type and definition (`Type::function` in
an `impl` of that type, in a table's row that names one file in that file, and in a crate's README.md as a word of its code,
or of tab_model's or tab_proto's); each `--option` is in the program's help, in that of `rt`, in tests/conftest.py, in the text of a
script that the same line names, or, on the page of tabd-cli, in its sources. Each file of definitions has a comment, and each crate a
README.md. The frames of docs/PROTOCOL.md, "Bytes", are sent as printed, and are the encoding of the terms next to them. A line has one
sentence and at most 160 columns, and a table's cell at most 120 characters, except in tables that a program writes. `.ci/lengths.py` has the
lengths of sentences and of documents. One line reports each fault; the last line is `N passed, M failed`, and the status is 1 if one failed.
It takes some seconds.

No word of the table in CONTRIBUTING.md, "Write", is used more often than .ci/words.tsv allows. `--write` lowers its numbers to the current
counts, and `--reset` sets them.
"""

import glob
import os
import re
import socket
import subprocess
import sys
from typing import Dict, Iterable, Iterator, List, Optional, Sequence, Set, Tuple

HERE = os.path.dirname(os.path.abspath(__file__))
TOP = os.path.dirname(HERE)
sys.path.insert(0, TOP)
import words  # noqa: E402
from tests.lib.notation import terms_of  # noqa: E402
from tests.lib.wire import frame, frames_of, spell, term_of  # noqa: E402
from words import DOCUMENTS  # noqa: E402
from lengths import faults as long_parts  # noqa: E402

# Names in documents that the repository doesn't have, with the reason.
ELSEWHERE = {
    "crates/tabd/out/tabd": "the program, once it is built",
    "path/to/tabd": "the same, for a client's reader",
    "out/": "the results of a check",
    "BUILD.bazel": "a file that rt new writes",
    "WHAT_IT_DOES.edit": "a placeholder",
    "F/float": "a segment of a binary",
    "Vec::push_reserved": "a function of the kit",
    "anyhow": "a crate of the kit",
    "crossbeam_channel": "a crate of the kit",
}
# Documents whose names are not of this repository's code: atoms of the protocol, which have to be in the code, or functions of Mnesia, which
# don't.
PROTOCOL, MNESIA = "docs/PROTOCOL.md", "docs/MNESIA.md"
# Programs of which an option is if the program is before it in a line.
OTHERS = ("erlc", "dialyzer", "pip", "mypy", "redis-server", "apt-get")
# The file that has the options of the tests.
TESTS = "tests/conftest.py"
# A page of tabd-cli, whose options are in this folder.
OPERATING, CLI = "docs/OPERATING.md", "clients/python/tabd/cli/"
# Crates whose names every section of a crate may use: definitions and commands.
SHARED = ("tab_model", "tab_proto")

SPAN = re.compile(r"`([^`\n]+)`")
LINK = re.compile(r"\]\(([^)#:\s]+)\)")
FENCE = re.compile(r"^```.*?^```", re.M | re.S)
WORD = re.compile(r"[^\W\d]\w*")
OPTION = re.compile(r"(?<![\w-])--[a-z][a-z-]*")
PATH = re.compile(r"[\w.*-]*(?:/[\w.*-]+)+/?|[\w.-]+/|[\w*-]+\.(?:py|rt|md|tsv|txt|erl|edit|escript|c|bazel)(?!\w)")
# An address, or a path that begins at the root or at home, is no file of the repository.
OUTSIDE = re.compile(r"\w+://\S+|(?<![\w.*-])~?/[\w./-]+")
ARITY = re.compile(r"\w+/\d(,\d)*")
NAME = re.compile(r"[^\W\d]\w*(::[^\W\d]\w*)?")
README = re.compile(r"crates/(\w+)/README\.md")
# The longest line outside tables, the longest cell of a table, the end of a sentence in a line that goes on, and what a list's item or a
# heading begins with.
COLUMNS, CELL = 160, 120
SENTENCE = re.compile(r'[.?!] +["(\[]?[A-Z]')
LABEL = re.compile(r"[#\s]*(\d+\. |- )?")
# A table that a program writes.
WRITTEN = re.compile(r"^<!-- .*?^<!-- end -->", re.M | re.S)
# `docs/PROTOCOL.md, "Events"`: a document and the beginning of a heading in it.
HEADING = re.compile(r'(?:docs/)?(\w+\.md)[`)]?,\s"([^"]+)"')
COMMENT = {".rt": re.compile(r"//.*"), ".antt": re.compile(r"--.*"), ".py": re.compile(r"^\s*#.*", re.M), ".erl": re.compile(r"%.*")}
TYPE = re.compile(r"(?:pub(?:\(crate\))? )?(?:struct|enum|trait|record) (\w+)")
MEMBER = re.compile(r"(?:  ){1,2}(?:pub(?:\(crate\))? )?(?:const )?(?:fn )?(\w+)")
ESCAPE = re.compile(r"\\x[0-9a-f]{2}")
BYTES = re.compile(r"[0-9A-F]{8}(?: [0-9A-F]+)*")
FRAME = re.compile(rf"    ([<>]) (.*?)(?:\s+({BYTES.pattern}))?")
JOINS = re.compile(r"    \((\d+) to (\d+) join in the same way\)")


def read_text(path: str) -> str:
    with open(os.path.join(TOP, path), encoding="utf-8") as file:
        return file.read()


class Tree:
    """The repository's files, the words of each crate's or folder's code, and the functions of each type."""

    def __init__(self) -> None:
        self.files: Set[str] = set()
        self.words: Dict[str, Set[str]] = {}
        self.owned: Dict[str, Set[str]] = {}
        self.texts: Dict[str, str] = {}
        for folder, below, names in os.walk(TOP):
            below[:] = [it for it in below if it not in (".git", "out", "__pycache__") and not it.endswith("_cache")]
            self.files |= {os.path.relpath(os.path.join(folder, name), TOP) for name in names}
        for path in self.files:
            self.add(path)
        self.all: Set[str] = set().union(*self.words.values())

    def add(self, path: str) -> None:
        parts, (stem, ending) = path.split(os.sep), os.path.splitext(os.path.basename(path))
        words = self.words.setdefault(parts[1] if parts[0] == "crates" and len(parts) > 2 else parts[0], set())
        # A module of specs or proofs is named as its file, an edit too.
        words |= {stem, *parts[:-1]}
        if ending in (*COMMENT, ".edit", ".escript") or parts[0] == ".ci":
            text = self.texts[path] = read_text(path)
            if ending in COMMENT:
                text = COMMENT[ending].sub("", text)
            if path != os.path.relpath(__file__, TOP):
                words |= set(WORD.findall(ESCAPE.sub(" ", text)))
            if ending in (".rt", ".antt"):
                self.own(text)

    def own(self, text: str) -> None:
        """Functions, variants and fields are indented by one step, under the head of their type."""
        owner = None
        for line in text.split("\n"):
            if line.startswith("impl") or TYPE.match(line):
                owner = owner_of(line)
            elif owner and (found := MEMBER.match(line)):
                self.owned.setdefault(owner, set()).add(found[1])

    def has(self, path: str, document: str) -> bool:
        """Whether a path is below the top, the crates, or the document's own folder; a definition's path has no ending."""
        place = re.sub(r"\b[A-Z_]{2,}\b", "*", path).rstrip("/")
        for base in ("", "crates", "crates/*", "crates/*/src", "clients/*", "clients/erlang/tabd", os.path.dirname(document)):
            if any(glob.glob(os.path.join(TOP, base, place + ending)) for ending in ("", ".antt", ".rt")):
                return True
        return False


def owner_of(head: str) -> Optional[str]:
    """The type of an impl's first line, without the parameters of either, or of its own definition."""
    if found := TYPE.match(head):
        return found[1]
    while head != (bare := re.sub(r"<[^<>]*>", "", head.replace("->", ""))):
        head = bare
    found = re.match(r"impl (?:.* for )?&?(?:mut )?(\w+)", head)
    return found[1] if found else None


class Document:
    def __init__(self, path: str, tree: Tree) -> None:
        self.path, self.tree, self.count = path, tree, 0
        self.faults: List[str] = []
        self.text = read_text(path)

    def check(self, right: object, what: str) -> None:
        self.count += 1
        if not right:
            self.faults.append(f"{self.path}: {what}")

    def names(self) -> None:
        crate = README.fullmatch(self.path)
        for line in FENCE.sub("", self.text).split("\n"):
            for path in LINK.findall(line):
                self.check(self.tree.has(path, self.path), f"no file {path}")
            spans = SPAN.findall(line)
            files = [it for it in spans if line.startswith("|") and it.endswith(".rt") and self.tree.has(it, self.path)]
            crates = set() if not crate else {crate[1]} | {it for it in self.tree.words if re.search(rf"\b{re.escape(it)}\b", line)}
            for span in spans:
                self.span(span, crates, files)

    def span(self, span: str, crates: Set[str], files: List[str]) -> None:
        if span in ELSEWHERE:
            return
        if self.path == MNESIA and ARITY.fullmatch(span):
            return
        if NAME.fullmatch(span) and not PATH.fullmatch(span):
            return self.name(span, crates, files)
        for path in PATH.findall(OUTSIDE.sub("", span)):
            if path not in ELSEWHERE and not ARITY.fullmatch(path):
                self.check(self.tree.has(path, self.path), f"no file {path}")
        if self.path == PROTOCOL:
            for word in re.findall(r"(?<![\w.])[a-z_]\w+", OPTION.sub("", PATH.sub("", span))):
                self.check(word in self.tree.all, f"no word {word}")

    def name(self, name: str, crates: Set[str], files: List[str]) -> None:
        """A type's function in its type; another name in the row's one file, or in the crates that the line may speak of."""
        if self.path == MNESIA or self.path == PROTOCOL and name[0].isupper():
            return
        owner, _, last = name.rpartition("::")
        if owner:
            self.check(last in self.tree.owned.get(owner, ()), f"no {name}")
        if len(files) == 1:
            texts = [self.tree.texts[it] for it in self.tree.texts if it.endswith("/" + files[0])]
            self.check(any(re.search(rf"\bfn {last}\b", text) for text in texts), f"no {name} in {files[0]}")
        elif not owner:
            places: Iterable[str] = {*crates, *SHARED} if crates else self.tree.words
            self.check(name in self.tree.words or any(name in self.tree.words.get(it, ()) for it in places), f"no name {name}")

    def layout(self) -> None:
        lines = WRITTEN.sub(words.blank, self.text).split("\n")
        for number, (line, prose) in enumerate(zip(lines, words.prose_of(self.path)), 1):
            if line.lstrip().startswith("|"):
                cells = [cell.strip() for cell in re.split(r"(?<!\\)\|", line)]
                self.check(max(map(len, cells)) <= CELL, f"line {number} has a cell of more than {CELL} characters")
            elif line and prose.strip():
                self.check(len(line) <= COLUMNS, f"line {number} has more than {COLUMNS} columns")
                text = LABEL.sub("", SPAN.sub("X", line), count=1)
                self.check(not SENTENCE.search(text), f"line {number} has more than one sentence")

    def headings(self) -> None:
        for name, head in HEADING.findall(self.text):
            path = next((it for it in (f"docs/{name}", name) if it in self.tree.files), None)
            self.check(path and f"\n## {' '.join(head.split())}" in read_text(path), f"no section {head!r} in {name}")

    def options(self, program: str, rt: Optional[str]) -> None:
        if self.path == OPERATING:
            program += "".join(text for path, text in self.tree.texts.items() if path.startswith(CLI))
        for line in self.text.split("\n"):
            for found in OPTION.finditer(line):
                option, before = found[0], line[: found.start()]
                if any(re.search(rf"\b{other}\b", before) for other in OTHERS):
                    continue
                scripts = [text for path, text in self.tree.texts.items() if os.path.basename(path) in re.findall(r"[\w.]+", before)]
                own = before.rpartition("`")[2] if before.count("`") % 2 else before
                of_rt = rt is None or re.search(rf"{option}\b", rt)
                known = option in program or any(option in text for text in (*scripts, self.tree.texts[TESTS])) or "rt " in own and of_rt
                self.check(known, f"no option {option}")


def unexplained(tree: Tree) -> List[str]:
    """The files of definitions that have no comment, which docs/MAP.md, "Definitions", lists."""
    files = sorted(it for it in tree.files if re.fullmatch(r"crates/\w+/specs/(?!Lib)\w+\.antt", it))
    return [it for it in files if not re.search(r"^--", tree.texts[it], re.M)]


def pageless(tree: Tree) -> List[str]:
    """The crates without a README.md."""
    crates = re.findall(r"^(\w+):", read_text("crates.txt"), re.M)
    return [it for it in crates if os.path.join("crates", it, "README.md") not in tree.files]


def text_of(words: Sequence[str]) -> Optional[str]:
    """A program's output; None if the program is not installed."""
    try:
        return subprocess.run(words, stdout=subprocess.PIPE, stderr=subprocess.STDOUT, text=True, check=False).stdout
    except OSError:
        return None


class Listing:
    """Frames of requests and replies, from a first one on, and the terms next to them."""

    def __init__(self, lines: Iterable[str]) -> None:
        self.asked: List[bytes] = []
        self.told: List[bytes] = []
        self.terms: List[Tuple[str, bytes]] = []
        for line in lines:
            if joins := JOINS.fullmatch(line):
                for session in range(int(joins[1]), int(joins[2]) + 1):
                    self.asked.append(frame((session, "join")))
                    self.told.append(frame((session, "ok")))
            elif found := FRAME.fullmatch(line):
                side, text, digits = found.groups()
                data = bytes.fromhex(digits)
                (self.asked if side == ">" else self.told).append(data)
                self.terms.append((text, data))
            else:
                raise ValueError(f"no frame: {line}")

    def is_served(self) -> bool:
        return self.told[0][5:].startswith(spell(("reply", "ok"))[:9])


def listings(text: str) -> Iterator[Listing]:
    """The page's blocks whose lines have frames. Bytes that don't fit next to their term are on the next line."""
    text = re.sub(rf"\n +(?={BYTES.pattern}$)", "  ", text, flags=re.M)
    for block in re.findall(r"(?:^    .*\n)+", text, re.M):
        if BYTES.search(block):
            yield Listing(block.rstrip("\n").split("\n"))


def served(program: str, listing: Listing) -> List[bytes]:
    """The frames that a connection receives: replies, and events between them, in no order relative to them."""
    server = subprocess.Popen([program, "serve", "--port", "0", "--connections", "1"], stdout=subprocess.PIPE)
    assert server.stdout
    try:
        port = int(server.stdout.readline().rsplit(b":", 1)[1])
        with socket.create_connection(("127.0.0.1", port), 10) as connection:
            connection.sendall(b"".join(listing.asked))
            connection.shutdown(socket.SHUT_WR)
            return frames_of(b"".join(iter(lambda: connection.recv(65_536), b"")))[0]
    finally:
        server.kill()
        server.wait()


def replayed(program: str, given: bytes) -> List[bytes]:
    return frames_of(subprocess.run([program, "replay"], input=given, capture_output=True, check=False).stdout)[0]


def parted(frames: List[bytes]) -> Tuple[List[bytes], List[bytes]]:
    """Replies, and other frames."""
    replies = [it for it in frames if it[5:].startswith(spell(("reply", "ok"))[:9])]
    return replies, [it for it in frames if it not in replies]


def listing_faults(program: str, listing: Listing) -> Iterator[str]:
    for text, data in listing.terms:
        its = bytes(4) if text == "an empty payload" else frame(next(terms_of(text)))
        if data != its:
            yield f"{text}: its bytes are {its.hex()}"
    told = served(program, listing) if listing.is_served() else replayed(program, b"".join(listing.asked))
    pairs = [(told, listing.told)]
    if listing.is_served():
        pairs = list(zip(parted(told), parted(listing.told)))
    for found, wanted in pairs:
        if found != wanted:
            at = next((at for at, pair in enumerate(zip(found, wanted)) if pair[0] != pair[1]), min(len(found), len(wanted)))
            shown = [term_of(it[at]) if at < len(it) else None for it in (found, wanted)]
            yield f"frame {at + 1}: the program sends {shown[0]} ({found[at].hex() if at < len(found) else ''}), the page has {shown[1]}"


def term_faults(program: str, text: str) -> Iterator[str]:
    """The table of single terms: the reply to an abort with each as its reason has the bytes of the table."""
    rows = re.findall(r"^\| (`[^|]*` \| `[0-9A-F ]+` \|.*)$", text, re.M)
    cells = [cell for row in rows for cell in re.findall(r"`([^`]*)`", row)]
    terms = [(term, bytes.fromhex(digits)) for term, digits in zip(cells[::2], cells[1::2])]
    asked = [frame((1, "join"))]
    for _, data in terms:
        payload = b"\x83" + spell((1, ("abort", 0)))[:-2] + data
        asked += [frame((1, "begin")), len(payload).to_bytes(4, "big") + payload]
    for (term, data), told in zip(terms, replayed(program, b"".join(asked))[2::2]):
        its = spell(next(terms_of(term)))
        if its != data or not told.endswith(spell((1, ("aborted", 0)))[:-2] + data):
            yield f"{term}: the program writes {told.hex()}, and its bytes are {its.hex()}"


def main() -> None:
    if len(sys.argv) != 2:
        sys.exit(__doc__)
    if sys.argv[1] in ("--write", "--reset"):
        return words.write(reset=sys.argv[1] == "--reset")
    program, tree = os.path.abspath(sys.argv[1]), Tree()
    commands: List[List[str]] = [[], ["serve"], ["replay"]]
    helps = "".join(text_of([program, *it, "--help"]) or "" for it in commands) + "--help --version"
    rt, count = text_of(["rt", "help"]), 0
    faults = [f"{it}: no comment says what it defines" for it in unexplained(tree)]
    faults += [f"{it}: the crate has no README.md" for it in pageless(tree)]
    for path in sorted(os.path.relpath(it, TOP) for pattern in DOCUMENTS for it in glob.glob(os.path.join(TOP, pattern))):
        document = Document(path, tree)
        document.names()
        document.headings()
        document.layout()
        document.options(helps, rt)
        faults += document.faults
        count += document.count
        if path == PROTOCOL:
            pages = list(listings(document.text))
            for listing in pages:
                faults += [f"{path}: {it}" for it in listing_faults(program, listing)]
            faults += [f"{path}: {it}" for it in term_faults(program, document.text)]
            count += sum(len(it.terms) for it in pages)
    for counted, more in (words.faults(), long_parts()):
        faults, count = faults + more, count + counted
    for fault in faults:
        print(fault)
    print(f"{count - len(faults)} passed, {len(faults)} failed")
    sys.exit(1 if faults or not count else 0)


if __name__ == "__main__":
    main()
