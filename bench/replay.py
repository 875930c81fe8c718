#!/usr/bin/env python3
"""What an operation costs through `tabd replay`, with Python's standard library alone.

    replay.py PROGRAM            as replay.py crates/tabd/out/tabd
    replay.py PROGRAM COUNT      so many operations, 50,000 where it is not given: 65,000 at most

Each row is a table of so many records, `{t, Key, Key}`, which so many other sessions watch at a level and whose items no one
takes, and operations of one session, so many in a transaction. A line has the processor time of an operation in microseconds,
frames in and out included, and of a transaction's begin and commit its share: the median of three pairs of runs, one of a
stream that fills the table, and one of the same stream with the operations behind it. Other work on the machine moves it by
half and more. A run over a million records holds its stream in a file of 50 MB.
"""

import os
import statistics
import subprocess
import sys
import tempfile
from typing import Iterable, Iterator, Optional

HERE = os.path.dirname(os.path.abspath(__file__))
sys.path.insert(0, os.path.join(HERE, ".."))
from tests.lib.wire import Term, frame  # noqa: E402

OUTBOX = 65_536

# The operation, how many stand in a transaction, the records, and who watches.
ROWS = [
    ("write", 1, 1_000, 0, None),
    ("write", 1, 100_000, 0, None),
    ("write", 1, 1_000_000, 0, None),
    ("write", 100, 1_000, 0, None),
    ("read", 100, 1_000, 0, None),
    ("write", 1, 1_000, 1, "simple"),
    ("write", 1, 1_000, 8, "simple"),
    ("write", 1, 1_000, 63, "simple"),
    ("write", 1, 1_000, 1, "detailed"),
    ("write", 1, 1_000, 8, "detailed"),
    ("write", 1, 1_000, 63, "detailed"),
]


def transactions(operations: Iterable[Term], size: int) -> Iterator[bytes]:
    """The frames of the first session's transactions of so many operations each."""
    frames = [frame((1, operation)) for operation in operations]
    begin, commit = frame((1, "begin")), frame((1, "commit"))
    for at in range(0, len(frames), size):
        yield begin + b"".join(frames[at : at + size]) + commit


def filled(records: int, watching: int, level: Optional[str]) -> Iterator[bytes]:
    """A table of so many records, and then sessions that watch it."""
    yield frame((1, "join")) + frame((1, ("create_table", "t", [])))
    yield from transactions([("write", ("t", key, key)) for key in range(records)], 1_000)
    for session in range(2, watching + 2):
        yield frame((session, "join")) + frame((session, ("subscribe", ("table", "t", level))))


def seconds(program: str, stream: Iterable[bytes]) -> float:
    """The processor time of a replay."""
    with tempfile.TemporaryFile() as given:
        given.writelines(stream)
        given.seek(0)
        words = [program, "replay", "--outbox", str(OUTBOX)]
        child = subprocess.Popen(words, stdin=given, stdout=subprocess.DEVNULL)
        _, status, used = os.wait4(child.pid, 0)
    if status:
        sys.exit(f"{program} replay ended with {status}")
    return float(used.ru_utime + used.ru_stime)


def main() -> None:
    if len(sys.argv) < 2:
        sys.exit(__doc__)
    program, count = sys.argv[1], int(sys.argv[2]) if len(sys.argv) > 2 else 50_000
    for what, size, records, watching, level in ROWS:
        keys = [turn * 7919 % records for turn in range(count)]
        operations = [("write", ("t", key, key)) if what == "write" else ("read", "t", key) for key in keys]
        fill = list(filled(records, watching, level))
        work = list(transactions(operations, size))
        before = statistics.median(seconds(program, fill) for _ in range(3))
        after = statistics.median(seconds(program, fill + work) for _ in range(3))
        watched = f", {watching} watch at {level}" if watching else ""
        print(f"{what}, {size} in a transaction, {records} records{watched}: {(after - before) / count * 1e6:.1f} us", flush=True)


if __name__ == "__main__":
    main()
