#!/usr/bin/env python3
"""How many instructions terms take, through `tabd replay`, by valgrind's callgrind.

    terms.py PROGRAM            as terms.py crates/tabd/out/tabd
    terms.py PROGRAM COUNT      so many frames of each kind, 100 where it is not given

A list has 1,000 tuples `{t, N, <<20 bytes>>}`: read off a frame that is no command, and written in the answer of a read of the one
record that has it. Keys are `{k, <<20 bytes>>, N}`, which are compared on the way to each of 10,000 records that are read. A figure
is the difference of two runs, as of scans.py. No other work on the machine moves it.
"""

import sys

from scans import instructions
from tests.lib.wire import Term, frame  # noqa: E402

TUPLES, RECORDS = 1_000, 10_000
TEXT = b"x" * 20
LIST = [("t", n, TEXT) for n in range(TUPLES)]


def key(n: int) -> Term:
    return ("k", TEXT, n)


def main() -> None:
    if len(sys.argv) < 2:
        sys.exit(__doc__)
    program, count = sys.argv[1], int(sys.argv[2]) if len(sys.argv) > 2 else 100
    head = [frame((1, "join")), frame((1, ("create_table", "t", []))), frame((1, "begin"))]
    one = head + [frame((1, ("write", ("t", 0, LIST))))]
    many = head + [frame((1, ("write", ("t", key(n), n)))) for n in range(RECORDS)] + [frame((1, "commit")), frame((1, "begin"))]
    reads = [frame((1, ("read", "t", key(turn * 7919 % RECORDS)))) for turn in range(count * 10)]
    rows = [
        ("a tuple read", head, [frame((1, ("nothing", LIST)))] * count, count * TUPLES),
        ("a tuple written", one, [frame((1, ("read", "t", 0)))] * count, count * TUPLES),
        ("a record read by a key of three elements", many, reads, len(reads)),
    ]
    for name, before, frames, parts in rows:
        took = instructions(program, before + frames) - instructions(program, before)
        print(f"{name}: {took / parts:.0f} instructions", flush=True)


if __name__ == "__main__":
    main()
