#!/usr/bin/env python3
"""What subscribers of `tabd serve` see of commits, for one program or several on this machine.

    events.py PROGRAM [PROGRAM ..]        as events.py crates/tabd/out/tabd /tmp/tabd_of_another_commit

Needs gcc with libc6-dev (events.c). Each connection has a thread with a blocking socket. A commit is a one-shot of one write, and a writer
waits for its reply before it sends the next. There are three parts:

- The rate: commits a second, by 1, 4 and 16 writers with 0, 1, 8 and 63 subscribers to the table; 63 only with one writer. "Until read" is the
  number of commits, divided by the time until all subscribers have read all events. It is less if events wait in the outboxes at the end.
- The latency: from just before the writer sends a commit to the time when a subscriber has read its event, over all commits and subscribers.
  One writer makes 1, 100 and 10,000 commits a second, or as many of them as it can: the first line has how many it made.
- Ping-pong: two clients, each of which writes when it has read the other's event. Half a trip is a latency as above.

If a subscriber reads more or fewer events than commits, or others, the program ends with status 1. Each figure has a column for each
program: the median of ROUNDS runs (3 if it is not set). In each round every program runs once, with a new server. The last columns have
the ratio to the first program. LOAD_MS is the milliseconds of a run, 1,500 if it is not set. A run for the latency is at least 2 seconds,
and 8 at one commit a second: with one subscriber its 99th percentile is the greatest of 8 times. A round takes about a minute for each
program. Other work on the machine moves all figures.
"""

import os
import re
import statistics
import subprocess
import sys
import tempfile
from typing import Iterator, List, NamedTuple, Sequence

from serve import started
from tests.lib.wire import frame

HERE = os.path.dirname(os.path.abspath(__file__))
MILLISECONDS = int(os.environ.get("LOAD_MS", "1500"))
ROUNDS = int(os.environ.get("ROUNDS", "3"))
# More other processes than this move the figures.
IDLE = 0.5
WRITERS, SUBSCRIBERS, RATES = (1, 4, 16), (0, 1, 8, 63), (1, 100, 10_000)
CONNECTIONS = 64
# Options for which no outbox is full.
OPTIONS = ("--connections", str(CONNECTIONS), "--forever", "--outbox", "65536")
# A key of four bytes, and a binary for the time.
KEY, TIME = 1_000, bytes(8)


class Row(NamedTuple):
    what: str
    # The load's arguments after the port.
    words: Sequence[int]
    # The names of its figures that are printed, in the order of the load.
    figures: Sequence[str]


def plural(count: int, noun: str) -> str:
    return f"{count} {noun}{'' if count == 1 else 's'}"


def rows() -> Iterator[Row]:
    for writers in WRITERS:
        for subscribers in SUBSCRIBERS:
            # With several writers the many subscribers are left out.
            if writers == 1 or writers + subscribers < CONNECTIONS // 2:
                what = f"{plural(writers, 'writer')}, {plural(subscribers, 'subscriber')}"
                yield Row(what, (writers, subscribers, 0, MILLISECONDS), ("commits a second", "until read")[: 1 + (subscribers > 0)])
    for rate in RATES:
        for subscribers in SUBSCRIBERS[1:]:
            milliseconds = 8_000 if rate == 1 else max(MILLISECONDS, 2_000)
            what = f"{rate:,} a second, {plural(subscribers, 'subscriber')}"
            yield Row(what, (1, subscribers, rate, milliseconds), ("commits a second", "", "p50, us", "p99, us"))
    yield Row("ping-pong", (0, 0, 0, MILLISECONDS), ("round trips a second", "half a trip, p50, us", "half a trip, p99, us"))


def plan() -> str:
    """The requests of each of the two tables, as events.c reads them."""
    lines = []
    for table in ("t", "u"):
        write = ("transaction", [("write", (table, KEY, TIME))], 1_000)
        requests = [("create_table", table, []), ("subscribe", ("table", table, "simple")), write, ("delete_table", table)]
        lines += [frame(request).hex() for request in requests]
    return "\n".join(lines) + "\n"


def run(load: str, program: str, row: Row) -> List[float]:
    """The figures of one run, with a server of its own."""
    server, port = started(program, *OPTIONS)
    try:
        words = [load, str(port), *map(str, row.words)]
        ran = subprocess.run(words, input=plan().encode(), capture_output=True)
    finally:
        server.kill()
        server.communicate()
    if ran.returncode:
        text = re.sub(r"[^ -~]+", " ", ran.stderr.decode("latin-1")).strip()
        sys.exit(f"{program}: {row.what}: {text or f'status {ran.returncode}'}")
    return [float(word) for word in ran.stdout.split()]


def shown(figure: float) -> str:
    return f"{figure:,.0f}" if figure >= 1_000 else f"{figure:.1f}"


def lines_of(load: str, programs: Sequence[str], row: Row) -> Iterator[str]:
    """A line for each figure of a row."""
    rounds = [[run(load, program, row) for program in programs] for _ in range(ROUNDS)]
    for at, name in enumerate(row.figures):
        if name:
            medians = [statistics.median(runs[number][at] for runs in rounds) for number in range(len(programs))]
            ratios = [median / medians[0] for median in medians[1:]]
            yield line(f"{row.what}: {name}", [*map(shown, medians), *(f"{ratio:.2f}" for ratio in ratios)])


def line(what: str, cells: Sequence[str]) -> str:
    return f"{what:<50}" + "".join(f"{cell:>12}" for cell in cells)


def main() -> None:
    programs = sys.argv[1:]
    if not programs or programs[0].startswith("-"):
        sys.exit(__doc__)
    busy = os.getloadavg()[0]
    if busy > IDLE:
        print(f"other work is on this machine (load {busy:.1f}): these figures are for no document", file=sys.stderr)
    for at, program in enumerate(programs, 1):
        print(f"{at} is {program}")
    numbers = range(1, len(programs) + 1)
    print(line("", [*map(str, numbers), *(f"{number} / 1" for number in numbers[1:])]), flush=True)
    with tempfile.TemporaryDirectory() as folder:
        load = os.path.join(folder, "events")
        subprocess.run(["cc", "-O2", "-pthread", "-o", load, os.path.join(HERE, "events.c")], check=True)
        for row in rows():
            for text in lines_of(load, programs, row):
                print(text, flush=True)


if __name__ == "__main__":
    main()
