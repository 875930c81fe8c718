#!/usr/bin/env python3
"""How many instructions an operation takes for each record that it walks over, through `tabd replay`, by valgrind's callgrind.

    scans.py PROGRAM            as scans.py crates/tabd/out/tabd
    scans.py PROGRAM COUNT      so many operations, 30 where it is not given

The table has 10,000 records, `{t, Key, Key}`. A figure is the difference of two runs, one of a stream that fills the table and one
of the same stream with the operations behind it, frames in and out included. No other work on the machine moves it.
"""

import re
import subprocess
import sys
import tempfile
from typing import Iterable

from replay import filled
from tests.lib.wire import frame  # noqa: E402

RECORDS = 10_000
SCANS = [
    ("match_object of all", ("match_object", ("t", "_", "_"))),
    ("match_object of none", ("match_object", ("t", "_", "none"))),
    ("match_object of a number", ("match_object", ("t", "_", -1))),
    ("all_keys", ("all_keys", "t")),
]


def instructions(program: str, stream: Iterable[bytes]) -> int:
    words = ["valgrind", "--tool=callgrind", "--callgrind-out-file=/dev/null", program, "replay"]
    with tempfile.TemporaryFile() as given:
        given.writelines(stream)
        given.seek(0)
        ran = subprocess.run(words, stdin=given, stdout=subprocess.DEVNULL, stderr=subprocess.PIPE, check=True)
    [collected] = re.findall(rb"Collected : (\d+)", ran.stderr)
    return int(collected)


def main() -> None:
    if len(sys.argv) < 2:
        sys.exit(__doc__)
    program, count = sys.argv[1], int(sys.argv[2]) if len(sys.argv) > 2 else 30
    fill = [*filled(RECORDS, 0, None), frame((1, "begin"))]
    before = instructions(program, fill)
    for name, scan in SCANS:
        after = instructions(program, fill + [frame((1, scan))] * count)
        print(f"{name}: {(after - before) / count / RECORDS:.0f} instructions a record", flush=True)


if __name__ == "__main__":
    main()
