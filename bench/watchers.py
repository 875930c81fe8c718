#!/usr/bin/env python3
"""The instructions that `tabd serve` takes for a one-shot of one write, by the number of sessions that watch the table.

    watchers.py PROGRAM [COUNT ..]        as watchers.py crates/tabd/out/tabd 0 1 8 63

Needs valgrind, of Debian's package of that name, with Python's standard library. Each figure is that of a run with so many writes less that of a
run with few, so neither the start nor the connections are in it. The kernel's part of a send is not counted. Each write is followed until
all sessions have its event, so the server never sends two events in one piece.
"""

import os
import re
import subprocess
import sys
import tempfile
from typing import List, Optional, Tuple

HERE = os.path.dirname(os.path.abspath(__file__))
sys.path.insert(0, os.path.join(HERE, ".."))
from tests.lib.checks import ATOMIC, HERE_OK, OK, script  # noqa: E402
from tests.lib.wire import Connection  # noqa: E402

FEW, MANY = 50, 250
# A program under valgrind takes so many seconds at most for a reply.
PATIENCE = 60


def follow(path: str, watchers: int, writes: int) -> None:
    """So many writes of one client, whose events so many others take."""
    clients = [Connection(path) for _ in range(1 + watchers)]
    for client in clients:
        client.socket.settimeout(PATIENCE)
    writer, *mirrors = clients
    script((writer, ("create_table", "t", []), ATOMIC))
    for mirror in mirrors:
        script((mirror, ("subscribe", ("table", "t", "simple")), HERE_OK))
        mirror.event()
    for number in range(writes):
        script((writer, ("transaction", [("write", ("t", number % 100, number))], 0), ("atomic", [OK])))
        for mirror in mirrors:
            mirror.payload()
    for client in clients:
        client.close()


def instructions(program: str, watchers: int, writes: int) -> int:
    with tempfile.TemporaryDirectory() as folder:
        path, counts = os.path.join(folder, "socket"), os.path.join(folder, "counts")
        words = [program, "serve", "--connections", str(1 + watchers), "--socket", path]
        counted = ["valgrind", "--tool=callgrind", f"--callgrind-out-file={counts}", *words]
        with subprocess.Popen(counted, stdout=subprocess.PIPE, stderr=subprocess.PIPE, text=True) as server:
            assert server.stdout is not None
            if not server.stdout.readline().startswith("listening on "):
                sys.exit(f"{program} does not start under valgrind")
            follow(path, watchers, writes)
            said = server.communicate()[1]
    found = re.search(r"Collected : (\d+)", said)
    if found is None:
        sys.exit(f"valgrind says no count: {said}")
    return int(found[1])


def main() -> None:
    if len(sys.argv) < 2:
        sys.exit(__doc__)
    counts: List[int] = [int(word) for word in sys.argv[2:]] or [0, 1, 8, 63]
    before: Optional[Tuple[int, float]] = None
    for watchers in counts:
        each = (instructions(sys.argv[1], watchers, MANY) - instructions(sys.argv[1], watchers, FEW)) / (MANY - FEW)
        more = "" if before is None else f", {(each - before[1]) / (watchers - before[0]):.0f} for each session more"
        print(f"{watchers} sessions watch: {each:.0f} instructions{more}", flush=True)
        before = watchers, each


if __name__ == "__main__":
    main()
