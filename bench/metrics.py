#!/usr/bin/env python3
"""What counting costs: `tabd serve` with `--metrics` beside `tabd serve` without, under the same loads on this machine.

    metrics.py PROGRAM                    as metrics.py crates/tabd/out/tabd

Needs gcc with libc6-dev. The loads are those of beside.py. A figure is the rate with the word divided by that without it: the median of
five rounds, in each of which both are measured once, in turn first, and the least and the greatest. The same is said of the server's
processor time for a request, which other work on the machine moves less. LOAD_MS gives the milliseconds of a run, 1,500 if it is not set,
and ROUNDS the rounds; where much else runs, take short runs and many rounds.
"""

import os
import subprocess
import sys
import tempfile
import time
from typing import Iterator, Tuple

from beside import CONNECTIONS, HERE, LOADS, ROUNDS, Framed, figure, rate

SERVE = ("serve", "--port", "0", "--connections", "64", "--forever")


def used(process: "subprocess.Popen[bytes]") -> float:
    """The processor time of all its threads, in seconds: the clock that clock_getcpuclockid(3) names."""
    return time.clock_gettime(~process.pid << 3 | 2)


def measured(load_program: str, server: Framed, load: str, connections: int) -> Tuple[float, float]:
    """The rate, and the processor time for a request."""
    before = used(server.process)
    found = rate(load_program, server, load, connections)[0]
    return found, (used(server.process) - before) / found


def rows(load_program: str, plain: Framed, metered: Framed) -> Iterator[str]:
    for text, load, _ in LOADS:
        for connections in CONNECTIONS:
            ratios = []
            for turn in range(ROUNDS):
                order = (plain, metered) if turn % 2 else (metered, plain)
                found = {server: measured(load_program, server, load, connections) for server in order}
                ratios.append([with_word / without for with_word, without in zip(found[metered], found[plain])])
            rates, times = zip(*ratios)
            yield f"{text}, {connections} connections: rate {figure(rates)}, processor time {figure(times)}"


def main() -> None:
    if len(sys.argv) != 2:
        sys.exit(__doc__)
    program, servers = sys.argv[1], []
    with tempfile.TemporaryDirectory() as folder:
        load_program = os.path.join(folder, "beside")
        subprocess.run(["cc", "-O2", "-pthread", "-o", load_program, os.path.join(HERE, "beside.c")], check=True)
        try:
            servers += [Framed(program, *SERVE), Framed(program, *SERVE, "--metrics", "0")]
            for row in rows(load_program, *servers):
                print(row, flush=True)
        finally:
            for server in servers:
                server.process.kill()
                server.process.wait()


if __name__ == "__main__":
    main()
