#!/usr/bin/env python3
"""Runs `tabd serve` for long, with clients that come and go, prints its memory, threads and descriptors, and checks its counters.

    soak.py PROGRAM [SECONDS]

Sixteen clients connect, make some transactions at a few contended records and at many others, as transactions or one-shots, commit, abort, fail or
break off in the middle, close, and come again. Two mirrors follow, and a reader reads its events too slowly and loses them. Each half minute a line
has the server's kilobytes, threads and descriptors, and the numbers of connections and commits. In the end all have left, and
the counters have to be those of the clients' replies; the status is 1 if one is not. It runs for an hour if no SECONDS are given.
"""

import os
import random
import re
import sys
import threading
import time
from typing import Any, Dict

HERE = os.path.dirname(os.path.abspath(__file__))
sys.path.insert(0, os.path.join(HERE, ".."))
from tests.lib.checks import ATOMIC, CREATE, one_shot, same, script, side_by_side, watch, write  # noqa: E402
from tests.lib.servers import Metered  # noqa: E402
from tests.lib.wire import Connection  # noqa: E402

CLIENTS, HOT, COLD = 16, 3, 100_000
LINE = 30.0
COUNTED = ("commits_total", "aborts_total", "given_up_total")


class SharedReply(Dict[str, int]):
    """What the clients were told, by the metric that counts it."""

    def __init__(self) -> None:
        super().__init__({name: 0 for name in COUNTED}, connections=0)
        self.lock = threading.Lock()

    def add(self, name: str) -> None:
        with self.lock:
            self[name] += 1


def key(chance: random.Random) -> int:
    return chance.randrange(HOT) if chance.random() < 0.3 else chance.randrange(HOT, COLD)


def write_some(client: Connection, told: SharedReply, chance: random.Random) -> None:
    parts = [write(key(chance), b"v" * chance.randrange(200)) for _ in range(chance.randrange(1, 5))]
    reply = client.ask(one_shot(*parts, retries=chance.randrange(20)))
    told.add("commits_total" if reply[0] == "atomic" else "aborts_total")
    if reply == ("aborted", "nomore"):
        told.add("given_up_total")


def transaction(client: Connection, told: SharedReply, chance: random.Random) -> bool:
    """Whether the client goes on."""
    client.ask("begin")
    place = key(chance)
    while client.ask(("wread", ("t", place))) == "restart":
        pass
    if chance.random() < 0.02:
        told.add("aborts_total")
        client.break_off()
        return False
    if chance.random() < 0.05:
        reply = client.ask(("read", "absent", 1))
    else:
        client.ask(write(place, b"v" * chance.randrange(200)))
        reply = client.ask("commit" if chance.random() < 0.9 else ("abort", "no"))
    told.add("commits_total" if reply[0] == "atomic" else "aborts_total")
    return True


def come_and_go(server: Metered, told: SharedReply, seed: int, end: float) -> None:
    chance = random.Random(seed)
    while time.monotonic() < end:
        client = server.connect()
        told.add("connections")
        goes_on = True
        for _ in range(chance.randrange(1, 100)):
            if chance.random() < 0.5:
                write_some(client, told, chance)
            else:
                goes_on = transaction(client, told, chance)
            if not goes_on or time.monotonic() > end:
                break
        if goes_on:
            client.close()


def follow(server: Metered, end: float, pause: float) -> None:
    """Takes events, and subscribes anew behind an overflow."""
    client = server.connect(small=pause > 0)
    client.ask(watch())
    client.socket.settimeout(1)
    while time.monotonic() < end:
        try:
            event = client.event()
        except TimeoutError:
            continue
        if event[0] == "mnesia_overflow":
            client.ask(watch())
        time.sleep(pause)
    client.break_off()


def lines(server: Metered, told: SharedReply, begun: float, end: float) -> None:
    while (now := time.monotonic()) < end:
        threads, files, kilobytes = server.held()
        held = f"{kilobytes} kB, {threads} threads, {files} descriptors"
        print(f"{now - begun:6.0f} s: {held}, {told['connections']} connections, {told['commits_total']} commits", flush=True)
        time.sleep(min(LINE, max(end - now, 0.1)))


def soak(program: str, seconds: float) -> None:
    with Metered(program, 32, "--idle", "60") as server:
        # The server is killed where it hangs; not before the end.
        server.limit.cancel()
        first = server.connect()
        script((first, CREATE, ATOMIC))
        first.close()
        told, begun = SharedReply(), time.monotonic()
        end = begun + seconds
        jobs: Any = [(come_and_go, (server, told, seed, end)) for seed in range(CLIENTS)]
        jobs += [(follow, (server, end, 0)), (follow, (server, end, 0)), (follow, (server, end, 0.05)), (lines, (server, told, begun, end))]
        side_by_side(jobs)
        server.has(sessions=0, open_transactions=0, **{name: told[name] for name in COUNTED})
        page = server.page()
        counts = ", ".join(f"{page[name + '_total']} {name}" for name in ("commits", "restarts", "waits", "overflows", "items_sent"))
        print(f"{told['connections']} connections, {counts}: as told")
        idle = {f"tabd: session {number} was idle" for number in range(told["connections"] + 10)}
        same("what it said", set(re.sub(r" \(127[.\d]+:\d+\)", "", server.stopped()).splitlines()) - idle, set())


def main() -> None:
    if len(sys.argv) not in (2, 3):
        sys.exit(__doc__)
    try:
        soak(os.path.abspath(sys.argv[1]), float(sys.argv[2]) if sys.argv[2:] else 3600.0)
    except (AssertionError, OSError, ValueError) as error:
        sys.exit(f"{type(error).__name__} {error}")


main()
