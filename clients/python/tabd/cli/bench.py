# SPDX-License-Identifier: Apache-2.0
"""`bench`: a load on a table of its own, with a progress line, and a histogram of how long requests took at its end.

Each connection has a process of its own, so that Python's lock is not what is measured; with many connections the clients still take most of
the processors. The requests are one-shots of one operation, each of which waits for its reply."""

from __future__ import annotations

import argparse
import contextlib
import multiprocessing
import os
import random
import signal
import time
from typing import Any, Callable, Dict, Iterator, List, Tuple, Union

import tabd

from .common import Failure, Progress, ending, fraction, number, say_line, say_object, server_of
from .wire import UNDO_SECONDS, Wire, frame, refuse

# Each bucket ends at 1.25 times the one before it, from 10 microseconds to ten seconds.
EDGES = [10e-6 * 1.25**step for step in range(63)]
STEP_SECONDS = 0.1


def _bucket(seconds: float) -> int:
    low, high = 0, len(EDGES) - 1
    while low < high:
        middle = (low + high) // 2
        if seconds <= EDGES[middle]:
            high = middle
        else:
            low = middle + 1
    return low


def _requests(words: argparse.Namespace, table: str, chance: random.Random) -> List[bytes]:
    """Requests that are sent in turn, so that building them isn't measured."""
    value = b"v" * words.bytes
    found: List[Any] = []
    for _ in range(1000):
        key = chance.randrange(words.keys)
        write = words.load == "write" or (words.load == "mixed" and chance.random() < 0.2)
        found.append(("transaction", [("write", (table, key, value)) if write else ("read", table, key)], 1000))
    return [frame(request) for request in found]


def _work(address: Tuple[Union[int, str], str], requests: List[bytes], seconds: float, counts: Any) -> None:
    """One connection's load: counts each request in its bucket, and all of them last."""
    try:
        with Wire(*address) as wire:
            at, now = 0, time.monotonic()
            until = now + seconds
            while now < until:
                wire.send(requests[at % len(requests)])
                refuse(wire.reply())
                then, now = now, time.monotonic()
                counts[_bucket(now - then)] += 1
                counts[-1] = at = at + 1
    except tabd.Error:
        # The program says so, on one line.
        raise SystemExit(1) from None


def quantile(counts: List[int], part: float) -> float:
    """The end of the bucket in which this part of all requests is reached, in seconds."""
    left = part * sum(counts)
    for edge, count in zip(EDGES, counts):
        left -= count
        if left <= 0 and count:
            return edge
    return EDGES[-1]


def histogram(counts: List[int]) -> List[str]:
    """A line for each bucket that has requests."""
    most, total = max(counts), sum(counts)
    return [
        f"  up to {edge * 1000:10.3f} ms {count:10} {100 * count / total:6.2f} % {'#' * round(40 * count / most)}"
        for edge, count in zip(EDGES, counts)
        if count
    ]


@contextlib.contextmanager
def _running(workers: List[multiprocessing.Process]) -> Iterator[None]:
    """Starts the processes, and ends them. Ctrl-C is sent to all processes of the terminal, and only this one heeds it."""
    before = signal.pthread_sigmask(signal.SIG_BLOCK, {signal.SIGINT})
    try:
        for worker in workers:
            worker.start()
        signal.pthread_sigmask(signal.SIG_SETMASK, before)
        yield
    finally:
        signal.pthread_sigmask(signal.SIG_SETMASK, before)
        for worker in workers:
            worker.terminate()
            worker.join()


def _run(words: argparse.Namespace, address: Tuple[Union[int, str], str], table: str) -> List[int]:
    """The requests in each bucket."""
    progress, chance = Progress(), random.Random(words.seed)
    start = time.monotonic()
    counters = [multiprocessing.RawArray("Q", len(EDGES) + 1) for _ in range(words.connections)]
    workers = [
        multiprocessing.Process(target=_work, args=(address, _requests(words, table, chance), words.seconds, counter), daemon=True)
        for counter in counters
    ]
    with _running(workers):
        before = 0
        while any(worker.is_alive() for worker in workers):
            time.sleep(STEP_SECONDS)
            done = sum(counter[-1] for counter in counters)
            progress.show(f"{time.monotonic() - start:5.1f} s  {(done - before) / STEP_SECONDS:10,.0f} requests a second")
            before = done
        progress.end()
    if any(worker.exitcode for worker in workers):
        raise Failure("a connection was refused, or has ended")
    return [sum(counter[bucket] for counter in counters) for bucket in range(len(EDGES))]


def bench(words: argparse.Namespace) -> int:
    port, host = server_of(words)
    table = f"tabd_bench_{os.getpid()}"
    with ending(), Wire(port, host) as wire:
        refuse(wire.ask(("create_table", table, [])))
        try:
            counts = _run(words, (port, host), table)
        finally:
            # A new connection: a reply may be under way on the other.
            with contextlib.suppress(tabd.Error), Wire(port, host, UNDO_SECONDS) as undo:
                undo.ask(("delete_table", table))
    total = sum(counts)
    if not total:
        raise Failure("no request was answered")
    rate = int(total / words.seconds)
    quantiles: Dict[str, Any] = {name: int(quantile(counts, part) * 1e6) for name, part in (("p50", 0.5), ("p99", 0.99), ("p999", 0.999))}
    say_object(words, {"requests": total, "requests_a_second": rate, **{f"{name}_microseconds": each for name, each in quantiles.items()}})
    if not words.json:
        say_line("\n".join(histogram(counts)))
    return 0


def add(command: Callable[..., argparse.ArgumentParser]) -> None:
    added = command("bench", bench, "a load on a table of its own, and a histogram of its times")
    added.add_argument("--load", choices=("read", "write", "mixed"), default="write", help="mixed is four reads to one write")
    added.add_argument("--connections", type=number(1, 64), default=4, metavar="N", help="as many clients, each a process; 4 without it")
    added.add_argument("--seconds", type=fraction(0.01), default=5.0, metavar="S", help="how long; 5 without it")
    added.add_argument("--keys", type=number(1), default=10_000, metavar="N", help="keys 0 to N - 1; 10000 without it")
    added.add_argument("--bytes", type=number(0, 1_000_000), default=32, metavar="N", help="bytes of a value; 32 without it")
    added.add_argument("--seed", type=int, default=1, metavar="N", help="of the keys' order; 1 without it")
