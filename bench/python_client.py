#!/usr/bin/env python3
"""Measures the processor time of the Python client, and of redis-py if that and redis-server are installed.

    python_client.py PROGRAM [--seconds S]

- begin, write, commit: `with client.transaction() as t: t.write(..)`; of Redis MULTI, SET, EXEC by a pipeline.
- one-shot: a transaction of one write in one request.
- read: all of a table of 17,001 records, from the request to the records, by the clock, and only its decoding, for each record.

Each figure is the least and the median of many short measurements, since other work on the machine adds to some of them. A line each, in
microseconds of this process (user and system), for the read in milliseconds. Redis's lines are skipped if it is not installed.
"""

import argparse
import os
import shutil
import statistics
import subprocess
import sys
import time
from typing import Any, Callable, List, Optional, Tuple

HERE = os.path.dirname(os.path.abspath(__file__))
sys.path.insert(0, os.path.join(HERE, "..", "clients", "python"))
import tabd  # noqa: E402

RECORDS, PART, EACH = 17_001, 500, 10
VALUE = b"v" * 32
# The least and the median.
Times = Tuple[float, float]


def times(do: Callable[[int], Any], seconds: float, clock: Callable[[], float] = time.process_time, each: int = EACH) -> Times:
    """The least and the median, in seconds, of what a call takes."""
    found: List[float] = []
    end = time.monotonic() + seconds
    do(each)
    while time.monotonic() < end or len(found) < 5:
        began = clock()
        do(each)
        found.append((clock() - began) / each)
    return min(found), statistics.median(found)


def show(what: str, least_and_median: Times, scale: float = 1e6, unit: str = "us") -> None:
    least, median = (scale * it for it in least_and_median)
    print(f"{what}: {least:.1f} to {median:.1f} {unit}", flush=True)


def serve(program: str) -> Tuple["subprocess.Popen[str]", int]:
    words = [program, "serve", "--port", "0", "--connections", "4", "--forever"]
    server = subprocess.Popen(words, stdout=subprocess.PIPE, text=True)
    assert server.stdout
    return server, int(server.stdout.readline().rsplit(":", 1)[1])


def of_tabd(client: tabd.Client, seconds: float) -> Times:
    client.create_table("t")

    def block(count: int) -> None:
        for key in range(count):
            with client.transaction() as t:
                t.write(("t", key, VALUE))

    def one_shot(count: int) -> None:
        for key in range(count):
            client.one_shot().write(("t", key, VALUE)).run()

    least = times(block, seconds)
    show("tabd, begin, write, commit", least)
    show("tabd, one-shot", times(one_shot, seconds))
    return least


def read(client: tabd.Client, seconds: float) -> None:
    client.create_table("big")
    for start in range(0, RECORDS, PART):
        shot = client.one_shot()
        for key in range(start, min(start + PART, RECORDS)):
            shot.write(("big", key, VALUE))
        shot.run()

    def whole(count: int) -> None:
        for _ in range(count):
            [records] = client.one_shot().match_object(("big", "_", "_")).run()
            assert len(records) == RECORDS

    show(f"tabd, read of {RECORDS} records", times(whole, seconds, time.perf_counter, 1), 1e3, "ms")
    payload = tabd.encode([("big", key, VALUE) for key in range(RECORDS)])
    least, median = times(lambda count: [tabd.decode(payload) for _ in range(count)], seconds, each=1)
    show("tabd, decoding of a record", (least / RECORDS, median / RECORDS))


def of_redis(seconds: float, port: int = 6390) -> Optional[Times]:
    try:
        import redis
    except ImportError:
        return None
    if shutil.which("redis-server") is None:
        return None
    words = ["redis-server", "--port", str(port), "--save", "", "--appendonly", "no"]
    server = subprocess.Popen(words, stdout=subprocess.DEVNULL)
    try:
        client = redis.Redis(port=port)
        for _ in range(100):
            try:
                client.ping()
                break
            except redis.ConnectionError:
                time.sleep(0.05)

        def block(count: int) -> None:
            for key in range(count):
                with client.pipeline(transaction=True) as pipe:
                    pipe.set(str(key), VALUE)
                    pipe.execute()

        least = times(block, seconds)
        show(f"redis-py {redis.__version__}, MULTI, SET, EXEC", least)
        return least
    finally:
        server.kill()
        server.wait()


def main() -> None:
    parser = argparse.ArgumentParser(description=__doc__, formatter_class=argparse.RawDescriptionHelpFormatter)
    parser.add_argument("program")
    parser.add_argument("--seconds", type=float, default=3.0, help="for each measurement")
    given = parser.parse_args()
    server, port = serve(given.program)
    try:
        with tabd.Client(port) as client:
            ours = of_tabd(client, given.seconds)
            theirs = of_redis(given.seconds)
            if theirs:
                print(f"tabd's processor time by redis-py's: {ours[0] / theirs[0]:.2f} to {ours[1] / theirs[1]:.2f}")
            else:
                print("redis-py or redis-server is not installed: skipped")
            read(client, given.seconds)
    finally:
        server.kill()
        server.wait()


if __name__ == "__main__":
    main()
