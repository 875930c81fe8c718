"""`tabd serve` with its threads delayed: a session that waits is woken, and a run is still serializable.

A library in front of the program's calls of futexes and sockets (delaying.c) delays chosen ones by a seed; every other server has one processor.
`--seeds N` tries so many seeds. No contract speaks of threads: this is what finds a wake-up that is lost between two of them.
"""

import os
import random
import time
from typing import Any, Callable, Dict, List

import pytest

from tests.lib.checks import ATOMIC, CREATE, HERE_OK, OK, committed, gets, opened, script, watch, write
from tests.lib.rounds import Rounds
from tests.lib.servers import Server
from tests.lib.wire import Connection

pytestmark = pytest.mark.usefixtures("plain")

# So many waits at once, each for a lock of its own, in so many turns; their ends are watched by so many sessions. A session that waits asks for
# its lock once more after twenty milliseconds, and the locks are free at about that time.
WAITS, TURNS, WATCHERS, FREE = 8, 20, 2, (0.015, 0.025)
SEEDS, ROUND = "--seeds", 0.6


def processors(seed: int) -> List[int]:
    """That a server of this seed has."""
    every = sorted(os.sched_getaffinity(0))
    return [every[seed // 2 % len(every)]] if seed % 2 else every


@pytest.fixture
def delayed(library: Callable[[str], str], seed: int) -> Dict[str, Any]:
    """How the server is started."""
    env = {**os.environ, "LD_PRELOAD": library("delaying"), "SEED": str(seed)}
    return {"env": env, "preexec_fn": lambda: os.sched_setaffinity(0, processors(seed))}


def turn(older: List[Connection], younger: List[Connection], value: int, chance: random.Random) -> None:
    """Each of the older waits for one of the younger, which all commit at once."""
    opened(*older, *younger)
    for key, connection in enumerate(younger):
        script((connection, write(key, value), OK))
    for key, connection in enumerate(older):
        connection.send(("wread", ("t", key)))
    time.sleep(chance.uniform(*FREE))
    for connection in chance.sample(younger, len(younger)):
        connection.send("commit")
    for connection in younger:
        assert connection.reply()[0] == "atomic", "a commit"
    for key, connection in enumerate(older):
        gets(connection, [("t", key, value)])
        committed(connection)


def test_who_waits_is_woken(serve: Callable[..., Server], delayed: Dict[str, Any], seed: int) -> None:
    """A session that is not woken sleeps for ever, however busy the machine is, so its reply never comes."""
    delayed["env"]["ENDLESS"] = "1"
    server = serve("--connections", str(2 * WAITS + WATCHERS), **delayed)
    if delayed["env"]["LD_PRELOAD"] not in server.proc("maps"):
        pytest.skip("the program takes no LD_PRELOAD")
    connections, watchers, chance = server.clients(2 * WAITS), server.clients(WATCHERS), random.Random(seed)
    script((connections[0], CREATE, ATOMIC), *((watcher, watch(), HERE_OK) for watcher in watchers))
    for value in range(TURNS):
        try:
            turn(connections[:WAITS], connections[WAITS:], value, chance)
        except TimeoutError:
            pytest.fail(f"seed {seed}, turn {value}: a session that waits was not woken")
        for watcher in watchers:
            assert all(watcher.event() for _ in range(WAITS))


def test_a_round(serve: Callable[..., Server], tmp_path: Any, delayed: Dict[str, Any], seed: int) -> None:
    """Judged as one of test_history.py."""
    assert not Rounds(serve, tmp_path, **delayed).decided(seed, ROUND)
