"""Rounds of clients that meet at a server (game.py), each judged (judging.py); one that fails leaves its record."""

import contextlib
import math
from typing import Any, Callable, List, Optional

from tests.lib.game import CONNECTIONS, OUTBOX, Game
from tests.lib.judging import Differs, Judge, Undecided, shown
from tests.lib.servers import Server

# At so many bytes an outbox is full in every third round.
BYTES = 100_000
# A round that shows nothing is played again, so many times in all.
TRIES = 3

# Starts what stands between the clients and the port of a server, and gives the port that they connect to.
Between = Optional[Callable[[Any], int]]


class Rounds:
    """Plays rounds, each on a server of its own. Options are those of Popen."""

    def __init__(self, serve: Callable[..., Server], folder: Any, **options: Any) -> None:
        self.start, self.record, self.options = serve, str(folder / "record"), options

    def serve(self, seed: int) -> Server:
        """Every other one has a journal that is always full, and every third one few bytes for an outbox."""
        words = ["--connections", CONNECTIONS, "--outbox", OUTBOX, "--journal", [16, 1024][seed % 2], "--abort-waits"]
        words += ["--outbox-bytes", BYTES] if seed % 3 == 0 else []
        return self.start(*map(str, words), **self.options)

    def decided(self, seed: int, seconds: float, between: Between = None) -> List[str]:
        """The faults of a round that shows something."""
        for _ in range(TRIES):
            with contextlib.suppress(Undecided):
                return self.faults(seed, seconds, between)
        raise AssertionError(f"no recorder got all events, {TRIES} times")

    def faults(self, seed: int, seconds: float, between: Between = None) -> List[str]:
        """Of a round. Behind a wrong server nothing is given up: that one counts on a reply to each request. Undecided if the recorders both
        missed something."""
        with self.serve(seed) as server:
            try:
                game = Game(between(server.place) if between else server.place, seed, seconds, between is None, BYTES if seed % 3 == 0 else math.inf)
                run = game.run()
            except (Differs, OSError, ValueError) as error:
                return [f"{type(error).__name__} {error}"]
            print(f"seed {seed}: {game.told()}")
            faults = [shown(fault)[:2000] for fault in game.failed or Judge(run).faults()]
            if faults:
                run.save(self.record)
                faults.append(f"python3 -m tests.judge {self.record} judges it again")
            elif not between:
                fill(server)
        return faults


def fill(server: Server) -> None:
    """The connections that are left, so that the server ends by itself."""
    for _ in range(CONNECTIONS):
        try:
            server.connect().close()
        except OSError:
            break
    server.ends()
