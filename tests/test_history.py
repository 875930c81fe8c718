"""`tabd serve` under clients that meet: the whole run is judged by the replies and events that they got.

A round plays the clients of game.py for some seconds, and judging.py looks for a run of these transactions alone that explains all of them.
A round that fails leaves its record, which `python3 -m tests.judge FILE` judges again. With `--wrong` each wrong server of standin.py stands
between in some shorter rounds, and has to be found.
"""

import contextlib
import os
import subprocess
import sys
from typing import Any, Callable, List, Type

import pytest

from tests.lib.judging import Undecided
from tests.lib.rounds import Rounds
from tests.lib.standin import WRONG, DropsAnEvent, Wrong

TOP = os.path.dirname(os.path.dirname(os.path.abspath(__file__)))
SEEDS, ROUND = "--rounds", 4.0
# Of a wrong server the rounds are longer and longer: if the machine does much else, little happens in one.
ROUNDS = [1.2, 4.0, 8.0]


@pytest.fixture
def rounds(serve: Callable[..., Any], tmp_path: Any) -> Rounds:
    return Rounds(serve, tmp_path)


@pytest.mark.serial
def test_round(rounds: Rounds, seed: int) -> None:
    assert not rounds.decided(seed, ROUND)


def before(wrong: Type[Wrong]) -> Callable[[Any], int]:
    """Starts a stand-in of a server; the port of the stand-in."""
    return lambda port: int(wrong(port).listener.getsockname()[1])


def found(rounds: Rounds, wrong: Type[Wrong], lengths: List[float]) -> List[str]:
    """The faults of the first of some rounds that has one."""
    for seed, seconds in enumerate(lengths, 1):
        with contextlib.suppress(Undecided):
            if faults := rounds.faults(seed, seconds, before(wrong)):
                return faults
    return []


@pytest.mark.serial
@pytest.mark.tries(3)
def test_a_record_is_judged_again(rounds: Rounds) -> None:
    """By hand, with the same faults: those of a wrong server."""
    *faults, _ = found(rounds, DropsAnEvent, ROUNDS)
    done = subprocess.run([sys.executable, "-m", "tests.judge", rounds.record], cwd=TOP, capture_output=True, text=True, check=False)
    assert done.returncode == 1, done.stderr
    assert [line[:2000] for line in done.stdout.splitlines()] == [*faults, f"{len(faults)} faults"]


@pytest.mark.wrong
@pytest.mark.parametrize("wrong", WRONG, ids=[wrong.__name__ for wrong in WRONG])
def test_a_wrong_server_is_found(rounds: Rounds, wrong: Type[Wrong]) -> None:
    assert found(rounds, wrong, ROUNDS[wrong.small :])


@pytest.mark.wrong
@pytest.mark.tries(3)
def test_a_server_between_is_not_found(rounds: Rounds) -> None:
    """One that changes nothing."""
    assert not rounds.decided(1, ROUNDS[0], before(Wrong))
