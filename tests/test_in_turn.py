"""Servers that serve connections, or make calls, one after another: each has to be found. With `--wrong` they are two of standin.py.

The right server is tried by the cases of test_server.py, of which one is tried here on the wrong ones: a session waits for a lock, and the
reply to another session's commit, which frees the lock, is missing.
"""

from typing import Any, Callable, Type

import pytest

from tests.lib.playing import play
from tests.lib.servers import Server
from tests.lib.standin import IN_TURN, Wrong
from tests.lib.wire import Connection

# A reply is missing after so many seconds, if a server does not answer at all.
MISSING = 3


@pytest.mark.wrong
@pytest.mark.parametrize("wrong", IN_TURN, ids=[wrong.__name__ for wrong in IN_TURN])
def test_it_is_found(serve: Callable[..., Server], wrong: Type[Any]) -> None:
    port = wrong(serve("--connections", "3").place).listener.getsockname()[1]
    older, younger = Connection(port), Connection(port)
    younger.socket.settimeout(MISSING)
    with pytest.raises(TimeoutError):
        play([older, younger], "woken by a commit")


def test_one_that_changes_nothing_is_not_found(serve: Callable[..., Server]) -> None:
    place: Any = serve("--connections", "3").place
    port = Wrong(place).listener.getsockname()[1]
    play([Connection(port), Connection(port)], "woken by a commit")
