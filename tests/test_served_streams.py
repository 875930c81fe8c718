"""The streams over connections to `tabd serve --batches`, a connection for each session, in lock-step.

A session's replies are the stream's; each item of a `take` of the stream is sent on the session's connection without a request,
in the stream's order and as one frame. So the items of a mailbox are compared with those of a ring. An operation that is
answered `waiting` has the reply of the stream's `retry`. Streams that a connection can't ask are skipped: those of a session
that isn't joined, of an outbox that overflows, of requests while one waits, and of payloads that are no request.
"""

from typing import Any, Callable

import pytest

from tests.lib.playing import played
from tests.lib.servers import Server
from tests.lib.streams import streams
from tests.lib.wire import term_of

# With fewer streams than these one is skipped that was not skipped before.
LEAST = 38
# Replies that no connection gets, or only if its outbox is full.
LEFT_OUT = [("error", word) for word in ("badsession", "waiting", "not_waiting", "overflow_untold")]


def steps_of(stream: Any) -> Any:
    """The session, request and reply of each frame; None if a payload is no request, or a reply is one of LEFT_OUT."""
    steps = []
    for given, told in zip(stream.given, stream.told):
        try:
            session, request = term_of(given)
            answered, reply = term_of(told)
        except (ValueError, TypeError, OSError, IndexError):
            return None
        if answered != session or request == "leave" or reply in LEFT_OUT or "mnesia_overflow" in str(reply) or "outbox" in str(reply):
            return None
        steps.append((session, request, reply))
    return steps


ASKED = [(stream.name, steps) for stream in streams() if (steps := steps_of(stream)) and any(step[1] == "join" for step in steps)]


def test_so_many_streams_are_asked() -> None:
    assert len(ASKED) >= LEAST


@pytest.mark.parametrize("steps", [steps for _, steps in ASKED], ids=[name for name, _ in ASKED])
def test_served(serve: Callable[..., Server], steps: Any) -> None:
    joined = [session for session, request, _ in steps if request == "join"]
    server = serve("--connections", str(len(joined)), "--batches")
    sessions = {}
    for session, request, reply in steps:
        if request == "join":
            sessions[session] = server.connect()
        else:
            assert played(sessions[session], request, reply) == reply, request
