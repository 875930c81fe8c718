# SPDX-License-Identifier: Apache-2.0
"""Requests as frames, and frames as replies: what both clients send and read, without a socket."""

from __future__ import annotations

import struct
from typing import Any, List

from .errors import NotServed, refusal
from .terms import Term, decode_part, encode, no_term

# Bytes of a request's payload, at most. The server ends a session that sends more.
MOST_BYTES = 1_048_576
# What a client sends first. A server that serves the connection replies that no transaction is open, and nothing is changed.
GREETING: Term = "commit"
# What a server sends, without a request, if it serves as many connections as it may.
FULL = ("error", ("system_limit", "sessions"))

_LENGTH = struct.Struct(">I")


def frame(request: Term) -> bytes:
    if request == "commit":
        return COMMIT
    return _framed(request)


def _framed(request: Term) -> bytes:
    payload = encode(request)
    if len(payload) > MOST_BYTES:
        raise no_term(request, f"a request has at most {MOST_BYTES} bytes")
    return _LENGTH.pack(len(payload)) + payload


# Each transaction sends these.
BEGIN, COMMIT = _framed("begin"), _framed("commit")


def result(reply: Any) -> Any:
    """A reply that is no refusal."""
    if isinstance(reply, tuple) and reply[0] in ("aborted", "error"):
        raise refusal(reply[1])
    return reply


def check_served(reply: Any) -> None:
    """Raises `NotServed` if the reply to the greeting is the refusal of a full server."""
    if reply == FULL:
        raise NotServed("the server serves as many connections as its --connections says")


class Frames:
    """The frames of what was received, in pieces of any size."""

    def __init__(self) -> None:
        # The first piece from `at` on, and the pieces after it. They are joined once a whole frame is there.
        self._data, self._at = b"", 0
        self._more: List[bytes] = []
        self._count, self._need = 0, 4

    def feed(self, data: bytes) -> None:
        if self._count == 0:
            self._data, self._at = data, 0
        else:
            self._more.append(data)
        self._count += len(data)

    @property
    def empty(self) -> bool:
        return self._count == 0

    @property
    def missing(self) -> int:
        """How many bytes the next frame lacks, as far as its length is known."""
        return max(self._need - self._count, 0)

    def next(self) -> Any:
        """The term of the next frame, which is a tuple, or None if it is not whole."""
        if self._count < self._need:
            return None
        if self._more:
            self._data, self._at, self._more = b"".join([self._data[self._at :], *self._more]), 0, []
        data, at = self._data, self._at
        size = _LENGTH.unpack_from(data, at)[0] + 4
        if self._count < size:
            self._need = size
            return None
        term = decode_part(data, at + 4, at + size)
        self._at, self._need = at + size, 4
        self._count -= size
        return term
