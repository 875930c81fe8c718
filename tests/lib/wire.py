"""Frames of terms, in the form of examples/frames.py, and a connection to `tabd serve`."""

import io
import socket
import struct
from collections import deque
from typing import IO, Any, Callable, Deque, List, Tuple, Union

from examples import frames as example
from examples.frames import Map

__all__ = ["Closed", "Connection", "Map", "PATIENCE", "Place", "Term", "frame", "frames", "frames_of", "memory", "read", "spell", "take", "term_of"]

Term = Any
# The examples have no types.
frame: Callable[[Term], bytes] = example.frame
spell: Callable[[Term], bytes] = example.spell
read: Callable[[IO[bytes]], Term] = example.read
take: Callable[[IO[bytes], int], bytes] = example.take
# A port, or the path of a socket file.
Place = Union[int, str]
# A reply or an event that has not come after so many seconds is an error.
PATIENCE = 30


def frames(*terms: Term) -> bytes:
    return b"".join(map(frame, terms))


def frames_of(data: bytes) -> Tuple[List[bytes], bytes]:
    """Complete frames, and the bytes after them."""
    found, place = [], 0
    while len(data) >= place + 4 and len(data) >= (end := place + 4 + int.from_bytes(data[place : place + 4], "big")):
        found.append(data[place:end])
        place = end
    return found, data[place:]


def term_of(data: bytes) -> Term:
    """The term of a frame."""
    return read(io.BytesIO(data[5:]))


def memory(term: Term) -> int:
    """A record's bytes in the server, as `--outbox-bytes` counts them: 32 for each term, and its text."""
    if isinstance(term, (str, bytes)):
        return 32 + len(term.encode() if isinstance(term, str) else term)
    if isinstance(term, Map):
        return 32 + sum(memory(key) + memory(value) for key, value in term)
    return 32 + (sum(map(memory, term)) if isinstance(term, (tuple, list)) else 0)


class Closed(ConnectionError):
    """A connection ended after a complete frame."""


class Connection:
    """Sends one request at a time, and keeps the events that come between. `small` makes the buffers between the server and a client
    that does not read small; of a socket file the server's own buffer decides."""

    def __init__(self, place: Place, small: bool = False) -> None:
        self.socket = socket.socket(socket.AF_UNIX if isinstance(place, str) else socket.AF_INET)
        self.socket.settimeout(PATIENCE)
        if isinstance(place, str):
            self.socket.connect(place)
        else:
            if small:
                self.socket.setsockopt(socket.SOL_SOCKET, socket.SO_RCVBUF, 4096)
                self.socket.setsockopt(socket.IPPROTO_TCP, socket.TCP_MAXSEG, 536)
            self.socket.connect(("127.0.0.1", place))
            self.socket.setsockopt(socket.IPPROTO_TCP, socket.TCP_NODELAY, 1)
        self.stream = self.socket.makefile("rb")
        self.events: Deque[Term] = deque()

    def address(self) -> str:
        """Its own, as the server shows it; empty at a socket file."""
        name = self.socket.getsockname()
        return f"{name[0]}:{name[1]}" if isinstance(name, tuple) else ""

    def payload(self) -> bytes:
        """The next frame's, not taken apart."""
        head = self.stream.read(4)
        if not head:
            raise Closed
        return take(self.stream, int.from_bytes(head + take(self.stream, 4 - len(head)), "big"))

    def receive(self) -> Term:
        """The next frame's term."""
        return read(io.BytesIO(self.payload()[1:]))

    def send(self, *requests: Term) -> None:
        """In one piece."""
        self.socket.sendall(frames(*requests))

    def reply(self) -> Term:
        """The next reply. Events that come before it are kept."""
        while True:
            term = self.receive()
            if isinstance(term, tuple) and term[0] == "reply":
                return term[1]
            self.events.append(term)

    def ask(self, request: Term) -> Term:
        self.send(request)
        return self.reply()

    def event(self) -> Term:
        """The next event, which it waits for."""
        return self.events.popleft() if self.events else self.receive()

    def widen(self) -> None:
        """It reads with more room, for else each frame takes its time."""
        self.socket.setsockopt(socket.SOL_SOCKET, socket.SO_RCVBUF, 1_048_576)

    def half_close(self) -> None:
        """It sends nothing more."""
        self.socket.shutdown(socket.SHUT_WR)

    def break_off(self) -> None:
        """Closes at once: what was sent and not read is lost."""
        self.socket.setsockopt(socket.SOL_SOCKET, socket.SO_LINGER, struct.pack("ii", 1, 0))
        self.close()

    def close(self) -> None:
        self.stream.close()
        self.socket.close()
