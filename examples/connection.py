# SPDX-License-Identifier: Apache-2.0
"""A connection to `tabd serve`: one request at a time, and the events that come between."""

import io
import socket
import struct
from collections import deque

from frames import frame, read, take

# A reply or an event that has not come after so many seconds is an error.
PATIENCE = 10


class Connection:
    """A connection to a port, or to the path of a socket file. `small` makes the buffers between the server and a client that does not
    read small; of a socket file the server's own buffer decides."""

    def __init__(self, place, small=False):
        if isinstance(place, str):
            self.socket = socket.socket(socket.AF_UNIX)
            self.socket.settimeout(PATIENCE)
            self.socket.connect(place)
        else:
            self.socket = socket.socket()
            self.socket.settimeout(PATIENCE)
            if small:
                self.socket.setsockopt(socket.SOL_SOCKET, socket.SO_RCVBUF, 4096)
                self.socket.setsockopt(socket.IPPROTO_TCP, socket.TCP_MAXSEG, 536)
            self.socket.connect(("127.0.0.1", place))
            self.socket.setsockopt(socket.IPPROTO_TCP, socket.TCP_NODELAY, 1)
        self.stream = self.socket.makefile("rb")
        self.events = deque()

    def receive(self):
        """The next frame's term."""
        length = int.from_bytes(take(self.stream, 4), "big")
        payload = io.BytesIO(take(self.stream, length))
        take(payload, 1)
        return read(payload)

    def send(self, what):
        self.socket.sendall(frame(what))

    def ask(self, what):
        """The reply to a request. Events that come before it are kept."""
        self.send(what)
        while True:
            term = self.receive()
            if isinstance(term, tuple) and term[0] == "reply":
                return term[1]
            self.events.append(term)

    def event(self):
        """The next event, which it waits for."""
        return self.events.popleft() if self.events else self.receive()

    def break_off(self):
        """Closes at once: what was sent and not read is lost."""
        self.socket.setsockopt(socket.SOL_SOCKET, socket.SO_LINGER, struct.pack("ii", 1, 0))
        self.close()

    def close(self):
        self.stream.close()
        self.socket.close()
