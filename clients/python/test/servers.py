# SPDX-License-Identifier: Apache-2.0
"""Servers for the tests: the program itself, and one that plays a script."""

from __future__ import annotations

import contextlib
import io
import os
import socket
import subprocess
import sys
import threading
import time
import unittest
from typing import Any, Iterator, List, Optional, Tuple

HERE = os.path.dirname(os.path.abspath(__file__))
sys.path.insert(0, os.path.join(HERE, ".."))
from spelled import frame, read, take  # noqa: E402

from tabd import connection  # noqa: E402

# A machine that does much else lets a new connection wait.
connection.OPENING_SECONDS = 60.0

PROGRAM = os.environ.get("TABD", "")
# What needs the program is skipped without it.
needs_program = unittest.skipUnless(os.access(PROGRAM, os.X_OK), "TABD names no program")
# So long a script waits for what a wrong client sends ahead.
QUIET = 0.03


class Server:
    """The program, serving at a port, one that the system chooses or the one given, or at a socket file."""

    def __init__(self, *words: str, connections: int = 16, port: int = 0, path: str = "") -> None:
        where = ("--socket", path) if path else ("--port", str(port))
        words = (PROGRAM, "serve", *where, "--connections", str(connections), *words)
        # After a kill the port may not be free at once.
        for _ in range(100):
            self.process = subprocess.Popen(words, stdout=subprocess.PIPE, stderr=subprocess.DEVNULL, text=True)
            assert self.process.stdout is not None
            line = self.process.stdout.readline()
            if line:
                break
            self.kill()
            time.sleep(0.1)
        self.port = 0 if path else int(line.rsplit(":", 1)[1])

    def kill(self) -> None:
        self.process.kill()
        self.process.wait()
        assert self.process.stdout is not None
        self.process.stdout.close()

    def __enter__(self) -> Server:
        return self

    def __exit__(self, *_: object) -> None:
        self.kill()


class Ahead(Tuple[Any, Any]):
    """A step, whose request comes together with the next one."""


class Replies:
    """In place of one reply: none, or several."""

    def __init__(self, *replies: Any) -> None:
        self.replies = replies


class Script:
    """A server of one connection. Each step is a request that has to come, and its reply; None in its place ends the connection."""

    def __init__(self, *steps: Tuple[Any, Any]) -> None:
        self.steps: List[Tuple[Any, Any]] = [("commit", ("error", "no_transaction")), *steps]
        self.fault: Optional[str] = None
        self.listener = socket.socket()
        self.listener.bind(("127.0.0.1", 0))
        self.listener.listen()
        self.port = self.listener.getsockname()[1]
        self.thread = threading.Thread(target=self._play, daemon=True)
        self.thread.start()

    def _play(self) -> None:
        connection, _ = self.listener.accept()
        # It must not read more than it is asked for: what is ahead is looked for in the socket.
        stream = connection.makefile("rb", buffering=0)
        try:
            for step in self.steps:
                self._step(connection, stream, step)
            if stream.read(1):
                self.fault = "a request behind the last step"
        except (OSError, ValueError) as error:
            self.fault = str(error)
        stream.close()
        connection.close()

    def _step(self, connection: socket.socket, stream: Any, step: Tuple[Any, Any]) -> None:
        wanted, reply = step
        payload = io.BytesIO(take(stream, int.from_bytes(take(stream, 4), "big")))
        take(payload, 1)
        found = read(payload)
        if found != wanted:
            raise ValueError(f"{found!r} came, wanted {wanted!r}")
        connection.settimeout(QUIET)
        try:
            ahead = connection.recv(1, socket.MSG_PEEK)
        except socket.timeout:
            ahead = b""
        connection.settimeout(None)
        if isinstance(step, Ahead) and not ahead:
            raise ValueError(f"nothing came together with {wanted!r}")
        if ahead and not isinstance(step, Ahead):
            raise ValueError(f"something was sent behind {wanted!r}, before its reply")
        if reply is None:
            raise ConnectionAbortedError("as the script says")
        for one in reply.replies if isinstance(reply, Replies) else [reply]:
            connection.sendall(frame(("reply", one)))

    def end(self) -> Optional[str]:
        """What differed, once the client has closed its connection."""
        self.thread.join(5)
        self.listener.close()
        return "it goes on" if self.thread.is_alive() else self.fault


@contextlib.contextmanager
def refusing() -> Iterator[int]:
    """The port of a server that is full: it refuses each connection, and has closed it before anything comes."""
    listener = socket.socket()
    listener.bind(("127.0.0.1", 0))
    listener.listen()

    def serve() -> None:
        with contextlib.suppress(OSError):
            while True:
                connection, _ = listener.accept()
                connection.sendall(frame(("reply", ("error", ("system_limit", "sessions")))))
                connection.close()

    thread = threading.Thread(target=serve, daemon=True)
    thread.start()
    try:
        yield listener.getsockname()[1]
    finally:
        with contextlib.suppress(OSError):
            listener.shutdown(socket.SHUT_RDWR)
        listener.close()
        thread.join(5)
