# SPDX-License-Identifier: Apache-2.0
"""A connection to the server: a session of it."""

from __future__ import annotations

import collections
import contextlib
import os
import select
import socket
import time
import weakref
from typing import Any, Deque, Iterator, Optional, Tuple

from .address import Address
from .errors import Closed, ConnectTimeout, NotConnected, TimedOut, WrongProcess
from .events import Item, item_of
from .terms import Term
from .wire import BEGIN, GREETING, Frames, check_served, frame

# So long a client waits for a new connection to be answered, if it was given no time.
OPENING_SECONDS = 10.0
ENDED = "the connection has ended"

# The open ones of this process.
_OPEN: weakref.WeakSet[Connection] = weakref.WeakSet()


def _opened(address: Address, seconds: float) -> socket.socket:
    path = address.file()
    if path is None:
        opened = socket.create_connection(address.pair(), seconds)
        opened.setsockopt(socket.IPPROTO_TCP, socket.TCP_NODELAY, 1)
        return opened
    opened = socket.socket(socket.AF_UNIX)
    try:
        opened.settimeout(seconds)
        opened.connect(path)
    except BaseException:
        opened.close()
        raise
    return opened


class Connection:
    """A session of the server. One request is under way at a time: the next is sent after the last one's reply, since an operation that is
    sent before a restart would be done in the restarted transaction, without the operations before it."""

    def __init__(self, address: Address, timeout: Optional[float] = None, connect_timeout: Optional[float] = None) -> None:
        self.timeout, self.closed = timeout, False
        self.process = os.getpid()
        # How many times a request was sent, and how many were given up.
        self.asked = self.given_up = 0
        self.told: Deque[Item] = collections.deque()
        self.frames = Frames()
        seconds = OPENING_SECONDS if connect_timeout is None else connect_timeout
        deadline = time.monotonic() + seconds
        try:
            self.socket = _opened(address, seconds)
        except socket.timeout as error:
            raise ConnectTimeout(f"no connection to {address} within {seconds} s") from error
        except (OSError, ValueError) as error:
            raise NotConnected(f"no connection to {address}: {error}") from error
        _OPEN.add(self)
        self._poll = _poll(self.socket)
        with self._or_closed():
            self._greet(address, deadline, seconds)

    def _greet(self, address: Address, deadline: float, seconds: float) -> None:
        """Sends a request to find out whether the connection is served. A full server has refused the connection before the request."""
        try:
            # What was refused may be closed already, and the refusal is still to be read.
            with contextlib.suppress(Closed):
                self._send(frame(GREETING))
            term = self._next_reply(deadline)
        except (Closed, ValueError) as error:
            raise NotConnected(f"{address} has closed the connection, or is no tabd server") from error
        if term is None:
            raise ConnectTimeout(f"{address} did not answer within {seconds} s")
        check_served(term[1])
        self.socket.settimeout(self.timeout)

    def is_ours(self) -> bool:
        """Whether this process has opened it."""
        return self.process == os.getpid()

    def check_process(self) -> None:
        if not self.is_ours():
            raise WrongProcess("the connection is the parent process's: a forked child uses the client, which opens connections of its own")

    def check(self) -> None:
        """Raises an error if it may not be used: in another process, or after its end."""
        self.check_process()
        if self.closed:
            raise Closed(ENDED)

    def ask(self, request: Term) -> Any:
        """The reply. Events that come before it are kept."""
        data = frame(request)
        self.check()
        self.asked += 1
        try:
            self._send(data)
            return self._reply()
        except BaseException:
            self.close()
            raise

    def begin(self, request: Term) -> Tuple[Any, Any]:
        """The replies to `begin` and to the request, sent together: for an idle session, and a request that is refused if no transaction
        is open. So it is done in the transaction that `begin` opened, or not at all."""
        data = BEGIN + frame(request)
        self.check()
        self.asked += 1
        try:
            self._send(data)
            begun = self._reply()
            return begun, self._reply()
        except BaseException:
            self.close()
            raise

    def ask_for(self, request: Term, seconds: float) -> Tuple[bool, Any]:
        """Whether a reply came within so many seconds, and the reply. If none came the request is given up: an abort of its level
        is sent, which ends its wait. Its own reply may have come before the abort's; else it is None."""
        data = frame(request)
        self.check()
        self.asked += 1
        with self._or_closed():
            self._send(data)
            term = self._next_reply(time.monotonic() + seconds)
            if term is not None:
                return True, term[1]
            self.given_up += 1
            reason = ("lock_timeout", self.given_up)
            self._send(frame(("abort", reason)))
            reply = self._reply()
            if reply == ("aborted", reason):
                return False, None
            self._reply()
            return False, reply

    @contextlib.contextmanager
    def _or_closed(self) -> Iterator[None]:
        """If its reply was not taken, the reply may still come: then no other request can be asked on this connection."""
        try:
            yield
        except BaseException:
            self.close()
            raise

    def _reply(self) -> Any:
        """The next reply, in time."""
        term = self._next_reply(None if self.timeout is None else time.monotonic() + self.timeout)
        if term is None:
            raise TimedOut(f"no reply within {self.timeout} s")
        return term[1]

    def _next_reply(self, deadline: Optional[float]) -> Any:
        """The term of the next reply, or None if it has not come by the deadline."""
        while True:
            term = self._receive(deadline)
            if term is None or term[0] == "reply":
                return term
            self.told.append(item_of(term))

    def item(self, seconds: Optional[float] = None) -> Optional[Item]:
        """The next event or batch, or None if none came within so many seconds."""
        if self.told:
            return self.told.popleft()
        self.check()
        term = self._receive(None if seconds is None else time.monotonic() + seconds)
        return None if term is None else item_of(term)

    def _send(self, data: bytes) -> None:
        try:
            self.socket.sendall(data)
        except socket.timeout as error:
            raise TimedOut(f"a request could not be sent within {self.timeout} s") from error
        except OSError as error:
            raise Closed(ENDED) from error

    def _receive(self, deadline: Optional[float]) -> Any:
        """The next frame's term, or None if it has not come by the deadline."""
        while True:
            term = self.frames.next()
            if term is not None or not self._read(deadline):
                return term

    def _read(self, deadline: Optional[float]) -> bool:
        """Takes the bytes that have come, or waits for some until the deadline."""
        try:
            if deadline is not None and not self._poll.poll(max(deadline - time.monotonic(), 0) * 1000):
                return False
            data = self.socket.recv(min(max(self.frames.missing, 1 << 16), 1 << 20))
        except (OSError, ValueError) as error:
            raise Closed(ENDED) from error
        if not data:
            raise Closed(ENDED)
        self.frames.feed(data)
        return True

    def is_idle(self) -> bool:
        """Whether it is open and nothing has come: on a connection that is not in use, anything that comes is its end."""
        return not self.closed and self.frames.empty and not self._poll.poll(0)

    def close(self) -> None:
        """Closes it, also while another thread reads: that read ends. In a forked child the parent's session goes on."""
        self.closed = True
        if self.is_ours():
            with contextlib.suppress(OSError):
                self.socket.shutdown(socket.SHUT_RDWR)
        self.socket.close()


def _poll(sock: socket.socket) -> select.poll:
    """An object that polls for bytes. Unlike `select.select` it accepts every descriptor, also one above 1,023."""
    poll = select.poll()
    poll.register(sock, select.POLLIN)
    return poll


def _leave() -> None:
    """In a forked child: its copies of the descriptors would keep the parent's sessions open after the parent's end."""
    for connection in list(_OPEN):
        connection.socket.close()
    _OPEN.clear()


os.register_at_fork(after_in_child=_leave)
