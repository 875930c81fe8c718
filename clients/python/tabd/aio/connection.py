# SPDX-License-Identifier: Apache-2.0
"""A connection to the server, on an event loop."""

from __future__ import annotations

import asyncio
import collections
import contextlib
import os
import select
import socket
import weakref
from typing import Any, Awaitable, Deque, Iterator, Optional, Tuple, TypeVar

from .. import connection as threads
from ..address import Address
from ..errors import Closed, ConnectTimeout, Error, NotConnected, TimedOut, WrongProcess
from ..events import Item, item_of
from ..pool import Place
from ..terms import Term
from ..wire import BEGIN, GREETING, Frames, check_served, frame

Value = TypeVar("Value")

# So many items wait to be taken, before no more are read: what comes then waits at the server, whose outbox overflows in the end.
MOST_TOLD = 1024

_OPEN: weakref.WeakSet[Connection] = weakref.WeakSet()


async def _in_time(doing: Awaitable[Value], seconds: float) -> Value:
    """Its result, or asyncio.TimeoutError. Unlike `asyncio.wait_for` before Python 3.12 it loses no cancellation."""
    task = asyncio.ensure_future(doing)
    try:
        await asyncio.wait({task}, timeout=seconds)
        if not task.done():
            raise asyncio.TimeoutError()
        return task.result()
    finally:
        task.cancel()


async def _connected(address: Address) -> socket.socket:
    """A socket of our own, so that a forked child can close its descriptor without the loop that it shares with the parent."""
    loop = asyncio.get_running_loop()
    path = address.file()
    if path is not None:
        return await _connect(socket.AF_UNIX, path)
    found = await loop.getaddrinfo(*address.pair(), type=socket.SOCK_STREAM)
    fault: Optional[OSError] = None
    for family, _, _, _, where in found:
        try:
            return await _connect(family, where)
        except OSError as error:
            fault = error
    raise fault or OSError("the host has no address")


async def _connect(family: int, where: Any) -> socket.socket:
    opened = socket.socket(family)
    try:
        opened.setblocking(False)
        await asyncio.get_running_loop().sock_connect(opened, where)
        if family != socket.AF_UNIX:
            opened.setsockopt(socket.IPPROTO_TCP, socket.TCP_NODELAY, 1)
        return opened
    except BaseException:
        opened.close()
        raise


class Connection(asyncio.Protocol):
    """A session of the server. One request is under way at a time. If the task that waits for a reply is cancelled, the connection is closed:
    the reply may still come, and would be taken for another's."""

    place: Place

    def __init__(self, timeout: Optional[float]) -> None:
        self.timeout, self.closed = timeout, False
        self.process = os.getpid()
        self.loop = asyncio.get_running_loop()
        self.given_up = 0
        self.told: Deque[Item] = collections.deque()
        self._replies: Deque[Any] = collections.deque()
        self._frames = Frames()
        self._waiter: Optional[asyncio.Future[None]] = None
        self._asking = self._paused = False
        self._fault: Optional[BaseException] = None
        self.socket: Optional[socket.socket] = None
        self.transport: Any = None

    @classmethod
    async def open(cls, address: Address, timeout: Optional[float] = None, connect_timeout: Optional[float] = None) -> Connection:
        """A connection that is served."""
        seconds = threads.OPENING_SECONDS if connect_timeout is None else connect_timeout
        self = cls(timeout)
        try:
            reply = await _in_time(self._opened(address), seconds)
            check_served(reply)
        except asyncio.TimeoutError as error:
            self.close()
            raise ConnectTimeout(f"{address} did not answer within {seconds} s") from error
        except NotConnected:
            self.close()
            raise
        except (OSError, ValueError) as error:
            self.close()
            raise NotConnected(f"no connection to {address}: {error}") from error
        except BaseException:
            self.close()
            raise
        return self

    async def _opened(self, address: Address) -> Any:
        """The reply to the greeting. What was refused may be closed already, and the refusal is still to be read."""
        self.socket = sock = await _connected(address)
        _OPEN.add(self)
        # A transport whose write fails reads nothing more.
        with contextlib.suppress(OSError):
            await self.loop.sock_sendall(sock, frame(GREETING))
        self.transport, _ = await self.loop.create_connection(lambda: self, sock=sock)
        await self._until(self._replies, None)
        return self._replies.popleft()

    # What the loop calls

    def data_received(self, data: bytes) -> None:
        self._frames.feed(data)
        try:
            term = self._frames.next()
            while term is not None:
                if term[0] == "reply":
                    self._replies.append(term[1])
                else:
                    self.told.append(item_of(term))
                term = self._frames.next()
        except ValueError as error:
            self._fault = error
            self.close()
        if len(self.told) > MOST_TOLD and not self._paused:
            self._paused = True
            self.transport.pause_reading()
        self._wake()

    def connection_lost(self, error: Optional[BaseException]) -> None:
        self.closed = True
        self._fault = self._fault or error
        self._wake()

    def _wake(self) -> None:
        if self._waiter is not None and not self._waiter.done():
            self._waiter.set_result(None)

    # What tasks call

    async def _until(self, queue: Deque[Any], seconds: Optional[float]) -> bool:
        """Whether something came in time."""
        if self._waiter is not None:
            raise Error("another task waits on this connection")
        timer = None if seconds is None else self.loop.call_later(seconds, self._wake)
        end = None if seconds is None else self.loop.time() + seconds
        try:
            while not queue:
                if self.closed:
                    raise Closed(threads.ENDED) from self._fault
                if end is not None and self.loop.time() >= end:
                    return False
                self._waiter = self.loop.create_future()
                await self._waiter
            return True
        finally:
            self._waiter = None
            if timer is not None:
                timer.cancel()

    def is_ours(self) -> bool:
        """Whether it is of this process."""
        return self.process == os.getpid()

    def check_process(self) -> None:
        if not self.is_ours():
            raise WrongProcess("the connection is the parent process's: a forked child uses the client, which opens connections of its own")

    def check(self) -> None:
        """A request may be sent now."""
        self.check_process()
        if self.closed:
            raise Closed(threads.ENDED) from self._fault
        if self._asking:
            raise Error("another request is under way on this connection: a transaction does one operation at a time")

    @contextlib.contextmanager
    def _request(self) -> Iterator[None]:
        """If its reply was not taken, the reply may still come: then no other request can be asked on this connection."""
        self.check()
        self._asking = True
        try:
            yield
        except BaseException:
            self.close()
            raise
        finally:
            self._asking = False

    async def ask(self, request: Term) -> Any:
        """The reply. Events that come before it are kept."""
        data = frame(request)
        with self._request():
            self.transport.write(data)
            return await self._reply()

    async def begin(self, request: Term) -> Tuple[Any, Any]:
        """The replies to `begin` and to the request, as `tabd.connection.Connection.begin` has them."""
        data = BEGIN + frame(request)
        with self._request():
            self.transport.write(data)
            begun = await self._reply()
            return begun, await self._reply()

    async def ask_for(self, request: Term, seconds: float) -> Tuple[bool, Any]:
        """Whether a reply came within so many seconds, and the reply, as `tabd.connection.Connection.ask_for` has it."""
        data = frame(request)
        with self._request():
            self.transport.write(data)
            if await self._until(self._replies, seconds):
                return True, self._replies.popleft()
            self.given_up += 1
            reason = ("lock_timeout", self.given_up)
            self.transport.write(frame(("abort", reason)))
            reply = await self._reply()
            if reply == ("aborted", reason):
                return False, None
            await self._reply()
            return False, reply

    async def _reply(self) -> Any:
        if not await self._until(self._replies, self.timeout):
            raise TimedOut(f"no reply within {self.timeout} s")
        return self._replies.popleft()

    async def item(self, seconds: Optional[float] = None) -> Optional[Item]:
        """The next event or batch, or None if none came within so many seconds. Nothing is lost if the task is cancelled."""
        if not self.told:
            self.check()
            if self._paused:
                self._paused = False
                self.transport.resume_reading()
            if not await self._until(self.told, seconds):
                return None
        return self.told.popleft()

    def is_idle(self) -> bool:
        """Whether it is open and nothing has come, also nothing that the loop has not read yet."""
        if self.closed or self._replies or self.told or not self._frames.empty or self.socket is None:
            return False
        poll = select.poll()
        poll.register(self.socket, select.POLLIN)
        return not poll.poll(0)

    def close(self) -> None:
        """Closes at once; a task that waits for a reply gets `Closed`. In a forked child the parent's session goes on, and the loop is not used."""
        self.closed = True
        if not self.is_ours():
            return _close(self.socket)
        if self.transport is None or self.loop.is_closed():
            return _close(self.socket)
        self.transport.abort()
        self._wake()


def _close(sock: Optional[socket.socket]) -> None:
    if sock is not None:
        with contextlib.suppress(OSError):
            sock.close()


def _leave() -> None:
    """As `tabd.connection` does in a forked child."""
    for connection in list(_OPEN):
        _close(connection.socket)
    _OPEN.clear()


os.register_at_fork(after_in_child=_leave)
