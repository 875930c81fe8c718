# SPDX-License-Identifier: Apache-2.0
"""Writes many records, or applies many changes, in few requests: one-shots below the server's limits, of which several are under way."""

from __future__ import annotations

import struct
from collections import deque
from typing import Callable, Deque, Iterable, List, Tuple

import tabd

from .wire import MOST_BYTES, MOST_OPERATIONS, Wire, frame, refuse

# A one-shot's bytes around its operations, and the operations' own.
BEFORE = tabd.encode(("transaction", [], 0))[:-3]
BEHIND = b"j" + tabd.encode(1000)[1:]
WRITE = tabd.encode(("write", 0))[1:-2]
# What is under way: enough that the server needn't wait for the client.
WINDOW = 4
# One-shots of a quarter of the limit: others wait for one of them at most.
WANTED_BYTES = MOST_BYTES // 4


class Loader:
    """Sends operations in their order.

    A record that fits a `write` of its own may be too long or too deep for a one-shot, by a few bytes or two levels. A record that is too long
    is found before it is sent. For one that is too deep `BadTerm` is raised, possibly after later requests were done: the tables then have to be
    created again, by a careful loader. It sends one request at a time, and each operation by itself if a one-shot is refused so."""

    def __init__(self, wire: Wire, careful: bool = False, said: Callable[[int], None] = lambda count: None) -> None:
        self.wire, self.careful, self.said = wire, careful, said
        self.operations: List[bytes] = []
        self.size = self.done = 0
        self.sent: Deque[Tuple[List[bytes], int]] = deque()

    def load(self, records: Iterable[bytes]) -> None:
        """Writes records, each of which is a term's bytes."""
        for record in records:
            self.add(WRITE + record)

    def add(self, operation: bytes) -> None:
        if self.operations and (self.size + len(operation) > WANTED_BYTES or len(self.operations) == MOST_OPERATIONS - 1):
            self.flush()
        if len(operation) > MOST_BYTES - 64:
            self.finish()
            self._alone(operation)
            self._count(1)
            return
        self.operations.append(operation)
        self.size += len(operation)

    def flush(self) -> None:
        """Sends what was added."""
        if not self.operations:
            return
        payload = b"".join([BEFORE, b"l", struct.pack(">I", len(self.operations)), *self.operations, BEHIND])
        self.wire.send(struct.pack(">I", len(payload)) + payload)
        self.sent.append((self.operations, len(self.operations)))
        self.operations, self.size = [], 0
        self.settle(0 if self.careful else WINDOW - 1)

    def settle(self, most: int) -> None:
        """Takes replies until so many requests are under way."""
        while len(self.sent) > most:
            operations, count = self.sent.popleft()
            reply = self.wire.reply()
            if self.careful and reply == ("error", "badterm"):
                for operation in operations:
                    self._alone(operation)
            elif reply == ("aborted", "nomore"):
                raise tabd.NoMore("nomore")
            else:
                refuse(reply)
            self._count(count)

    def finish(self) -> None:
        """Sends the remaining operations, and takes all replies."""
        self.flush()
        self.settle(0)

    def give_up(self) -> None:
        """Takes the replies that are still to come, whatever they are."""
        self.operations, self.size = [], 0
        while self.sent:
            self.sent.popleft()
            self.wire.reply()

    def _count(self, count: int) -> None:
        self.done += count
        self.said(self.done)

    def _alone(self, operation: bytes) -> None:
        """In a transaction of its own, without a one-shot."""
        request = struct.pack(">I", len(operation) + 1) + b"\x83" + operation
        refuse(self.wire.ask("begin"))
        while True:
            self.wire.send(request)
            reply = self.wire.reply()
            if reply != "restart":
                break
        try:
            refuse(reply)
        except tabd.Refused:
            self.wire.send(frame(("abort", "refused")))
            self.wire.reply()
            raise
        refuse(self.wire.ask("commit"))
