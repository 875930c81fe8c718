# SPDX-License-Identifier: Apache-2.0
"""A connection that hands on what comes as bytes, so that a table of any size goes through little memory.

The client's own connection decodes each frame whole; a dump of a million records would take half a gigabyte so."""

from __future__ import annotations

import contextlib
import select
import socket
import struct
from typing import Any, Callable, Dict, Iterable, Iterator, List, NamedTuple, Optional, Tuple, Type, Union

import tabd
from ..wire import GREETING, check_served

# A server that accepts no more connections still lets the system open them, and says nothing on them.
OPENING_SECONDS = 10.0
# So long a command that failed waits while it removes what it began.
UNDO_SECONDS = 10.0
PIECE = 1 << 18
# Bytes of a request's payload, at most, and operations of a one-shot.
MOST_BYTES, MOST_OPERATIONS = 1_048_576, 1_000
# The beginnings of the frames that aren't decoded.
BEGIN = tabd.encode(("mnesia_table_begin", "", "", []))[:23]
BATCH = tabd.encode(("batch", 0, []))[:10]
EVENT = tabd.encode(("mnesia_table_event", ("write", 0, 0)))[1:25]
SHORTEST = len(BATCH) + 6
# A dump's names have at most 255 characters, of four bytes at most, so the count of its records is within so many bytes.
LONGEST_HEAD = len(BEGIN) + 1100


def frame(request: Any) -> bytes:
    payload = tabd.encode(request)
    return struct.pack(">I", len(payload)) + payload


def refuse(reply: Any) -> Any:
    """A reply that is no refusal; else it is raised."""
    if isinstance(reply, tuple) and reply[0] in ("aborted", "error"):
        reason = reply[1]
        word = reason[0] if isinstance(reason, tuple) and reason else reason
        raise (REFUSALS.get(word, tabd.Refused) if isinstance(word, str) else tabd.Refused)(reason)
    return reply


REFUSALS: Dict[Any, Type[tabd.Refused]] = {
    "no_exists": tabd.NoExists,
    "already_exists": tabd.AlreadyExists,
    "bad_def": tabd.BadDef,
    "bad_type": tabd.BadType,
    "locked": tabd.Locked,
    "system_limit": tabd.SystemLimit,
    "no_memory": tabd.NoMemory,
    "badterm": tabd.BadTerm,
    "outbox_full": tabd.OutboxFull,
    "overflow": tabd.OverflowPending,
}


class Dumped(NamedTuple):
    """The beginning of a frame `{mnesia_table_begin, Tab, simple, Records}`, whose bytes are still to be read."""

    table: str
    records: int
    # The offset of the first record in the frame.
    start: int


class Batch(NamedTuple):
    """A frame `{batch, N, Events}`, its length among its bytes."""

    data: bytes


class Wire:
    """A connection. `next` returns the terms of frames one after another. Of a dump's frame it reads only the beginning: `body` reads its
    records. A batch is returned as bytes."""

    def __init__(self, port: Union[int, str], host: str, timeout: Optional[float] = None) -> None:
        self.buffer, self.at, self.left = b"", 0, 0
        self.name = port if isinstance(port, str) else f"{host}:{port}"
        try:
            self.socket = self._opened(port, host)
        except OSError as error:
            raise tabd.NotConnected(f"no connection to {self.name}: {error}") from error
        try:
            self._greet()
        except BaseException:
            self.close()
            raise
        self.socket.settimeout(timeout)

    @staticmethod
    def _opened(port: Union[int, str], host: str) -> socket.socket:
        if isinstance(port, int):
            opened = socket.create_connection((host, port), OPENING_SECONDS)
            opened.setsockopt(socket.IPPROTO_TCP, socket.TCP_NODELAY, 1)
            return opened
        opened = socket.socket(socket.AF_UNIX)
        opened.settimeout(OPENING_SECONDS)
        try:
            opened.connect(port)
        except OSError:
            opened.close()
            raise
        return opened

    def _greet(self) -> None:
        """Any request shows that the connection is served, and this one changes nothing."""
        try:
            # What was refused may be closed already, and the refusal is still to be read.
            with contextlib.suppress(tabd.Closed):
                self.send(frame(GREETING))
            reply = self.reply()
        except tabd.TimedOut as error:
            raise tabd.ConnectTimeout(f"{self.name} did not answer within {OPENING_SECONDS:g} s") from error
        except (tabd.Closed, ValueError, IndexError, TypeError) as error:
            raise tabd.NotConnected(f"{self.name} has closed the connection, or is no tabd server") from error
        check_served(reply)

    def close(self) -> None:
        with contextlib.suppress(OSError):
            self.socket.shutdown(socket.SHUT_RDWR)
        self.socket.close()

    def __enter__(self) -> Wire:
        return self

    def __exit__(self, *_: object) -> None:
        self.close()

    def send(self, data: bytes) -> None:
        try:
            self.socket.sendall(data)
        except OSError as error:
            raise tabd.Closed("the connection has ended") from error

    def fill(self) -> None:
        """Reads a piece into the buffer, after its content."""
        try:
            piece = self.socket.recv(PIECE)
        except socket.timeout as error:
            raise tabd.TimedOut("nothing came in time") from error
        except OSError as error:
            raise tabd.Closed("the connection has ended") from error
        if not piece:
            raise tabd.Closed("the connection has ended")
        self.buffer = self.buffer[self.at :] + piece
        self.at = 0

    def peek(self, count: int) -> bytes:
        """So many bytes that come next, which stay."""
        while len(self.buffer) - self.at < count:
            self.fill()
        return self.buffer[self.at : self.at + count]

    def pieces(self, count: int) -> Iterator[bytes]:
        """So many bytes, in pieces."""
        while count:
            if self.at == len(self.buffer):
                self.fill()
            piece = self.buffer[self.at : self.at + count]
            self.at += len(piece)
            count -= len(piece)
            yield piece

    def next(self) -> Any:
        """The next frame's term; or a `Batch`; or a `Dumped`, after which `body` has to be called."""
        length = int.from_bytes(self.peek(4), "big")
        head = self.peek(4 + min(len(BEGIN), length))[4:]
        if head == BEGIN:
            return self._dumped(length)
        data = b"".join(self.pieces(4 + length))
        return Batch(data) if head.startswith(BATCH) else tabd.decode(data[4:])

    def _dumped(self, length: int) -> Dumped:
        head = self.peek(min(4 + length, LONGEST_HEAD))
        found = dumped(head)
        self.left = 4 + length
        return found

    def body(self) -> Iterator[bytes]:
        """All bytes of the frame that `next` gave as a `Dumped`, its length among them."""
        left, self.left = self.left, 0
        return self.pieces(left)

    def wait(self, seconds: float) -> bool:
        """Whether something comes within so many seconds; it is then in the buffer."""
        if not select.select([self.socket], [], [], seconds)[0]:
            return False
        self.fill()
        return True

    def batches(self) -> Tuple[bytes, int]:
        """The batches that are whole in the buffer, up to another frame, and the number of the last one's commit; else nothing and 0."""
        data, at, last = self.buffer, self.at, -1
        end = len(data)
        while end - at >= SHORTEST:
            after = at + 4 + int.from_bytes(data[at : at + 4], "big")
            if after > end or not data.startswith(BATCH, at + 4):
                break
            last, at = at, after
        found = data[self.at : at]
        self.at = at
        return found, commit_of(data, last + 4) if found else 0

    def has_frame(self) -> bool:
        """Whether a frame is whole in the buffer, or so long that `next` is to read it piece by piece."""
        left = len(self.buffer) - self.at
        length = int.from_bytes(self.buffer[self.at : self.at + 4], "big")
        return left >= 4 and (left >= 4 + length or length > 4 * PIECE)

    def ask(self, request: Any) -> Any:
        """The reply to a request; frames that arrive before it are dropped."""
        self.send(frame(request))
        return self.reply()

    def reply(self, told: Optional[Callable[[Any], None]] = None) -> Any:
        """The next reply. `told` is called with what arrives before it, and may read a dump's body."""
        while True:
            term = self.next()
            if not isinstance(term, (Batch, Dumped)) and term[0] == "reply":
                return term[1]
            if told is not None:
                told(term)
            for _ in self.body():
                pass


def dumped(head: bytes) -> Dumped:
    """What the first bytes of a dump's frame say, its length among them."""
    at = 4 + len(BEGIN)
    name, at = _atom(head, at)
    _, at = _atom(head, at)
    if head[at : at + 1] == b"j":
        return Dumped(name, 0, at + 1)
    if head[at : at + 1] != b"l":
        raise ValueError("a dump has no list of records")
    return Dumped(name, int.from_bytes(head[at + 1 : at + 5], "big"), at + 5)


def _atom(data: bytes, at: int) -> Tuple[str, int]:
    """The atom at an offset, and the offset after it."""
    wide = {119: 1, 118: 2}[data[at]]
    start = at + 1 + wide
    end = start + int.from_bytes(data[at + 1 : start], "big")
    return data[start:end].decode(), end


def commit_of(data: bytes, at: int) -> int:
    """The commit's number in the payload of a batch, which is at this offset."""
    at += len(BATCH)
    number: int = tabd.decode(b"\x83" + data[at : after_term(data, at, len(data))])
    return number


def operations(payload: bytes) -> List[bytes]:
    """The changes of a batch's payload as operations: of the event `{mnesia_table_event, {write, Record, {tid, Age}}}` it is `{write, Record}`,
    and so of the two deletions."""
    end = len(payload)
    at = after_term(payload, len(BATCH), end)
    if payload[at : at + 1] != b"l":
        return []
    count, at = int.from_bytes(payload[at + 1 : at + 5], "big"), at + 5
    found: List[bytes] = []
    for _ in range(count):
        if payload[at : at + len(EVENT)] != EVENT:
            raise ValueError("a batch has something else than events")
        kind = at + len(EVENT)
        age = after_term(payload, after_term(payload, kind, end), end)
        found.append(b"h\x02" + payload[kind:age])
        at = after_term(payload, age, end)
    return found


class Records:
    """The terms of a list, as bytes: `feed` gives those that are whole so far."""

    def __init__(self) -> None:
        self.rest = b""

    def feed(self, piece: bytes) -> List[bytes]:
        data, at = self.rest + piece, 0
        found: List[bytes] = []
        end = len(data)
        while at < end:
            after = after_term(data, at, end)
            if after < 0:
                break
            found.append(data[at:after])
            at = after
        self.rest = data[at:]
        return found


def elements(pieces: Iterable[bytes], found: Dumped) -> Iterator[bytes]:
    """The records of a dump's frame, each as bytes, from all the frame's pieces."""
    records, skip, left = Records(), found.start, found.records
    for piece in pieces:
        cut = min(skip, len(piece))
        skip -= cut
        for record in records.feed(piece[cut:]):
            # After the last record is the list's tail, which is a term too.
            if left:
                left -= 1
                yield record
    if left:
        raise ValueError("a dump ends within its records")


def after_term(data: bytes, at: int, end: int) -> int:
    """The offset after the term at an offset, or -1 if the data ends before it."""
    left = 1
    while left:
        if at + 5 > end and at + _HEADS.get(data[at] if at < end else 0, 6) > end:
            return -1
        tag = data[at]
        left -= 1
        if tag == 97:
            at += 2
        elif tag == 119:
            at += 2 + data[at + 1]
        elif tag == 109:
            at += 5 + int.from_bytes(data[at + 1 : at + 5], "big")
        elif tag == 104:
            left += data[at + 1]
            at += 2
        elif tag == 98:
            at += 5
        elif tag == 106:
            at += 1
        else:
            at, more = _after_rare(data, at, tag)
            left += more
        if at > end:
            return -1
    return at


# How many bytes of a term say how long it is.
_HEADS = {97: 2, 98: 5, 104: 2, 105: 5, 106: 1, 107: 3, 108: 5, 109: 5, 110: 3, 116: 5, 118: 3, 119: 2}


def _after_rare(data: bytes, at: int, tag: int) -> Tuple[int, int]:
    """The offset after a term's head and its bytes, and how many terms are in it."""
    if tag == 110:
        return at + 3 + data[at + 1], 0
    if tag == 107:
        return at + 3 + int.from_bytes(data[at + 1 : at + 3], "big"), 0
    if tag == 118:
        return at + 3 + int.from_bytes(data[at + 1 : at + 3], "big"), 0
    count = int.from_bytes(data[at + 1 : at + 5], "big")
    if tag == 105:
        return at + 5, count
    if tag == 108:
        # The tail is a term too.
        return at + 5, count + 1
    if tag == 116:
        return at + 5, 2 * count
    raise ValueError(f"tag {tag} is not read here")
