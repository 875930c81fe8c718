"""Streams of `tabd replay` whose replies are known: those of streams.tsv, which another program made, and the scripts of scripts.txt.

Each has one reply frame for each request frame, in their order, so the replies to a beginning of it are known too. test_streams.py compares them
with those of the model of sessions.py.
"""

from typing import Iterable, Iterator, List, Tuple

from tests.lib.checks import ATOMIC, OK
from tests.lib.notation import Step, columns_of, parts_of, rows_of
from tests.lib.wire import frames, frames_of

DAMAGED, DEVICE = b"tabd: damaged input\n", b"tabd: device\n"
# As many sessions and tables as there may be, and one more.
LIMITS: List[Step] = [
    *[(session, "join", OK) for session in range(1, 65)],
    (65, "join", ("error", ("system_limit", "sessions"))),
    *[(1, ("create_table", f"t{number}", []), ATOMIC) for number in range(256)],
    (1, ("create_table", "more", []), ("error", ("system_limit", "tables"))),
    (64, "leave", OK),
    (65, "join", OK),
]


class Stream:
    """A name, the capacity of the outboxes, the words of the program, the frames of input and output, and bytes that follow and are no frame."""

    def __init__(self, name: str, outbox: int, given: bytes, told: bytes, ended: str = "whole") -> None:
        self.name, self.outbox, self.words = name, outbox, ["replay", "--outbox", str(outbox)]
        self.given, self.rest = frames_of(given)
        self.told, over = frames_of(told)
        if over or len(self.told) != len(self.given) or (ended == "damaged") != bool(self.rest):
            raise ValueError(f"{name}: {len(self.given)} requests, {len(self.told)} replies, {len(self.rest)} bytes more")
        self.all = b"".join(self.given) + self.rest

    def answer(self, length: int) -> Tuple[int, bytes, bytes]:
        """The status, output and errors of the first so many bytes: whole frames are answered, then half a frame is damage."""
        place = 0
        for count, one in enumerate(self.given):
            if place + len(one) > length:
                break
            place += len(one)
        else:
            count = len(self.given)
        told = b"".join(self.told[:count])
        return (0, told, b"") if place == length else (3, told, DAMAGED)


def bytes_of(text: str) -> bytes:
    """The bytes of a text such as `83 3*6801`."""
    out = b""
    for word in text.split():
        count, _, digits = word.rpartition("*")
        out += bytes.fromhex(digits) * int(count or 1)
    return out


def scripts() -> Iterator[Tuple[str, int, List[Step]]]:
    """The name of each, the capacity of the outboxes, and the steps."""
    for name, outbox, *terms in parts_of("scripts.txt"):
        yield name, outbox, rows_of(terms)
    yield "sessions and tables", 64, LIMITS


def of_steps(steps: Iterable[Step]) -> Tuple[bytes, bytes]:
    """The frames of the requests, and of the replies."""
    each = list(steps)
    return frames(*((session, request) for session, request, _ in each)), frames(*((session, reply) for session, _, reply in each))


def streams() -> Iterator[Stream]:
    for name, outbox, ended, given, told in columns_of("streams.tsv"):
        yield Stream(name, int(outbox), bytes_of(given), bytes_of(told), ended)
    for script, capacity, steps in scripts():
        yield Stream(script, capacity, *of_steps(steps))
