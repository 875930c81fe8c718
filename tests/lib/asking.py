"""A replay that is asked many short runs, one after another, in one process."""

import os
import subprocess
from typing import Callable, Iterable, List, Sequence, Tuple

from tests.lib.model import EMPTY, OPTIONS
from tests.lib.sessions import Book, Session
from tests.lib.wire import Term, frame, take, term_of

# A session of a run, by its index, and its request.
Step = Tuple[int, Term]


class Replay:
    """Each piece that is written comes to the program apart: the pipe keeps what is written to it so (O_DIRECT). A run is written whole before
    its replies are read, so that it takes one turn of the two processes."""

    def __init__(self, program: str, outbox: int = 64) -> None:
        self.outbox = outbox
        end, self.start = os.pipe2(os.O_DIRECT | os.O_CLOEXEC)
        self.process = subprocess.Popen([program, "replay", "--outbox", str(outbox)], stdin=end, stdout=subprocess.PIPE)
        os.close(end)
        # The number of the first session of the run, how many it has, and the age and the number of the last commit before it.
        self.first, self.count, self.age, self.number = 1, 0, 0, 0
        self.before: List[Step] = []

    def close(self) -> None:
        os.close(self.start)
        self.process.kill()
        self.process.communicate()

    def fresh(self, count: int) -> None:
        """Begins a run: the sessions of the previous run leave, so many join, and the model's tables are created again."""
        left = [(who - self.count, "leave") for who in range(self.count)]
        made = [(0, request) for tab, options in OPTIONS.items() for request in (("delete_table", tab), ("create_table", tab, options))]
        self.first, self.count = self.first + self.count, count
        self.before = [*left, *((who, "join") for who in range(count)), *made, (0, "begin"), (0, "commit")]

    def frames(self, steps: Sequence[Step]) -> bytes:
        return b"".join(frame((self.first + who, what)) for who, what in steps)

    def told(self, given: bytes, count: int, cuts: Iterable[int] = ()) -> List[bytes]:
        """The frames of so many replies to input that is sent at once, or cut at these offsets."""
        places = [0, *sorted(cuts), len(given)]
        for piece in [self.frames(self.before), *(given[first:last] for first, last in zip(places, places[1:]))]:
            os.write(self.start, piece)
        out = self.process.stdout
        assert out
        heads = (take(out, 4) for _ in range(len(self.before) + count))
        replies = [head + take(out, int.from_bytes(head, "big")) for head in heads]
        if self.before:
            (_, self.age), (_, self.number) = (term_of(it)[1] for it in replies[len(self.before) - 2 : len(self.before)])
        replies, self.before = replies[len(self.before) :], []
        return replies

    def ask(self, steps: Sequence[Step]) -> List[Term]:
        """The replies to steps of the run's sessions."""
        return [term_of(one)[1] for one in self.told(self.frames(steps), len(steps))]

    def book(self, model: Callable[[int], Book]) -> Book:
        """The model of the run, as it was before the first steps."""
        book = model(self.outbox)
        book.tables, book.age, book.number, book.last = EMPTY, self.age, self.number, self.first + self.count - 1
        book.sessions = {self.first + who: Session() for who in range(self.count)}
        return book
