"""Programs whose allocations can be refused, one in turn: a replay that is asked frame by frame, and a server.

A C library in front of the program's `malloc` refuses. A program with an allocator of its own, such as one that was built with a
sanitizer, does not meet it.
"""

import collections
import mmap
import os
import struct
import subprocess
import tempfile
from typing import Any, Callable, Counter, Iterable, List, Tuple

from tests.lib.servers import Server
from tests.lib.wire import term_of

NO_MEMORY = ("error", "no_memory")
# The first allocation of a vector may be tried twice: after so many runs with no refusal there are no more allocations.
NONE_LEFT = 2
# So many faults are shown.
MOST = 5


def built(name: str, folder: Any) -> str:
    """The library of a source in this file's folder."""
    source, library = os.path.join(os.path.dirname(__file__), f"{name}.c"), os.path.join(folder, f"{name}.so")
    subprocess.run(["cc", "-shared", "-fPIC", "-O1", "-o", library, source, "-ldl", "-lpthread"], check=True)
    return library


def tried(numbers: Iterable[int], run: Callable[[int], str]) -> Tuple[Counter[str], List[str]]:
    """How often the runs ended in each way, with these allocations refused in turn, and the first faults."""
    ends: Counter[str] = collections.Counter()
    faults: List[str] = []
    for nth in numbers:
        if ends["none"] == NONE_LEFT or len(faults) == MOST:
            break
        try:
            ends[run(nth)] += 1
        except (AssertionError, OSError, ValueError, subprocess.TimeoutExpired) as error:
            faults.append(f"allocation {nth}: {type(error).__name__} {error}")
    print(ends)
    return ends, faults


class RefusedReplay:
    """A replay whose nth allocation is refused, of those that it makes once so many pieces were read. Further values of the environment are
    those of a wrong one."""

    def __init__(self, program: str, library: str, words: Any, nth: int, start: int = 1, **wrong: Any) -> None:
        self.report, told = os.pipe()
        env = {"LD_PRELOAD": library, "NTH": str(nth), "FROM": str(start), "REPORT": str(told), **wrong}
        pipe = subprocess.PIPE
        self.process: Any = subprocess.Popen([program, *words], stdin=pipe, stdout=pipe, stderr=pipe, env=env, pass_fds=[told], bufsize=0)
        os.close(told)
        # How many frames were answered, and how many of them with no_memory.
        self.answered, self.refused = 0, 0

    def __enter__(self) -> Any:
        return self

    def __exit__(self, *_: Any) -> None:
        self.process.kill()
        self.process.communicate()

    def ask(self, given: Any) -> Any:
        """The reply's frame, or None if the run has ended."""
        try:
            self.process.stdin.write(given)
        except BrokenPipeError:
            return None
        told = b""
        while len(told) < 4 or len(told) < 4 + int.from_bytes(told[:4], "big"):
            more = self.process.stdout.read(65_536)
            if not more:
                assert not told, f"a reply is cut: {told!r}"
                return None
            told += more
        self.answered += 1
        return told

    def asked(self, given: Any, wanted: Any) -> Any:
        """The reply, which has to be the wanted one, at the latest when the request is sent again. None if the run has ended."""
        told = self.ask(given)
        if told is not None and is_no_memory(told, wanted) and told != wanted:
            self.refused += 1
            told = self.ask(given)
        assert told in (None, wanted), f"frame {self.answered}: told {told!r}, wanted {wanted!r}"
        return told

    def ended(self) -> Tuple[Any, ...]:
        """The step at which memory was refused, and how the run ended."""
        _, err = self.process.communicate()
        with open(self.report, encoding="utf-8") as file:
            where = tuple(map(int, file.read().split()))
        return where, self.process.returncode, err


def is_no_memory(told: Any, wanted: Any) -> bool:
    """Under the session that the wanted reply has, or under 0."""
    session, reply = term_of(told)
    return reply == NO_MEMORY and session in (0, term_of(wanted)[0])


class RefusedServer(Server):
    """A server whose allocations and threads can be refused, those of its start included."""

    def __init__(self, program: str, library: str, *words: str, nth: int = 0) -> None:
        self.file = tempfile.TemporaryFile()
        self.file.truncate(16)
        self.control = mmap.mmap(self.file.fileno(), 16)
        self.refuse(nth)
        env = {"LD_PRELOAD": library, "CONTROL": f"/proc/self/fd/{self.file.fileno()}"}
        super().__init__(program, *words, env=env, pass_fds=[self.file.fileno()])

    def __exit__(self, *_: Any) -> None:
        super().__exit__()
        self.control.close()
        self.file.close()

    def refuse(self, nth: int) -> None:
        self.control[:] = struct.pack("ll", nth, 0)

    def made(self) -> Any:
        """How many allocations and threads were made since; from here on none is refused."""
        _, count = struct.unpack("ll", self.control[:])
        self.control[:8] = struct.pack("l", 0)
        return count
