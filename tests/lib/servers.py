"""A `tabd serve` for a test or a measurement: with any options, at a port or a socket file, with its memory and its counters."""

import contextlib
import http.client
import os
import pathlib
import re
import resource
import subprocess
import threading
import time
from typing import Any, Callable, Dict, List, Optional, Tuple, TypeVar

from tests.lib.checks import LIMIT, same, soon
from tests.lib.wire import Connection, Place, Term, frame

# An end takes so many seconds at most.
TO_END = 60
# What a session that has ended did is counted after so many seconds at most, and memory is given back after so many.
COUNTED, SETTLED = 5.0, 0.3
# The number of the system call, on x86-64.
ACCEPT4 = "288"
# A line that never comes would be waited for without an end.
LONGEST = 250


Self = TypeVar("Self", bound="Server")


class Server:
    """With these arguments, at a port, or at the socket file of a path; options are those of Popen."""

    client = Connection

    def __init__(self, program: str, *words: str, path: Optional[str] = None, **options: Any) -> None:
        where = ["--socket", path] if path else ["--port", "0"]
        pipes: Any = {"stdin": subprocess.DEVNULL, "stdout": subprocess.PIPE, "stderr": subprocess.PIPE, **options}
        self.process: subprocess.Popen[str] = subprocess.Popen([program, "serve", *where, *words], text=True, **pipes)
        line = self.line()
        if not line.startswith("listening on "):
            raise OSError(f"the server does not start: {line}{self.process.communicate()[1]}")
        self.connections: List[Connection] = []
        said = line.removeprefix("listening on ").removesuffix("\n")
        self.place: Place = said if path else int(said.rsplit(":", 1)[1])
        self.limit = threading.Timer(LONGEST, self.process.kill)
        self.limit.daemon = True
        self.limit.start()

    def __enter__(self: Self) -> Self:
        return self

    def __exit__(self, *_: object) -> None:
        self.limit.cancel()
        self.process.kill()
        self.process.communicate()

    def line(self) -> str:
        """The next that it says."""
        return self.process.stdout.readline()  # type: ignore[union-attr]

    def log(self) -> str:
        """The next line on standard error."""
        return self.process.stderr.readline()  # type: ignore[union-attr]

    def connect(self, small: bool = False) -> Any:
        self.connections.append(self.client(self.place, small))
        return self.connections[-1]

    def clients(self, count: int) -> List[Any]:
        return [self.connect() for _ in range(count)]

    def ends(self, status: int = 0, said: str = "") -> None:
        """By itself once its connections are closed, and says no more than this, on standard error."""
        __tracebackhide__ = True
        same("its end", self.ended(), (status, said))

    def ended(self) -> Tuple[int, str]:
        """Its status and what it says on standard error, once its connections are closed; it says nothing on standard output."""
        for connection in self.connections:
            connection.close()
        out, errors = self.process.communicate(timeout=TO_END)
        assert out == "", "what it says"
        return self.process.returncode, errors

    def is_stopped(self, said: str = "") -> None:
        """A signal ends it, and it has not ended before, nor said more than this on standard error."""
        __tracebackhide__ = True
        assert self.stopped() == said, "what it said"

    def stopped(self) -> str:
        """What it said on standard error up to a signal that ends it."""
        assert self.process.poll() is None, "it runs"
        self.process.terminate()
        return self.process.communicate()[1]

    def seated(self) -> Tuple[Connection, Term]:
        """A connection that the server serves, as soon as it can serve one more, and its first reply."""
        found = soon(self.begun, bool)
        assert found, "the server serves no more connections"
        return found

    def begun(self) -> Optional[Tuple[Connection, Term]]:
        """A connection with its first reply, if it is served."""
        connection = self.connect()
        # It may be closed before the request is sent, or read, or answered.
        with contextlib.suppress(OSError, ValueError):
            if (found := connection.ask("begin")) != LIMIT[1]:
                return connection, found
        connection.close()
        return None

    def proc(self, name: str) -> str:
        """What the system says of its process."""
        return pathlib.Path(f"/proc/{self.process.pid}/{name}").read_text(encoding="utf-8")

    def status(self) -> Dict[str, str]:
        lines = self.proc("status").splitlines()
        return {name: value for name, _, value in (line.partition(":") for line in lines)}

    def kilobytes(self, name: str = "VmRSS") -> int:
        """What it holds once it has given back what it may."""
        time.sleep(SETTLED)
        return int(self.status()[name].split()[0])

    def held(self) -> Tuple[int, int, int]:
        """What it holds: threads, descriptors, kilobytes."""
        status = self.status()
        return int(status["Threads"]), len(os.listdir(f"/proc/{self.process.pid}/fd")), int(status["VmRSS"].split()[0])

    def settled(self, wanted: Tuple[int, int]) -> Tuple[int, int, int]:
        """What it holds, once its threads and descriptors are as many as wanted."""

        def settles(found: Tuple[int, int, int]) -> bool:
            return found[:2] == wanted

        return soon(self.held, settles)

    def accepts_no_more(self) -> None:
        """It may open no more handles: the next connection is closed with no frame. The accept that waits has its handle already."""
        found = soon(lambda: self.proc("syscall").split()[0], lambda call: call == ACCEPT4)
        assert found == ACCEPT4, "it accepts no connection"
        resource.prlimit(self.process.pid, resource.RLIMIT_NOFILE, (3, 3))
        assert self.connect().stream.read() == b"", "the next"

    def used(self) -> float:
        """The seconds of a processor that it has used."""
        fields = self.proc("stat").rsplit(")", 1)[1].split()
        return (int(fields[11]) + int(fields[12])) / os.sysconf("SC_CLK_TCK")


def descriptors(count: int) -> Callable[[], None]:
    """For `preexec_fn`: so many at most."""
    return lambda: resource.setrlimit(resource.RLIMIT_NOFILE, (count, count))


def forever(program: str, seats: int, *words: str, **options: Any) -> Server:
    """Serves so many connections at once and never ends. Its journal is soon full, and grows no more."""
    return Server(program, "--connections", str(seats), "--forever", "--journal", "16", *words, **options)


class Client(Connection):
    """Counts the bytes of what it sends and is sent."""

    def __init__(self, place: Place, small: bool = False) -> None:
        super().__init__(place, small)
        self.sent, self.received = 0, 0

    def send(self, *requests: Term) -> None:
        self.sent += sum(len(frame(it)) for it in requests)
        super().send(*requests)

    def receive(self) -> Term:
        term = super().receive()
        self.received += len(frame(term))
        return term


class Metered(Server):
    """One that never ends, whose counters can be asked."""

    client = Client

    def __init__(self, program: str, seats: int, *words: str) -> None:
        super().__init__(program, "--connections", str(seats), "--forever", "--journal", "16", "--metrics", "0", *words)
        found = re.fullmatch(r"metrics on 127\.0\.0\.1:(\d+)\n", self.line())
        assert found, "the address of its counters"
        self.pages = int(found[1])

    def ask(self, method: str = "GET", path: str = "/metrics") -> Tuple[int, Optional[str], str]:
        """The status, the kind and the text."""
        connection = http.client.HTTPConnection("127.0.0.1", self.pages, timeout=10)
        connection.request(method, path)
        reply = connection.getresponse()
        return reply.status, reply.getheader("Content-Type"), reply.read().decode()

    def page(self) -> Dict[str, float]:
        """The value of each metric that has no label, as Prometheus reads it: two lines of comments come before it."""
        return {name: values[""] for name, values in self.samples().items() if "" in values}

    def samples(self) -> Dict[str, Dict[str, float]]:
        """The values of each metric, by the text between its braces."""
        status, kind, text = self.ask()
        same("the page", (status, kind), (200, "text/plain; version=0.0.4"))
        sections = re.findall(r"# HELP tabd_(\w+) .+\n# TYPE tabd_\1 (\w+)\n((?:tabd_\1[{ ].*\n)*)", text)
        same("its lines", "".join(f"# TYPE tabd_{name} {kind}\n{lines}" for name, kind, lines in sections), re.sub("# HELP.*\n", "", text))
        for name, kind, _ in sections:
            same(name, kind, "counter" if name.endswith("_total") else "gauge")
        return {name: samples_in(name, lines) for name, _, lines in sections}

    def has(self, **wanted: float) -> None:
        """These metrics, once all is counted that has happened."""
        __tracebackhide__ = True
        found = soon(lambda: {name: self.page()[name] for name in wanted}, lambda found: found == wanted, COUNTED)
        assert found == wanted, "metrics"


def samples_in(name: str, lines: str) -> Dict[str, float]:
    """The values of a metric's lines, by the text between the braces of each; without braces by none."""
    found = re.findall(r"tabd_\w+(?:\{(.*)\})? (\d+(?:\.\d{6})?)\n", lines)
    same(name, len(found), lines.count("\n"))
    return {label: float(value) for label, value in found}
