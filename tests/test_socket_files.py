"""`tabd serve --socket`: what becomes of the socket file, and what is said of it.

test_forever.py tests the replies over a socket file. Each case has a folder of its own.
"""

import contextlib
import os
import pathlib
import socket
import stat
import subprocess
import tempfile
import time
from typing import Any, Callable, Iterator, Tuple

import pytest

from tests.lib.checks import ATOMIC, CREATE, script
from tests.lib.playing import play
from tests.lib.servers import Server
from tests.lib.wire import Connection

DEVICE = "tabd: device\n"
IN_USE = DEVICE + "tabd: Address already in use (os error 98)\n"
# A start or an end takes so many seconds at most.
PATIENCE = 10
# A start that does not wait takes less.
AT_ONCE = 1


class Place:
    """The program, with a folder for a socket file."""

    def __init__(self, program: str, folder: str) -> None:
        self.program, self.folder, self.path = program, folder, os.path.join(folder, "socket")

    def server(self, *more: Any, path: Any = None, connections: int = 2, **options: Any) -> Any:
        """A server that has printed its address."""
        server = Server(self.program, "--connections", str(connections), *more, path=path or self.path, **options)
        assert server.place == (path or self.path), "the address"
        return server

    def refused(self, told: Any, *more: Any, path: Any = None, **options: Any) -> None:
        """A start fails, and says no more than this on standard error."""
        words = [self.program, "serve", "--socket", path or self.path, "--connections", "2", *more]
        done = subprocess.run(words, stdin=subprocess.DEVNULL, capture_output=True, text=True, timeout=PATIENCE, check=False, **options)
        assert (done.returncode, done.stdout, done.stderr) == (1, "", told), "a start that fails"

    def file(self) -> Tuple[Any, ...]:
        found = os.lstat(self.path)
        return found.st_ino, stat.S_IFMT(found.st_mode), stat.S_IMODE(found.st_mode)


@pytest.fixture
def place(tabd: str) -> Iterator[Place]:
    """In a short path, since that of a socket file is."""
    with tempfile.TemporaryDirectory() as folder:
        yield Place(tabd, folder)


def is_served(path: str) -> None:
    """A transaction that comes to a file is answered."""
    connection = Connection(path)
    script((connection, "begin", ("tid", 1)), (connection, ("abort", "no"), ("aborted", "no")))
    connection.close()


@pytest.mark.parametrize("umask, wanted", [(0o177, 0o600), (0o117, 0o660)], ids=["for one user", "for a group"])
def test_mode(place: Any, umask: int, wanted: Any) -> None:
    """The umask sets the file's permissions."""
    with place.server(umask=umask):
        assert place.file()[1:] == (stat.S_IFSOCK, wanted)


def test_requests_and_events(place: Place) -> None:
    """Requests and events, and the end of a server whose connections are closed: the file is gone."""
    with place.server() as server:
        play(server.clients(2), "requests and events")
        server.ends()
        assert os.listdir(place.folder) == [], "the folder"


def test_with_counters(place: Place) -> None:
    """The port of the counters stays on loopback."""
    with place.server("--metrics", "0") as server:
        port = int(server.line().removeprefix("metrics on 127.0.0.1:"))
        socket.create_connection(("127.0.0.1", port)).close()
        is_served(place.path)


def test_file_of_a_killed_server(place: Place) -> None:
    """A file at which no one listens any more is taken over."""
    with place.server():
        pass
    left = place.file()
    with place.server():
        is_served(place.path)
    # A signal leaves it too.
    with place.server("--forever") as server:
        server.process.terminate()
        server.process.wait(PATIENCE)
        assert place.file()[1] == left[1], "the file"
    with place.server():
        is_served(place.path)


def test_in_use(place: Place) -> None:
    """A file at which a server listens stays, and so does that server."""
    # A start that is refused has connected, to see whether a server listens, and that server may not have seen it go yet.
    with place.server("--forever", connections=3):
        before = place.file()
        place.refused(IN_USE)
        place.refused(IN_USE, "--log")
        assert place.file() == before, "the file"
        is_served(place.path)


def make_link(path: pathlib.Path) -> None:
    """To a socket file at which no one listens."""
    with socket.socket(socket.AF_UNIX) as left:
        left.bind(f"{path}.left")
    path.symlink_to(f"{path}.left")


def contents(path: pathlib.Path) -> Tuple[object, ...]:
    """Of a link, a folder or a file."""
    if path.is_symlink():
        return os.readlink(path), path.exists()
    return tuple(path.iterdir()) if path.is_dir() else (path.read_bytes(),)


MAKES = {"a file": lambda path: path.write_text("kept"), "a folder": pathlib.Path.mkdir, "a link": make_link}


@pytest.mark.parametrize("make", MAKES.values(), ids=MAKES.keys())
def test_no_socket(place: Place, make: Callable[[pathlib.Path], None]) -> None:
    """What is no socket file stays as it is."""
    path = pathlib.Path(place.path)
    make(path)
    before = place.file(), contents(path)
    place.refused(IN_USE)
    assert (place.file(), contents(path)) == before


def test_no_accept(place: Place) -> None:
    """A server that ends since it can't accept removes its file too."""
    with place.server(connections=4) as server:
        script((server.connect(), CREATE, ATOMIC))
        server.accepts_no_more()
        server.ends(1, DEVICE + "tabd: Too many open files (os error 24)\n")
        assert os.listdir(place.folder) == [], "the folder"


def test_exchanged(place: Place) -> None:
    """The server does not remove a file that has replaced its own."""
    with place.server() as server, socket.socket(socket.AF_UNIX) as other:
        server.clients(2)
        other.bind(place.path + ".other")
        os.rename(place.path + ".other", place.path)
        before = place.file()
        server.ends()
        assert place.file() == before, "the file"


def test_removed(place: Place) -> None:
    """Nor does it mind that the file is gone."""
    with place.server() as server:
        server.clients(2)
        os.unlink(place.path)
        server.ends()


def test_no_page(place: Place) -> None:
    """A start that fails after it has created the file removes it."""
    with socket.create_server(("127.0.0.1", 0)) as taken:
        place.refused(IN_USE, "--metrics", str(taken.getsockname()[1]))
        assert os.listdir(place.folder) == [], "the folder"


def test_a_closed_stream(place: Place) -> None:
    """A standard stream is closed, whose number the socket would get."""
    for file, told in enumerate([DEVICE + "tabd: a standard stream is closed\n"] * 2 + [""]):
        place.refused(told, preexec_fn=lambda file=file: os.close(file))
        assert os.listdir(place.folder) == [], "the folder"


def test_a_long_path(place: Place) -> None:
    """A path has 107 bytes at most."""
    most = os.path.join(place.folder, "x" * (106 - len(place.folder)))
    assert len(most) == 107, "its length"
    with place.server(path=most):
        is_served(most)
    os.unlink(most)
    place.refused(DEVICE + "tabd: path must be shorter than SUN_LEN\n", path=most + "x")
    assert os.listdir(place.folder) == [], "the folder"


def test_no_folder(place: Place) -> None:
    """The folder has to be there."""
    place.refused(DEVICE + "tabd: No such file or directory (os error 2)\n", path=os.path.join(place.folder, "none", "socket"))


def test_no_permission(place: Place) -> None:
    """A folder in which not even the superuser makes a file."""
    place.refused(DEVICE + "tabd: Operation not permitted (os error 1)\n", path="/sys/kernel/tabd")


@pytest.mark.tries(3)
def test_a_full_queue(place: Place) -> None:
    """A listener that accepts nothing, and whose queue has no room for one more: the start fails at once."""
    with contextlib.ExitStack() as stack:
        listener = stack.enter_context(socket.socket(socket.AF_UNIX))
        listener.bind(place.path)
        listener.listen(0)
        while True:
            waiting = stack.enter_context(socket.socket(socket.AF_UNIX))
            waiting.setblocking(False)
            if waiting.connect_ex(place.path):
                break
        begun, before = time.monotonic(), place.file()
        place.refused(IN_USE)
        assert time.monotonic() - begun < AT_ONCE and place.file() == before


def test_a_relative_path(place: Place) -> None:
    """A path from the folder in which the server was started."""
    with place.server(path="socket", cwd=place.folder):
        is_served(place.path)
