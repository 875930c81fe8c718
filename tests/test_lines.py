"""The built program over command lines and sessions: exit status, standard output and standard error.

The code between the proved function `run` and the operating system has no contract: the arguments of the process, its
streams, its status. Expected values are written by hand; test_streams.py has the streams that another program made.
"""

import os
import resource
import socket
import subprocess
from typing import Any, Iterator, List, Tuple

import pytest

from tests.lib.checks import ATOMIC, CREATE, HERE_OK, MARK, OK, event, holds, watch, write
from tests.lib.notation import Step, columns_of
from tests.lib.streams import DAMAGED, DEVICE, of_steps
from tests.lib.wire import Term, frame, frames

LONGEST = 1_048_576
GREATEST = 4_294_967_295
# A process that reads what follows has so many bytes of addresses: room for the bytes that came, and not for all that their
# counts announce.
LITTLE = 64 * 1_048_576
# The same for a process that reads a map as long as a payload may be: the pairs, with room for as many again, take 16 MB.
FOR_A_MAP = 48 * 1_048_576
ASKED, CLOSED = frame((1, "join")), DEVICE + b"tabd: a standard stream is closed\n"
SERVE = ["serve", "--port", "0", "--connections", "1"]
COMMAND_LINES = list(columns_of("command_lines.tsv"))


def longest(size: int) -> Any:
    """A session that writes a record in a payload of so many bytes."""
    start = [(1, "join"), (1, ("create_table", "t", [])), (1, "begin")]
    bare = len(frame((1, ("write", ("t", 1, b""))))) - 4
    return frames(*start, (1, ("write", ("t", 1, bytes(size - bare)))))


def commits(count: int) -> Iterator[Step]:
    """As many transactions of one write."""
    yield from [(1, "join", OK), (1, CREATE, ATOMIC)]
    for number in range(1, count + 1):
        yield from [(1, "begin", ("tid", number)), (1, write(number % 7, number), OK), (1, "commit", ("atomic", number))]


def begins(count: int) -> Iterator[Step]:
    """As many transactions that are aborted at once: each has the next age."""
    yield 1, "join", OK
    for age in range(1, count + 1):
        yield from [(1, "begin", ("tid", age)), (1, ("abort", "why"), ("aborted", "why"))]


def used_up() -> List[Step]:
    """The limits of levels and of operations, both reached: the reply to a begin is the first, and after a level has ended the other."""
    read, levels, operations = ("read", "t", 1), 16, 1000
    nesting, too_many = (("error", ("system_limit", what)) for what in ("nesting", "operations"))
    children = levels - 1
    return [
        (1, "join", OK),
        (1, CREATE, ATOMIC),
        *[(1, "begin", ("tid", 1))] * levels,
        *[(1, read, [])] * (operations - children),
        (1, "begin", nesting),
        (1, read, too_many),
        (1, "commit", ATOMIC),
        (1, "begin", too_many),
        *[(1, "commit", ATOMIC)] * (children - 1),
        (1, read, too_many),
        (1, "commit", ("atomic", 1)),
    ]


def watched(count: int) -> Iterator[Step]:
    """64 sessions watch as many commits; all but the last take each batch, and the last gets its overflow."""
    sessions, last = range(1, 65), 64
    batches = [("batch", number, [event(number % 7, number, number)]) for number in range(1, count + 1)]
    yield from ((session, "join", OK) for session in sessions)
    yield 1, CREATE, ATOMIC
    yield from ((session, watch(), HERE_OK) for session in sessions)
    yield from ((session, "take", MARK) for session in sessions[:-1])
    for number, batch in enumerate(batches, 1):
        yield from [(1, "begin", ("tid", number)), (1, write(number % 7, number), OK), (1, "commit", ("atomic", number))]
        yield from ((session, "take", batch) for session in sessions[:-1])
    yield from ((last, "take", item) for item in [MARK, *batches[:63], ("mnesia_overflow", 64), "empty"])
    yield from ((session, "take", "empty") for session in sessions[:-1])


def payloads(*each: Any) -> Any:
    return b"".join(len(payload).to_bytes(4, "big") + payload for payload in each)


def nested(levels: int) -> Any:
    """A tuple in a tuple, with so many levels in all."""
    term: Term = ()
    for _ in range(levels - 1):
        term = (term,)
    return term


def odd_payloads() -> Tuple[Any, ...]:
    """Payloads that are no request are refused: as no command if it is a term, however long, and as no term if it is none, however
    deep. The requests after them are served."""
    binary = b"\x83m" + (LONGEST - 6).to_bytes(4, "big") + bytes(LONGEST - 6)
    lists, tuples = b"\x83" + b"\x6c" * (LONGEST - 1), b"\x83" + b"h\x01" * ((LONGEST - 1) // 2)
    no_term, no_command = (0, ("error", "badterm")), (0, ("error", "badcommand"))
    asked = payloads(lists, tuples, binary) + frames((1, nested(63)), (1, nested(64)), (1, "join"))
    return asked, frames(no_term, no_term, no_command, (1, no_command[1]), no_term, (1, "ok"))


def run(program: str, words: Any, **streams: Any) -> Tuple[Any, ...]:
    streams = {"stdout": subprocess.PIPE, "stderr": subprocess.PIPE, **streams}
    done = subprocess.run([program, *words], timeout=100, check=False, **streams)
    return done.returncode, done.stdout, done.stderr


def announced() -> Tuple[Any, ...]:
    """Payloads whose counts announce far more than comes: 64 lists, tuples or maps of 65,535 members, each in the one before."""
    announcing = [b"\x83" + head * 64 for head in (b"\x6c\0\0\xff\xff", b"\x69\0\0\xff\xff", b"\x74\0\0\xff\xff")]
    return payloads(*announcing), frames(*[(0, ("error", "badterm"))] * len(announcing))


def longest_map() -> Tuple[Any, ...]:
    """A request that is a map of as many integers as a payload holds, in falling order, each to the empty list."""
    head = b"\x83h\x02a\x01t"
    count = (LONGEST - len(head) - 4) // 6
    pairs = b"".join(b"b" + key.to_bytes(4, "big") + b"j" for key in range(count, 0, -1))
    return payloads(head + count.to_bytes(4, "big") + pairs), frames((1, ("error", "badcommand")))


def is_told(wanted: Any, found: Any) -> Any:
    return found.startswith(wanted) if wanted else not found


def unescaped(text: str) -> bytes:
    return text.encode().decode("unicode_escape").encode("latin-1")


@pytest.mark.parametrize("words, out, err, status", COMMAND_LINES, ids=[words or "none" for words, *_ in COMMAND_LINES])
def test_arguments(tabd: str, words: str, out: str, err: str, status: str) -> None:
    found = run(tabd, [unescaped(word) for word in words.split(" ")] if words else [], stdin=subprocess.DEVNULL)
    assert found[0] == int(status) and is_told(unescaped(out), found[1]) and is_told(unescaped(err), found[2]), found


BEGUN = frames((1, "ok"), (1, ("atomic", "ok")), (1, ("tid", 1)))
# Input and output, made when they are needed, status and standard error of a replay.
STREAMS = [
    pytest.param(lambda: (frames((GREATEST, "join")), frames((GREATEST, "ok"))), 0, b"", id="the greatest session"),
    pytest.param(lambda: (longest(LONGEST), BEGUN + frames((1, "ok"))), 0, b"", id="the longest payload"),
    pytest.param(lambda: (longest(LONGEST + 1), BEGUN), 3, DAMAGED, id="a payload that is too long"),
    pytest.param(odd_payloads, 0, b"", id="the longest and the deepest"),
    pytest.param(lambda: of_steps(commits(10_000)), 0, b"", id="10,000 commits"),
    # Past ages of two bytes.
    pytest.param(lambda: of_steps(begins(65_540)), 0, b"", id="65,540 begins"),
    pytest.param(lambda: of_steps(used_up()), 0, b"", id="both limits"),
    pytest.param(lambda: of_steps(watched(70)), 0, b"", id="64 subscribers"),
]


@pytest.mark.parametrize("stream, status, err", STREAMS)
def test_stream(tabd: str, stream: Any, status: int, err: Any) -> None:
    given, told = stream()
    found, out, errors = run(tabd, ["replay"], input=given)
    assert (found, errors) == (status, err)
    holds(f"{len(out)} bytes, wanted {len(told)}", out == told)


@pytest.mark.parametrize("stream, size", [(announced, LITTLE), (longest_map, FOR_A_MAP)], ids=["counts", "a map"])
def test_in_little_memory(tabd: str, plain: None, stream: Any, size: int) -> None:
    """Counts reserve no more than the bytes that came, and a map little more than its pairs."""
    given, told = stream()
    limit = lambda: resource.setrlimit(resource.RLIMIT_AS, (size, size))
    assert run(tabd, ["replay"], input=given, preexec_fn=limit) == (0, told, b"")


@pytest.fixture
def full() -> Iterator[Any]:
    """A device that has no room."""
    with open("/dev/full", "wb") as file:
        yield file


@pytest.mark.parametrize("words, reason", [(["replay"], b""), (SERVE, b"tabd: standard output can't be written\n")], ids=["replay", "serve"])
def test_a_full_output(tabd: str, full: Any, words: List[str], reason: bytes) -> None:
    """A server can't say where it listens."""
    assert run(tabd, words, input=ASKED, stdout=full) == (1, None, DEVICE + reason)


def test_an_output_that_no_one_reads(tabd: str) -> None:
    end, start = os.pipe()
    os.close(end)
    found = run(tabd, ["replay"], input=ASKED, stdout=start)
    os.close(start)
    assert found == (1, None, DEVICE)


def test_a_folder_as_input(tabd: str) -> None:
    folder = os.open("/", os.O_RDONLY)
    found = run(tabd, ["replay"], stdin=folder)
    os.close(folder)
    assert found == (1, b"", DEVICE)


@pytest.mark.parametrize("file, wanted", [(0, (1, b"", DEVICE)), (1, (1, b"", DEVICE)), (2, (3, frames((1, "ok")), b""))])
def test_a_closed_stream(tabd: str, file: int, wanted: Any) -> None:
    """A standard stream is closed; errors can't be written, which changes no status."""
    assert run(tabd, ["replay"], input=ASKED + b"\0" * (file == 2), preexec_fn=lambda: os.close(file)) == wanted


@pytest.mark.parametrize("file, reason", [(0, CLOSED), (1, CLOSED), (2, b"")])
def test_a_server_with_a_closed_stream(tabd: str, file: int, reason: bytes) -> None:
    """Its number is one that a client's socket would get."""
    assert run(tabd, SERVE, stdin=subprocess.DEVNULL, preexec_fn=lambda: os.close(file)) == (1, b"", reason)


def test_errors_that_are_full(tabd: str, full: Any) -> None:
    assert run(tabd, ["replay"], input=ASKED + b"\0", stderr=full) == (3, frames((1, "ok")), None)


@pytest.mark.parametrize("more", [[], ["--log"]], ids=["", "--log"])
def test_a_port_that_is_taken(tabd: str, more: List[str]) -> None:
    with socket.create_server(("127.0.0.1", 0)) as taken:
        words = ["serve", "--port", str(taken.getsockname()[1]), "--connections", "1", *more]
        wanted = (1, b"", DEVICE + b"tabd: Address already in use (os error 98)\n")
        assert run(tabd, words, stdin=subprocess.DEVNULL) == wanted
