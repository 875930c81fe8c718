"""The replay of the built program over streams whose replies are known: whole, in pieces, cut, and on devices that fail.

It is some twenty thousand runs. The known replies are also those of the model (sessions.py), which makes them from the requests.
"""

import contextlib
import itertools
import os
import resource
import signal
import socket
import subprocess
import tempfile
import threading
from typing import Any, Iterator, Set, Tuple

import pytest

from tests.lib import planted
from tests.lib.sessions import Book
from tests.lib.streams import DEVICE, Stream, streams
from tests.lib.wire import term_of

SECONDS = 60
# A stream of at most so many bytes is cut at each of them: all but those of a thousand operations or of hundreds of sessions and
# tables, which are cut around the ends of their first frames.
CUT = 4_000
ENDS = 12
# The output of one with so many bytes is full after each of its bytes.
SHORT = 130
# After each of so many first frames of a stream a device fails.
FAILING = 6

STREAMS = sorted(streams(), key=lambda stream: -len(stream.all))
each_stream = pytest.mark.parametrize("stream", STREAMS, ids=[stream.name for stream in STREAMS])
# All but the one of no bytes, which cannot be cut.
ASKED = [stream for stream in STREAMS if stream.given]
each_asked = pytest.mark.parametrize("stream", ASKED, ids=[stream.name for stream in ASKED])


def started(program: str, stream: Stream, stdin: Any = subprocess.PIPE, stdout: Any = subprocess.PIPE, **words: Any) -> Any:
    return subprocess.Popen([program, *stream.words], stdin=stdin, stdout=stdout, stderr=subprocess.PIPE, **words)


def run(program: str, stream: Stream, given: Any) -> Tuple[Any, ...]:
    """On an input that has these bytes at once."""
    child = started(program, stream)
    told, err = child.communicate(given, timeout=SECONDS)
    return child.returncode, told, err


def pieces(program: str, stream: Stream, parts: Any, **streams: Any) -> Tuple[Any, ...]:
    """Each read gets one piece: the pipe keeps what is written to it apart (O_DIRECT), and nothing flows together."""
    end, start = os.pipe2(os.O_DIRECT | os.O_CLOEXEC)
    child = started(program, stream, stdin=end, **streams)
    os.close(end)

    def write() -> None:
        with contextlib.suppress(BrokenPipeError):
            for part in parts:
                os.write(start, part)
        os.close(start)

    thread = threading.Thread(target=write)
    thread.start()
    told, err = child.communicate(timeout=SECONDS)
    thread.join()
    return child.returncode, told, err


def full(program: str, stream: Stream, parts: Any, room: int) -> Tuple[Any, ...]:
    """The output is a file that has room for so many bytes, and then the next write fails."""

    def limit() -> None:
        signal.signal(signal.SIGXFSZ, signal.SIG_IGN)
        resource.setrlimit(resource.RLIMIT_FSIZE, (room, room))

    with tempfile.TemporaryFile() as file:
        status, _, err = pieces(program, stream, parts, stdout=file, preexec_fn=limit)
        file.seek(0)
        return status, file.read(), err


def half(program: str, stream: Stream, count: int) -> Tuple[Any, ...]:
    """A program that was asked the first so many frames, one by one over a socket, and what it answered; both are open yet."""
    ours, its = socket.socketpair()
    child, told = started(program, stream, stdin=its), b""
    for given, wanted in zip(stream.given[:count], stream.told):
        ours.sendall(given)
        told += child.stdout.read(len(wanted))
    return child, ours, its, told


def no_reader(program: str, stream: Stream, count: int) -> Tuple[Any, ...]:
    """The output is closed after so many replies: the next can't be written."""
    child, ours, its, told = half(program, stream, count)
    child.stdout.close()
    with contextlib.suppress(OSError):
        ours.sendall(stream.given[count])
    ours.close()
    _, err = child.communicate(timeout=SECONDS)
    its.close()
    return child.returncode, told, err


def no_input(program: str, stream: Stream, count: int, more: Any) -> Tuple[Any, ...]:
    """The input breaks off after so many replies, and after so many bytes of the next frame: the next read fails.

    A socket whose other end is closed while it has unread bytes is reset.
    """
    child, ours, its, told = half(program, stream, count)
    ours.sendall(stream.given[count][:more])
    its.sendall(b"x")
    ours.close()
    told += child.stdout.read()
    _, err = child.communicate(timeout=SECONDS)
    its.close()
    return child.returncode, told, err


def cuts(stream: Stream) -> Any:
    """Where the stream is cut, its end not among them."""
    if len(stream.all) <= CUT:
        return range(len(stream.all))
    ends: Set[int] = set()
    place = 0
    for one in stream.given[:ENDS]:
        place += len(one)
        ends.update((place - 1, place, place + 3))
    return sorted(at for at in ends if at < len(stream.all))


def rooms(stream: Stream) -> Any:
    """Where the output is full: in a short one after each byte, else before the end of each of its first frames and at it."""
    if len(stream.all) <= SHORT:
        return range(sum(map(len, stream.told)))
    ends = list(itertools.accumulate(map(len, stream.told[:FAILING])))
    return sorted(place for end in ends[:-1] for place in (end - 1, end))


def differ(runs: Any) -> Any:
    """Of runs by their names, each a call and what it has to give, those that give something else; the first few."""
    faults = []
    assert (each := list(runs)), "nothing is run"
    for name, does, given, wanted in each:
        found = does(*given)
        if found != wanted:
            same = "the output as it should be" if found[1] == wanted[1] else f"{len(found[1])} bytes, wanted {len(wanted[1])}"
            faults.append(f"{name}: status {found[0]}, wanted {wanted[0]}; {found[2]}; {same}")
    return faults[:5]


@each_stream
def test_the_model_gives_the_replies(stream: Stream) -> None:
    assert list(map(term_of, Book(stream.outbox).frames(stream.given))) == list(map(term_of, stream.told))
    assert Book(stream.outbox).frames(stream.given) == stream.told


@pytest.mark.parametrize("model", planted.PLANTED)
def test_a_planted_model_is_found(model: Any) -> None:
    assert any(model(stream.outbox).frames(stream.given) != stream.told for stream in STREAMS)


@each_stream
def test_whole(tabd: str, stream: Stream) -> None:
    assert run(tabd, stream, stream.all) == stream.answer(len(stream.all))


@each_stream
@pytest.mark.parametrize("size", [1, 2, 3])
def test_in_pieces(tabd: str, stream: Stream, size: int) -> None:
    parts = [stream.all[place : place + size] for place in range(0, len(stream.all), size)]
    assert pieces(tabd, stream, parts) == stream.answer(len(stream.all))


@each_asked
def test_cut(tabd: str, stream: Stream) -> None:
    """At each byte."""
    assert not differ((place, run, (tabd, stream, stream.all[:place]), stream.answer(place)) for place in cuts(stream))


def failing(stream: Stream) -> Iterator[Any]:
    """After how many frames a device fails, and what has to come of it."""
    for count in range(min(FAILING, len(stream.given))):
        yield count, (1, b"".join(stream.told[:count]), DEVICE)


@each_asked
def test_output_that_no_one_reads(tabd: str, stream: Stream) -> None:
    assert not differ((count, no_reader, (tabd, stream, count), wanted) for count, wanted in failing(stream))


@each_asked
def test_input_that_breaks_off(tabd: str, stream: Stream) -> None:
    assert not differ(((count, more), no_input, (tabd, stream, count, more), wanted) for count, wanted in failing(stream) for more in (0, 3))


@each_asked
def test_output_that_is_full(tabd: str, stream: Stream) -> None:
    told, whole = b"".join(stream.told), b"".join(stream.given)
    pairs = itertools.product(rooms(stream), (stream.given, [whole]))
    assert not differ(((room, len(parts)), full, (tabd, stream, parts, room), (1, told[:room], DEVICE)) for room, parts in pairs)
