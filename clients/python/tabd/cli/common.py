# SPDX-License-Identifier: Apache-2.0
"""What the programs share: the server's name, output and errors."""

from __future__ import annotations

import argparse
import contextlib
import json
import os
import re
import signal
import sys
from typing import Any, Callable, Dict, Iterator, Optional, Tuple, Type, Union

import tabd

from .text import Fault, parse, plain, show

# The meaning of a refusal, printed after its term.
MEANINGS: Dict[Type[tabd.Refused], str] = {
    tabd.NoExists: "there is no such table",
    tabd.AlreadyExists: "there is such a table",
    tabd.BadType: "the record doesn't fit the table",
    tabd.NoIndex: "there is no such index",
    tabd.BadDef: "a table can't be defined so",
    tabd.Locked: "a transaction holds a lock in the table",
    tabd.SystemLimit: "a limit of the server is reached",
    tabd.NoMemory: "the server has no memory for it",
    tabd.BadTerm: "a term is too long or too deep",
}


MOST = 1 << 62
# What Python writes before the system's own text.
ERRNO = re.compile(r"\[Errno -?\d+\] ")
OUTPUT = "standard output"


class Failure(Exception):
    """Ends the program with status 1 and one line on standard error."""


class Usage(Exception):
    """Ends the program with status 2: the arguments on the command line are wrong."""


def explain(error: Exception) -> str:
    """An error on one line."""
    text = str(error)
    if isinstance(error, tabd.BadTerm) and isinstance(error.reason, str):
        # The client's own text; the server was asked nothing.
        text = error.reason
    elif isinstance(error, tabd.Refused):
        text = show(error.reason)
        for kind, meaning in MEANINGS.items():
            if isinstance(error, kind):
                text = f"{text}: {meaning}"
    elif isinstance(error, OSError) and error.strerror:
        text = error.strerror if error.filename is None else f"{error.filename or repr('')}: {error.strerror}"
    return " ".join(ERRNO.sub("", text).split()) or type(error).__name__


@contextlib.contextmanager
def naming(path: str) -> Iterator[None]:
    """An error of the system gets the name of the file that the user knows."""
    try:
        yield
    except OSError as error:
        if error.errno is None or isinstance(error, tabd.Error):
            raise
        raise OSError(error.errno, error.strerror, path) from error


@contextlib.contextmanager
def ending() -> Iterator[None]:
    """SIGTERM ends the block as an exception does, so that it removes what it began."""

    def end(*_: object) -> None:
        sys.exit(128 + signal.SIGTERM)

    before = signal.signal(signal.SIGTERM, end)
    try:
        yield
    finally:
        signal.signal(signal.SIGTERM, before)


def address(text: str) -> Tuple[Union[int, str], str]:
    """A port or a socket's path, and a host: of `4000`, `127.0.0.1:4000` or `/run/tabd/socket`."""
    host, colon, port = text.rpartition(":")
    if not port.isdecimal() or "/" in host:
        return text, ""
    if not 0 < int(port) < 65536:
        raise Usage(f"{text}: a port is from 1 to 65535")
    return int(port), host.strip("[]") if colon and host else "127.0.0.1"


def server_of(words: argparse.Namespace) -> Tuple[Union[int, str], str]:
    """The server's address, by `--server` or the variable TABD_SERVER."""
    text: Optional[str] = getattr(words, "server", None) or os.environ.get("TABD_SERVER")
    if not text:
        raise Usage("which server? say --server PORT, HOST:PORT or PATH, or set TABD_SERVER")
    return address(text)


def client_of(words: argparse.Namespace) -> tabd.Client:
    port, host = server_of(words)
    return tabd.Client(port, host, connections=1, timeout=getattr(words, "timeout", None))


def term_of(text: str) -> Any:
    """A term from an argument of the command line."""
    try:
        return parse(text)
    except Fault as fault:
        raise Usage(str(fault)) from None


def say_line(text: str) -> None:
    """A line in one write, so that a program that is killed has written it whole or not at all, also if its output is not buffered."""
    with naming(OUTPUT):
        sys.stdout.write(text + "\n")


def flush() -> None:
    """Writes what is buffered."""
    with naming(OUTPUT):
        sys.stdout.flush()


def say(words: argparse.Namespace, term: Any) -> None:
    """A term on a line of its own, or with --json as JSON."""
    say_line(json.dumps(plain(term), ensure_ascii=False) if words.json else show(term))


def say_object(words: argparse.Namespace, named: Dict[str, Any]) -> None:
    """Named values: a line for each, or with --json one object."""
    if words.json:
        say_line(json.dumps({name: plain(value) for name, value in named.items()}, ensure_ascii=False))
        return
    width = max(map(len, named)) + 2
    for name, value in named.items():
        say_line(f"{name + ':':{width}}{show(value)}")


def number(least: int, most: int = MOST) -> Callable[[str], int]:
    """An argument's type: an integer within limits."""

    def read(text: str) -> int:
        if not text.isdecimal() or not least <= int(text) <= most:
            upward = "on" if most == MOST else f"to {most}"
            raise argparse.ArgumentTypeError(f"{text!r} is no number from {least} {upward}")
        return int(text)

    return read


def fraction(least: float) -> Callable[[str], float]:
    """An argument's type: a number of at least `least`."""

    def read(text: str) -> float:
        try:
            value = float(text)
        except ValueError:
            value = -1.0
        if not least <= value < 1e9:
            raise argparse.ArgumentTypeError(f"{text!r} is no number from {least:g} on")
        return value

    return read


class Progress:
    """A line that is overwritten; written only to a terminal."""

    def __init__(self) -> None:
        self.shown = sys.stderr.isatty()

    def show(self, text: str) -> None:
        if self.shown:
            sys.stderr.write(f"\r{text}\x1b[K")
            sys.stderr.flush()

    def end(self) -> None:
        if self.shown:
            sys.stderr.write("\r\x1b[K")
            sys.stderr.flush()
