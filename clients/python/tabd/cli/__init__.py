# SPDX-License-Identifier: Apache-2.0
"""The operator's programs: `python3 -m tabd`, or `tabd-cli` if it is installed.

A module has a group of them. Each adds its commands to the parser (`add`). A command's function takes the parsed arguments and returns the
status. Errors are one line on standard error, with status 1; wrong arguments have status 2."""

from __future__ import annotations

import argparse
import contextlib
import io
import os
import sys
from typing import Any, List, Optional

import tabd

from . import bench, dump, keep, records, top, watch
from .common import Failure, Usage, explain, flush

GROUPS = (records, watch, top, bench, dump, keep)


def parser() -> argparse.ArgumentParser:
    """The parser of the command line; it is built as a whole, so that a completion can be made from it."""
    whole = argparse.ArgumentParser(prog="tabd-cli", description="Reads, changes and watches the tables of a tabd server.")
    whole.add_argument("--server", help="PORT, HOST:PORT or the PATH of a socket file; without it the variable TABD_SERVER")
    whole.add_argument("--version", action="version", version=f"tabd-cli {tabd.__version__}")
    shared = argparse.ArgumentParser(add_help=False)
    shared.add_argument("--server", default=argparse.SUPPRESS, help="PORT, HOST:PORT or the PATH of a socket file")
    shared.add_argument("--json", action="store_true", help="write JSON")
    commands = whole.add_subparsers(dest="command", metavar="COMMAND", required=True)

    def command(name: str, function: Any, help: str, **named: Any) -> argparse.ArgumentParser:
        added = commands.add_parser(name, help=help, description=named.pop("description", help), parents=[shared], **named)
        added.set_defaults(function=function)
        return added

    for group in GROUPS:
        group.add(command)
    return whole


def _silence() -> None:
    """Discards the rest of standard output's buffer if it can't be written: its reader has closed it, or its disk is full."""
    try:
        sys.stdout.flush()
    except OSError:
        with contextlib.suppress(OSError, ValueError):
            os.dup2(os.open(os.devnull, os.O_WRONLY), sys.stdout.fileno())


def _check_streams() -> None:
    """A stream that was closed at the start is None: output must not be lost. A character that the locale doesn't have is escaped."""
    if sys.stdout is None:
        raise Failure("standard output is closed")
    for stream in (sys.stdout, sys.stderr):
        if isinstance(stream, io.TextIOWrapper):
            stream.reconfigure(errors="backslashreplace")


def main(arguments: Optional[List[str]] = None) -> int:
    """Runs a command and gives its status."""
    if sys.stderr is None:
        # It was closed at the start: errors are not shown.
        sys.stderr = open(os.devnull, "w")
    words = parser().parse_args(arguments)
    try:
        _check_streams()
        status: int = words.function(words)
        flush()
        return status
    except BrokenPipeError:
        status, text = 1, ""
    except Usage as error:
        status, text = 2, str(error)
    except (tabd.Error, Failure, OSError) as error:
        status, text = 1, explain(error)
    except KeyboardInterrupt:
        status, text = 130, "interrupted"
    if sys.stdout is not None:
        _silence()
    if text:
        print(f"tabd-cli {words.command}: {text}", file=sys.stderr)
    return status
