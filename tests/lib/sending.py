"""Commits whose events are sent to some connections, for test_server.py and test_sending.py."""

from typing import Any, Callable, List, Sequence

import pytest

from tests.lib.checks import ATOMIC, CREATE, change, event, follow, holds, script, write
from tests.lib.wire import Connection, Term

served = pytest.mark.served

# How the events of a commit are sent, by its number.
Sent = Callable[[int, List[Term]], List[Term]]
apart: Sent = lambda number, events: events
together: Sent = lambda number, events: [("batch", number, events)]


def both_ways(first: str, second: str, *mark: Any, **more: Any) -> pytest.MarkDecorator:
    """A case that is run with single events, and with `--batches`; their names, and the arguments of the mark `served`."""
    apart_too = pytest.param(apart, id=first, marks=served(*mark, **more))
    return pytest.mark.parametrize("sent", [apart_too, pytest.param(together, id=second, marks=served(*mark, "--batches", **more))])


def watched(writer: Connection, *readers: Connection) -> None:
    """In a new server: the writer makes the table, and the readers watch it."""
    script((writer, CREATE, ATOMIC))
    follow(*readers)


def commit_all(writer: Connection, values: Sequence[Term]) -> None:
    """The first commits: each writes the key of its number."""
    for number, value in enumerate(values, 1):
        change(writer, write(number, value))


def items(values: Sequence[Term], sent: Sent = apart) -> List[Term]:
    """What is sent of these commits, of which each has the age of its number too."""
    return [sent(number, [event(number, value, number)])[0] for number, value in enumerate(values, 1)]


def reads(connection: Connection, wanted: Sequence[Term]) -> None:
    for line, term in enumerate(wanted):
        holds(f"item {line}", connection.event() == term)
