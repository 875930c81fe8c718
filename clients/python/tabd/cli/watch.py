# SPDX-License-Identifier: Apache-2.0
"""`watch`: the events of tables, a line for each."""

from __future__ import annotations

import argparse
import json
from typing import Any, Callable, Dict, Tuple

import tabd

from .common import client_of, flush, number, say_line
from .text import plain, show


def described(event: tabd.Event) -> Tuple[str, Dict[str, Any]]:
    """An event's name and its parts, as terms."""
    if isinstance(event, tabd.Begin):
        return "begin", {"table": event.table, **({} if event.records is None else {"records": event.records})}
    if isinstance(event, tabd.End):
        return "end", {"table": event.table, "reason": event.reason}
    if isinstance(event, tabd.Overflow):
        return "overflow", {"commit": event.commit}
    parts: Dict[str, Any] = {"age": event.age}
    if event.commit is not None:
        parts["commit"] = event.commit
    if event.old is not None:
        parts["old"] = event.old
    if isinstance(event, tabd.Delete):
        return "delete", {"table": event.table, "key": event.key, **parts}
    word = "write" if isinstance(event, tabd.Write) else "delete_object"
    return word, {"record": event.record, **parts}


def say_event(words: argparse.Namespace, event: tabd.Event) -> None:
    word, parts = described(event)
    if words.json:
        say_line(json.dumps({"event": word, **{name: plain(part) for name, part in parts.items()}}, ensure_ascii=False))
        return
    records = parts.pop("records", ())
    say_line(" ".join([word, *[f"{name}={show(part)}" for name, part in parts.items()]]))
    for record in records:
        say_line("  " + show(record))


def watch(words: argparse.Namespace) -> int:
    left = words.count
    with client_of(words) as client, client.events(*dict.fromkeys(words.table), dump=words.dump, detailed=words.detailed) as events:
        for event in events:
            say_event(words, event)
            flush()
            left -= 1
            if left == 0:
                break
    return 0


def add(command: Callable[..., argparse.ArgumentParser]) -> None:
    added = command("watch", watch, "the events of tables, as they come; ends when all tables were deleted")
    added.add_argument("table", metavar="TABLE", nargs="+")
    added.add_argument("--dump", action="store_true", help="begin with the tables' records")
    added.add_argument("--detailed", action="store_true", help="with the records of the key before each change")
    added.add_argument("--count", type=number(0), default=0, metavar="EVENTS", help="ends after so many events; 0 is never")
