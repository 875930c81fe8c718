# SPDX-License-Identifier: Apache-2.0
"""Commands on records and tables: read, all, match, write, delete, create, drop, info, tables."""

from __future__ import annotations

import argparse
from typing import Any, Callable, List, Union

import tabd

from .common import Failure, Usage, client_of, say, say_line, say_object, server_of, term_of
from .dump import records_of
from .metrics import add_metrics, by_table, page_of
from .wire import Wire

Command = Callable[..., argparse.ArgumentParser]


def _all_of(words: argparse.Namespace, operation: tabd.OneShot) -> int:
    """Says each element of what the one operation of a one-shot finds."""
    for found in operation.run()[0]:
        say(words, found)
    return 0


def read(words: argparse.Namespace) -> int:
    key = term_of(words.key)
    with client_of(words) as client:
        return _all_of(words, client.one_shot().read(words.table, key))


def everything(words: argparse.Namespace) -> int:
    """A table of any size goes through little memory, as a dump."""
    if words.keys:
        with client_of(words) as client:
            return _all_of(words, client.one_shot().all_keys(words.table))
    with Wire(*server_of(words)) as wire:
        for record in records_of(wire, words.table):
            say(words, tabd.decode(b"\x83" + record))
    return 0


def match(words: argparse.Namespace) -> int:
    terms = [term_of(text) for text in words.pattern]
    pattern = (words.table, *terms)
    if len(terms) == 1:
        if not isinstance(terms[0], tuple) or not terms[0] or terms[0][0] != words.table:
            raise Usage(f"a pattern is a tuple that begins with {words.table}, or a term for each attribute")
        pattern = terms[0]
    with client_of(words) as client:
        return _all_of(words, client.one_shot().match_object(pattern))


def write(words: argparse.Namespace) -> int:
    record = (words.table, *[term_of(text) for text in words.field])
    if len(record) < 3:
        raise Usage("a record has a key and one other attribute at least")
    with client_of(words) as client:
        client.one_shot().write(record).run()
    return _done(words)


def delete(words: argparse.Namespace) -> int:
    key = term_of(words.key)
    with client_of(words) as client:
        client.one_shot().delete(words.table, key).run()
    return _done(words)


def _done(words: argparse.Namespace) -> int:
    if words.json:
        say(words, "ok")
    return 0


def _names(text: str) -> List[str]:
    return [name for name in text.split(",") if name]


def _attributes(text: str) -> List[Union[str, int]]:
    """Attributes by name or position."""
    return [int(name) if name.isdecimal() else name for name in _names(text)]


def create(words: argparse.Namespace) -> int:
    with client_of(words) as client:
        client.create_table(words.table, _names(words.attributes), words.type, _attributes(words.index))
    return _done(words)


def drop(words: argparse.Namespace) -> int:
    with client_of(words) as client:
        client.delete_table(words.table)
    return _done(words)


def info(words: argparse.Namespace) -> int:
    with client_of(words) as client:
        named = {item: client.table_info(words.table, item) for item in ("type", "attributes", "index", "size")}
    # The first attribute is at position 2.
    named["index"] = [named["attributes"][position - 2] for position in named["index"]]
    say_object(words, named)
    return 0


def tables(words: argparse.Namespace) -> int:
    found = by_table(page_of(words), "tabd_table_records")
    if found is None:
        raise Failure("the server's metrics don't name its tables (there is no tabd_table_records)")
    for name in sorted(found):
        if words.json:
            say_object(words, {"table": name, "records": int(found[name])})
        else:
            say_line(f"{name}\t{int(found[name])}")
    return 0


def add(command: Command) -> None:
    def table(name: str, function: Any, help: str) -> argparse.ArgumentParser:
        added = command(name, function, help)
        added.add_argument("table", metavar="TABLE", help="the table's name, as it is, without quotes of Erlang")
        return added

    table("read", read, "the records of a key").add_argument("key", metavar="KEY", help="a term, as 7, alice, <<\"text\">> or {a, 1}")
    table("all", everything, "all records, in the order of their keys").add_argument("--keys", action="store_true", help="only the keys")
    table("match", match, "the records that fit a pattern").add_argument(
        "pattern", metavar="PATTERN", nargs="+", help="a tuple as '{route, _, 7}', or a term for each attribute; _ fits every term"
    )
    table("write", write, "write a record").add_argument("field", metavar="FIELD", nargs="+", help="a term for each attribute, the key first")
    table("delete", delete, "delete all records of a key").add_argument("key", metavar="KEY")
    created = table("create", create, "make a table")
    created.add_argument("--type", choices=("set", "bag"), default="set", help="set without it")
    created.add_argument("--attributes", default="key,val", metavar="NAME,..", help="the attributes' names, the key first; key,val without it")
    created.add_argument("--index", default="", metavar="NAME,..", help="attributes that get an index, by name or position")
    table("drop", drop, "delete a table")
    table("info", info, "a table's type, attributes, indexes and number of records")
    add_metrics(command("tables", tables, "the tables' names, by the server's metrics"))
