# SPDX-License-Identifier: Apache-2.0
"""`dump FILE TABLE..` and `restore FILE`: tables as of one commit, in a file.

Why a dump is the state of one commit. A transaction takes the read lock of each table, one after another. Once it has them all, no other
transaction has a write lock in any of them, so none that has changed one of the tables can commit, and no schema command on them is done
(`{locked, Tab}`), until this one ends. Inside it the tables are subscribed to with a dump, each of which is the table's records as they are
committed; then it commits, and the reply has the commit's number N. So all dumps are the tables as they were from the moment of the last lock
to commit N. Each is the state after commit N, so together they are one state, although they were asked for one after another.

The transaction has the locks only for the round trips, not while records are sent: the subscriptions and the commit are sent together, and the
server keeps the records of a dump as they were. If the outbox has no room for a begin marker of each table, the tables are subscribed to
again, one by one, as the markers are read; the transaction has the locks until then. By wait-die the transaction gets its locks in the end: it
keeps its age when it is restarted, so no transaction stays older forever.

The file is frames, as a connection has them, so that whoever can read the protocol can read it:

    {tabd_dump, 1}
    {table, Name, Type, Attributes, Index, Count}          for each table: Index has positions, Count is how many records follow
    {mnesia_table_begin, Name, simple, Records}            the server's own frame, byte by byte
    {commit, N}
    {tabd_dump_end, Sum}                                   the SHA-256 of all bytes before this frame, a binary of 32 bytes

The last frame has always the same length. So a file that was cut has no such frame at its end, and one in which a byte was changed has
another sum; `restore` looks at that before it asks the server for anything. Records go through in pieces, so neither holds a table.
"""

from __future__ import annotations

import argparse
import contextlib
import hashlib
import os
import time
from typing import IO, Any, Callable, Dict, Iterator, List, NamedTuple, Optional, Sequence, Tuple

import tabd

from .common import Failure, Progress, ending, naming, say_object, server_of
from .load import Loader
from .wire import LONGEST_HEAD, PIECE, UNDO_SECONDS, Batch, Dumped, Wire, dumped, elements, frame, refuse

END_BYTES = len(frame(("tabd_dump_end", bytes(32))))
REST_SECONDS = 0.005


class Definition(NamedTuple):
    """A table as a dump's frame `table` has it."""

    name: str
    type: str
    attributes: List[str]
    indexes: List[int]
    records: int = 0


class Summed:
    """A file that is written, and the sum of its bytes."""

    def __init__(self, file: IO[bytes]) -> None:
        self.file, self.sum, self.size = file, hashlib.sha256(), 0

    def write(self, data: bytes) -> None:
        self.file.write(data)
        self.sum.update(data)
        self.size += len(data)


# Taking


def lock(wire: Wire, names: Sequence[str]) -> None:
    """Begins a transaction that has the read lock of each table."""
    refuse(wire.ask("begin"))
    while not all(_is_locked(wire, name) for name in names):
        pass


def _is_locked(wire: Wire, name: str) -> bool:
    """Whether the lock was granted; if not, all locks were lost, and the transaction begins again with the same age."""
    reply = wire.ask(("read_lock_table", name))
    if reply == "restart":
        return False
    refuse(reply)
    return True


def definition(wire: Wire, name: str) -> Definition:
    kind, attributes, index = (refuse(wire.ask(("table_info", name, item))) for item in ("type", "attributes", "index"))
    return Definition(name, kind, attributes, index)


class Calls(NamedTuple):
    """What is called while a dump is taken: `told` with what arrives besides replies and dumps, `ready` before the file gets its name, which it
    may refuse, and `written` with a table's dump, the bytes of it that are in the file, and its bytes in all."""

    told: Callable[[Any], object] = lambda item: None
    ready: Callable[[], object] = lambda: None
    written: Callable[[Dumped, int, int], object] = lambda item, size, whole: None


class Taking:
    """Tables that are written to a file as they arrive."""

    def __init__(self, wire: Wire, names: Sequence[str], out: Summed, calls: Calls) -> None:
        self.wire, self.names, self.out, self.calls = wire, names, out, calls
        self.definitions: Dict[str, Definition] = {}
        self.counts: Dict[str, int] = {}

    def run(self, together: bool) -> int:
        """The number of the commit whose state was written. Raises `OutboxFull` if the outbox had no room for all markers."""
        lock(self.wire, self.names)
        self.definitions = {name: definition(self.wire, name) for name in self.names}
        self.out.write(frame(("tabd_dump", 1)))
        commit = self._together() if together else self._singly()
        while len(self.counts) < len(self.names):
            self.told(self.wire.next())
        self.out.write(frame(("commit", commit)))
        self.out.file.write(frame(("tabd_dump_end", self.out.sum.digest())))
        return commit

    def _together(self) -> int:
        self.wire.send(b"".join(frame(self._request(name)) for name in self.names) + frame("commit"))
        replies = [self.wire.reply(self.told) for _ in range(len(self.names) + 1)]
        for reply in replies:
            refuse(reply)
        return int(replies[-1][1])

    def _singly(self) -> int:
        for name in self.names:
            while True:
                self.wire.send(frame(self._request(name)))
                reply = self.wire.reply(self.told)
                if reply != ("error", "outbox_full"):
                    break
                time.sleep(REST_SECONDS)
            refuse(reply)
        self.wire.send(frame("commit"))
        return int(refuse(self.wire.reply(self.told))[1])

    @staticmethod
    def _request(name: str) -> Any:
        return ("subscribe", ("table", name, "simple"), "dump")

    def told(self, item: Any) -> None:
        if not isinstance(item, Dumped):
            self.calls.told(item)
            return
        self.counts[item.table] = item.records
        self.out.write(frame(("table", *self.definitions[item.table]._replace(records=item.records))))
        size, whole = 0, self.wire.left
        for piece in self.wire.body():
            self.out.write(piece)
            size += len(piece)
            self.calls.written(item, size, whole)


class Taken(NamedTuple):
    """A dump that was written: the commit whose state it is, and how many records of each table."""

    commit: int
    counts: Dict[str, int]
    size: int


def take(connect: Callable[[], Wire], names: Sequence[str], path: str, calls: Calls) -> Tuple[Wire, Taken]:
    """Writes a dump to a path, as a whole or not at all; gives its connection too, which has subscribed to the tables."""
    if os.path.exists(path) and not os.path.isfile(path):
        # A rename would replace it.
        raise Failure(f"{path} is no regular file")
    part = os.path.join(os.path.dirname(path), f".{os.path.basename(path)}.{os.getpid()}.part")
    try:
        for together in (True, False):
            wire = connect()
            try:
                with naming(path):
                    with open(part, "wb") as file:
                        taking = Taking(wire, names, Summed(file), calls)
                        commit = taking.run(together)
                        file.flush()
                        os.fsync(file.fileno())
                    calls.ready()
                    os.rename(part, path)
                    fsync_folder(path)
                return wire, Taken(commit, taking.counts, taking.out.size + END_BYTES)
            except tabd.OutboxFull:
                wire.close()
            except BaseException:
                wire.close()
                raise
        raise Failure("the server's outbox has no room for a begin marker")
    finally:
        with contextlib.suppress(FileNotFoundError):
            os.remove(part)


def fsync_folder(path: str) -> None:
    """Makes a rename in the path's folder last."""
    folder = os.open(os.path.dirname(path) or ".", os.O_RDONLY)
    try:
        os.fsync(folder)
    finally:
        os.close(folder)


def records_of(wire: Wire, name: str) -> Iterator[bytes]:
    """A table's records as of one commit, each as bytes, in the order of their keys; no lock is asked for."""
    wire.send(frame(("subscribe", ("table", name, "simple"), "dump")))
    while True:
        item = wire.next()
        if isinstance(item, Dumped):
            yield from elements(wire.body(), item)
            return
        if not isinstance(item, Batch) and item[0] == "reply":
            refuse(item[1])


# Reading


class Source:
    """A dump's file that was found whole."""

    def __init__(self, file: IO[bytes], path: str) -> None:
        self.file, self.path, self.commit = file, path, 0
        self.tables: List[Definition] = []
        # The offset of the frame of each table's records.
        self.places: Dict[str, int] = {}
        self._check()
        try:
            self._read()
        except (ValueError, TypeError, IndexError, KeyError) as error:
            raise Failure(f"{path} is no dump: {error}") from error

    def _check(self) -> None:
        """Compares its last frame with the sum of what is before it."""
        left = os.fstat(self.file.fileno()).st_size - END_BYTES
        total = hashlib.sha256()
        while left > 0:
            piece = self.file.read(min(left, PIECE))
            if not piece:
                break
            total.update(piece)
            left -= len(piece)
        if left or self.file.read() != frame(("tabd_dump_end", total.digest())):
            raise Failure(f"{self.path} is no whole dump: it was cut or altered")

    def _read(self) -> None:
        self.file.seek(0)
        if self._frame() != ("tabd_dump", 1):
            raise ValueError("it has another version")
        while True:
            term = self._frame()
            if term[0] == "commit":
                self.commit = term[1]
                return
            table = Definition(*term[1:])
            self.tables.append(table)
            self.places[table.name] = self.file.tell()
            self.file.seek(int.from_bytes(self.file.read(4), "big"), os.SEEK_CUR)

    def _frame(self) -> Any:
        return tabd.decode(self.file.read(int.from_bytes(self.file.read(4), "big")))

    def records(self, table: str) -> Iterator[bytes]:
        """A table's records, each as bytes."""
        self.file.seek(self.places[table])
        size = 4 + int.from_bytes(self.file.read(4), "big")
        self.file.seek(self.places[table])
        found = dumped(self.file.read(min(size, LONGEST_HEAD)))
        self.file.seek(self.places[table])
        return elements(self._pieces(size), found)

    def _pieces(self, size: int) -> Iterator[bytes]:
        while size:
            piece = self.file.read(min(size, PIECE))
            if not piece:
                return
            size -= len(piece)
            yield piece


@contextlib.contextmanager
def opened(path: str) -> Iterator[Source]:
    """A dump's file. Raises `Failure` if it is not whole."""
    with open(path, "rb") as file:
        yield Source(file, path)


def make(wire: Wire, table: Definition) -> None:
    options = [("type", table.type), ("attributes", table.attributes), ("index", table.indexes)]
    refuse(wire.ask(("create_table", table.name, options)))


def is_empty(wire: Wire, name: str) -> bool:
    return bool(refuse(wire.ask(("table_info", name, "size"))) == 0)


def exists(wire: Wire, name: str) -> bool:
    try:
        refuse(wire.ask(("table_info", name, "size")))
    except tabd.NoExists:
        return False
    return True


def fill(connect: Callable[[], Wire], source: Source, said: Callable[[int], None]) -> None:
    """Creates a dump's tables and writes their records. If it fails, and the server goes on, it deletes the tables that it created."""
    for careful in (False, True):
        made: List[str] = []
        begun: Optional[Definition] = None
        with connect() as wire:
            try:
                loader = Loader(wire, careful, said)
                for begun in source.tables:
                    make(wire, begun)
                    made.append(begun.name)
                    loader.load(source.records(begun.name))
                    loader.finish()
                return
            except BaseException as error:
                with contextlib.suppress(tabd.Error), connect() as undo:
                    undo.socket.settimeout(UNDO_SECONDS)
                    _undo(undo, made, begun)
                if careful or not isinstance(error, tabd.BadTerm):
                    raise


def _undo(wire: Wire, made: List[str], begun: Optional[Definition]) -> None:
    """Deletes the tables that were made. If no reply came to the creation of the last one, it is deleted if it is as it would have been made."""
    for name in made:
        wire.ask(("delete_table", name))
    if begun is not None and begun.name not in made and exists(wire, begun.name):
        if definition(wire, begun.name) == begun._replace(records=0) and is_empty(wire, begun.name):
            wire.ask(("delete_table", begun.name))


# The commands


def dump(words: argparse.Namespace) -> int:
    port, host = server_of(words)
    names = list(dict.fromkeys(words.table))
    progress = Progress()

    def written(item: Dumped, size: int, whole: int) -> None:
        progress.show(f"{item.table}: {100 * size // whole} % of {item.records} records")

    progress.show("waits for the tables' read locks")
    with ending():
        try:
            wire, taken = take(lambda: Wire(port, host), names, os.path.realpath(words.file), Calls(written=written))
        finally:
            progress.end()
    wire.close()
    say_object(words, {"commit": taken.commit, "tables": len(names), "records": sum(taken.counts.values()), "bytes": taken.size})
    return 0


def restore(words: argparse.Namespace) -> int:
    port, host = server_of(words)
    progress = Progress()
    with ending(), opened(words.file) as source, Wire(port, host) as wire:
        there = [table.name for table in source.tables if exists(wire, table.name)]
        if there and not words.replace:
            raise Failure(f"there is a table {there[0]} already, and nothing was changed (--replace deletes it first)")
        for name in there:
            refuse(wire.ask(("delete_table", name)))
        total = sum(table.records for table in source.tables)
        try:
            fill(lambda: Wire(port, host), source, lambda count: progress.show(f"{count} of {total} records"))
        finally:
            progress.end()
        say_object(words, {"commit": source.commit, "tables": len(source.tables), "records": total})
    return 0


def add(command: Callable[..., argparse.ArgumentParser]) -> None:
    added = command("dump", dump, "write tables to a file, as of one commit")
    added.add_argument("file", metavar="FILE", help="the file to write; it is written under another name and renamed, so it is complete or absent")
    added.add_argument("table", metavar="TABLE", nargs="+")
    added = command("restore", restore, "make the tables of a dump again, with their records")
    added.add_argument("file", metavar="FILE", help="a dump; one that was cut or altered is refused, and nothing is changed")
    added.add_argument("--replace", action="store_true", help="delete tables of these names first")
