# SPDX-License-Identifier: Apache-2.0
"""`keep FOLDER TABLE..`: keeps tables on a disk, and makes them again for a server that comes back empty.

What it does. It takes a dump of the tables as of one commit (dump.py), and writes the commits after it to a log as they arrive, each whole
(store.py). It begins a new dump when the log is larger than the dump, an overflow lost events, a table was created or deleted or has another
index, or the connection ended. The older dump and its log are valid until the new one is complete. So the folder always has the tables as of
one commit.

What is promised. `kept N` is printed when commit N, and all before it, are on the disk. After the server has ended, the tables are restored as of
the last commit that was kept, or a later one. Commits that did not reach the keeper are lost: the server doesn't wait for it.

Which server it is. The protocol cannot distinguish a server that was started again from the one before, and other clients may have created its
tables again. So the keeper marks the server, in a table of its own: `{tabd_kept, Name, {State, Token}}`. Name is the value of `--name`, Token is
the folder's, and State is `restoring` while the keeper creates the tables, and `live` afterwards. A server without the folder's mark is not the
one that was kept: its tables are restored. Clients that wait for `live` see the tables only as of a whole commit. A keeper that was ended while it
restored finds `restoring`, deletes what it created, and begins again.
"""

from __future__ import annotations

import argparse
import contextlib
import sys
import time
from typing import Any, Callable, Dict, List, NamedTuple, Optional, Tuple, Union

import tabd

from .common import Failure, explain, flush, fraction, say_line, say_object, server_of
from .dump import Calls, Definition, Source, definition, exists, is_empty, make, opened, take
from .load import Loader
from .store import Store
from .wire import Batch, Wire, commit_of, frame, refuse

MARKS = "tabd_kept"
PAUSE_SECONDS = 0.2
# How often it asks whether a table has come, or has another index.
LOOK_SECONDS = 1.0
# How long it gathers commits before it writes them while more come, in bytes.
MOST_PENDING = 1 << 22


class Again(Exception):
    """A new dump is to be taken; the text says why."""


class Settings(NamedTuple):
    """The options of the command line."""

    names: List[str]
    name: str
    every: float
    compact_at: int
    foreign: str
    quiet: bool
    json: bool


class Keeper:
    """Follows the tables of a server at an address."""

    def __init__(self, address: Tuple[Union[int, str], str], store: Store, settings: Settings) -> None:
        self.address, self.store, self.settings = address, store, settings
        self.names = settings.names
        self.definitions: Dict[str, Definition] = {}
        self.pending: List[bytes] = []
        self.pending_size = self.last = self.dump_size = 0
        self.why: Optional[str] = None

    def connect(self) -> Wire:
        port, host = self.address
        return Wire(port, host)

    def say(self, event: str, commit: int, **more: Any) -> None:
        """A line on standard output."""
        if self.settings.quiet:
            return
        if self.settings.json:
            say_object(argparse.Namespace(json=True), {"event": event, "commit": commit, **more})
        else:
            say_line(" ".join([event, str(commit), *[f"{name}={value}" for name, value in more.items()]]))
        flush()

    def note(self, text: str) -> None:
        print(f"tabd-cli keep: {text}", file=sys.stderr, flush=True)

    # The whole

    def run(self) -> None:
        """Runs until the process is ended; only an error from which it can't recover ends it."""
        self._check_names()
        noted = ""
        while True:
            try:
                self._serve()
            except tabd.Closed as error:
                if explain(error) != noted:
                    noted = explain(error)
                    self.note(f"{noted}; tries again")
            except (tabd.NoExists, tabd.Locked):
                # A table went before it was locked, or a transaction holds a lock in one that is to be deleted.
                pass
            time.sleep(PAUSE_SECONDS)

    def _check_names(self) -> None:
        """A table of the folder that is not named would not be in the next dump, and would be lost."""
        if self.store.is_empty:
            return
        with opened(self.store.dump_path(self.store.generation)) as source:
            for table in source.tables:
                if table.name not in self.names:
                    raise Failure(f"the folder has table {table.name} too: name it, or take another folder")

    def _serve(self) -> None:
        """Brings the server's tables and the folder together, then follows until the connection ends."""
        with self.connect() as side:
            state = self.mark(side)
            if state != "live" and not self.store.is_empty:
                self._restore(side, state == "restoring")
            while True:
                wire = self._begin(side)
                try:
                    if state != "live":
                        self.set_mark(side, "live")
                        state = "live"
                    self._follow(wire, side)
                except Again as again:
                    self.note(f"takes a new dump: {again}")
                finally:
                    wire.close()

    # The mark

    def mark(self, side: Wire) -> str:
        """What the server's mark says of this folder: `live`, `restoring`, or nothing."""
        reply = side.ask(("transaction", [("read", MARKS, self.settings.name)], 100))
        if reply == ("aborted", ("no_exists", MARKS)):
            return ""
        [records] = refuse(reply)[1]
        if not records:
            return ""
        state, token = records[0][2]
        if token == self.store.token:
            return str(state)
        if self.settings.foreign == "server":
            return ""
        raise Failure(
            f"another folder's keeper is called {self.settings.name} at this server: --name gives this one another name, "
            "--take server replaces the other keeper"
        )

    def set_mark(self, side: Wire, state: str) -> None:
        """Writes the mark; its own event shows whether events come in batches."""
        with contextlib.suppress(tabd.AlreadyExists):
            refuse(side.ask(("create_table", MARKS, [])))
        what = ("table", MARKS, "simple")
        refuse(side.ask(("subscribe", what)))
        side.send(frame(("transaction", [("write", (MARKS, self.settings.name, (state, self.store.token)))], 1000)))
        told: List[Any] = []
        refuse(side.reply(told.append))
        while not any(isinstance(item, Batch) for item in told):
            if any(item[0] == "mnesia_table_event" for item in told):
                raise Failure("the server has to run with --batches, which mark the end of each commit")
            told.append(side.next())
        refuse(side.ask(("unsubscribe", what)))

    # The restore

    def _restore(self, side: Wire, again: bool) -> None:
        """Makes the tables again that the folder has."""
        with opened(self.store.dump_path(self.store.generation)) as source:
            last = self.store.last_commit()
            tables = source.tables
            if again or self.settings.foreign == "folder":
                self._delete(side, tables)
            elif not self._has_room(side, tables):
                self.store.set_aside()
                return
            self.set_mark(side, "restoring")
            for careful in (False, True):
                loader = Loader(side, careful)
                try:
                    self._load(loader, source)
                    break
                except tabd.BadTerm:
                    if careful:
                        raise
                    loader.give_up()
                    self._delete(side, tables)
        self.say("restored", last, tables=len(tables))

    def _load(self, loader: Loader, source: Source) -> None:
        for table in source.tables:
            with contextlib.suppress(tabd.AlreadyExists):
                make(loader.wire, table)
            loader.load(source.records(table.name))
            loader.finish()
        for operation in self.store.changes():
            loader.add(operation)
        loader.finish()

    def _delete(self, side: Wire, tables: List[Definition]) -> None:
        for table in tables:
            if exists(side, table.name):
                refuse(side.ask(("delete_table", table.name)))

    def _has_room(self, side: Wire, tables: List[Definition]) -> bool:
        """Whether each table is missing, or empty and defined as it was; else it is for the operator to say which records count."""
        for table in tables:
            if not exists(side, table.name):
                continue
            if definition(side, table.name) == table._replace(records=0) and is_empty(side, table.name):
                continue
            if self.settings.foreign == "server":
                self.note("keeps the server's tables; the folder's are set aside")
                return False
            raise Failure(
                f"table {table.name} was made again, or written, before it was restored: --take server keeps the server's tables, "
                "--take folder deletes them and restores the folder's; nothing was changed"
            )
        return True

    # The following

    def _begin(self, side: Wire) -> Wire:
        """Takes a dump of the tables that are there, as the next generation; gives the connection that follows it."""
        names = [name for name in self.names if exists(side, name)]
        self.definitions = {name: definition(side, name) for name in names}
        # The dump uses another connection. As long as this one gets replies, no other server is at the address: a dump of a server that was
        # started meanwhile, and has not been restored, must not replace the older dump.
        wire, taken = take(self._connect_anew, names, self.store.begin(), Calls(self._told, lambda: side.ask("commit")))
        self.store.begun()
        self.dump_size, self.last = taken.size, taken.commit
        self.say("kept", taken.commit, tables=len(names), records=sum(taken.counts.values()))
        missing = [name for name in self.names if name not in names]
        if missing:
            self.note(f"no table {missing[0]} is there yet")
        return wire

    def _connect_anew(self) -> Wire:
        """A connection for a dump. The events of the connection before are older than that dump, or in it."""
        self.pending, self.pending_size, self.why = [], 0, None
        return self.connect()

    def _told(self, item: Any) -> None:
        """What comes besides replies and dumps."""
        if isinstance(item, Batch):
            self._pend(item.data)
        elif item[0] == "mnesia_overflow":
            self.why = f"events were lost from commit {item[1]} on (a greater --outbox of the server helps)"
        elif item[0] == "mnesia_table_end":
            self.why = f"table {item[1]} was deleted"

    def _pend(self, frames: bytes) -> None:
        self.pending.append(frames)
        self.pending_size += len(frames)

    def _follow(self, wire: Wire, side: Wire) -> None:
        """Writes commits as they come."""
        look, due = time.monotonic() + LOOK_SECONDS, 0.0
        while True:
            self._take(wire)
            now = time.monotonic()
            if self.pending and (now >= due or self.pending_size > MOST_PENDING or self.why):
                self._write()
                due = now + self.settings.every
            if self.why:
                raise Again(self.why)
            if self.store.log_size > max(self.settings.compact_at, self.dump_size):
                raise Again("the log has outgrown the dump")
            if now >= look:
                self._look(side)
                look = now + LOOK_SECONDS
            if not wire.has_frame():
                wire.wait(max(0.0, min(look, due if self.pending else look) - now))

    def _take(self, wire: Wire) -> None:
        """All whole frames of the buffer."""
        while wire.has_frame():
            frames, last = wire.batches()
            if frames:
                self._pend(frames)
            else:
                self._told(wire.next())

    def _write(self) -> None:
        frames = b"".join(self.pending)
        self.pending, self.pending_size = [], 0
        self.store.append(frames)
        self.last = last_commit(frames)
        self.say("kept", self.last)

    def _look(self, side: Wire) -> None:
        """Whether a table has come, or is defined otherwise than in the dump."""
        for name in self.names:
            if name not in self.definitions:
                if exists(side, name):
                    raise Again(f"table {name} has come")
            elif definition(side, name) != self.definitions[name]:
                raise Again(f"table {name} has other indexes")


def last_commit(frames: bytes) -> int:
    """The number of the last of whole batches."""
    at = last = 0
    while at < len(frames):
        last, at = at, at + 4 + int.from_bytes(frames[at : at + 4], "big")
    return commit_of(frames, last + 4)


def keep(words: argparse.Namespace) -> int:
    settings = Settings(
        list(dict.fromkeys(words.table)),
        words.name,
        words.every / 1000,
        int(words.compact_at * 1e6),
        words.take,
        words.quiet,
        words.json,
    )
    address = server_of(words)
    with Store(words.folder) as store:
        Keeper(address, store, settings).run()
    return 0


def add(command: Callable[..., argparse.ArgumentParser]) -> None:
    added = command("keep", keep, "keep tables on a disk, and restore them to a server that comes back empty")
    added.add_argument("folder", metavar="FOLDER", help="the keeper's folder; created if it does not exist")
    added.add_argument("table", metavar="TABLE", nargs="+")
    added.add_argument("--name", default="keep", help="the keeper's name in the server's table tabd_kept; keep without it")
    every = "write to the disk each so many milliseconds; 0, at once, without it"
    added.add_argument("--every", type=fraction(0), default=0.0, metavar="MS", help=every)
    compact = "take a new dump if the log has as many, and more than the dump; 64 without it"
    added.add_argument("--compact-at", type=fraction(0.001), default=64.0, metavar="MB", help=compact)
    foreign = "whose records count, if a server that comes back was written to before it was restored"
    added.add_argument("--take", choices=("server", "folder"), default="", help=foreign)
    added.add_argument("--quiet", action="store_true", help="no line for what was kept")
