"""The model of a replay, as docs/PROTOCOL.md says it: sessions whose transactions meet (wait-die), one-shots, commands on tables, subscriptions and
their outboxes. It shares no code with the server.
"""

from typing import Dict, Iterator, List, Optional

from tests.lib.checks import HERE_OK
from tests.lib.model import EMPTY, Alone, Lock, Table, Tables, Update, conflict, events, lock_of, mirror, updated, whole
from tests.lib.requests import OPERATIONS, Reader, is_list, is_request
from tests.lib.wire import Term, frame

SESSIONS, NESTING, MOVES, TABLES = 64, 16, 1_000, 256


class Refused(Exception):
    """A request that is replied to with this, and of which nothing else is done."""

    def __init__(self, kind: str, what: Term) -> None:
        super().__init__(kind, what)
        self.reply = (kind, what)


class Session:
    """Its transaction's age, what it did since its begin or its last restart, the locks that it has, and the operation that waits; the tables
    that it watches, each with its level, the items in its outbox, and an overflow that was not taken yet."""

    def __init__(self) -> None:
        self.ends()
        self.levels: Dict[str, str] = {}
        self.outbox: List[Term] = []
        self.overflow: Optional[int] = None

    def ends(self) -> None:
        self.age: Optional[int] = None
        self.restarts({})

    def restarts(self, tables: Tables) -> None:
        self.moves: List[Term] = []
        self.locks: List[Lock] = []
        self.queued: Term = None
        self.alone = Alone(tables)

    def sees(self, tables: Tables) -> None:
        """Others have changed the tables: its locks have kept what it saw."""
        self.alone = Alone(tables)
        for move in self.moves:
            self.alone.tell(move)

    def is_full(self) -> bool:
        return len([move for move in self.moves if move == "begin" or move[0] in OPERATIONS]) == MOVES


def covers(one: Lock, other: Lock) -> bool:
    """A lock that is held covers one that is asked for."""
    return one[0] == other[0] and one[1] in (None, other[1]) and (one[2] or not other[2])


def is_option(tab: str, it: Term) -> bool:
    if not isinstance(it, tuple) or len(it) != 2 or not isinstance(it[0], str):
        return False
    name, value = it
    known = {"type": value in ("set", "bag"), "attributes": True, "index": True, "ram_copies": is_list(value), "record_name": value == tab}
    return known.get(name, False)


def created(tab: str, options: List[Term]) -> Table:
    """The table of these options."""
    given: Dict[str, Term] = {}
    for it in options:
        if not is_option(tab, it) or it[0] in given:
            raise Refused("aborted", ("bad_def", tab, it))
        given[it[0]] = it[1]
    names = given.get("attributes", ["key", "val"])
    if not is_list(names) or not 2 <= len(names) <= 255 or not all(isinstance(it, str) for it in names) or len(set(names)) < len(names):
        raise Refused("aborted", ("bad_def", tab, "attributes"))
    index = given.get("index", [])
    table = Table(given.get("type", "set"), tuple(names))
    wrong = [it for it in index if not isinstance(it, (str, int)) or not table.position(it)] if is_list(index) else [index]
    if wrong:
        raise Refused("aborted", ("bad_def", tab, ("index", wrong[0])))
    return table._replace(indexed=frozenset(at for it in index if (at := table.position(it))))


class Book:
    """All sessions and tables, the last Age, the number of the last commit, and the greatest number of a session; outboxes have room for so many
    items."""

    def __init__(self, room: int) -> None:
        self.room, self.age, self.number, self.last = room, 0, 0, 0
        self.tables: Tables = {}
        self.sessions: Dict[int, Session] = {}
        self.queue: List[Session] = []

    def answer(self, payload: bytes) -> Term:
        """The reply to a payload, and the session that it is under."""
        try:
            term = Reader(payload).payload()
        except ValueError:
            return (0, ("error", "badterm"))
        if not isinstance(term, tuple) or len(term) != 2 or not isinstance(term[0], int) or not 1 <= term[0] < 2**32:
            return (0, ("error", "badcommand"))
        return (term[0], self.tell(*term) if is_request(term[1]) else ("error", "badcommand"))

    def frames(self, given: List[bytes]) -> List[bytes]:
        """The reply frames to request frames."""
        return [frame(self.answer(one[4:])) for one in given]

    def tell(self, who: int, request: Term) -> Term:
        """The reply to a session's request."""
        try:
            return self.told(who, request)
        except Refused as refused:
            return refused.reply

    def told(self, who: int, request: Term) -> Term:
        if request == "join":
            return self.join(who)
        session, name = self.sessions.get(who), request if isinstance(request, str) else request[0]
        if session is None:
            raise Refused("error", "badsession")
        if name == "leave":
            return self.leave(who, session)
        if name in ("retry", "take", "abort"):
            return {"retry": self.retry, "take": self.take, "abort": self.abort}[name](session, request)
        if session.queued is not None:
            raise Refused("error", "waiting")
        others = {"begin": self.begin, "commit": self.commit, "transaction": self.one_shot, "table_info": self.info}
        watching = {"subscribe": self.subscribe, "unsubscribe": self.unsubscribe}
        return {**dict.fromkeys(OPERATIONS, self.operation), **others, **watching}.get(name, self.schema)(session, request)

    # Sessions.

    def join(self, who: int) -> Term:
        if who <= self.last:
            raise Refused("error", "badsession")
        if len(self.sessions) == SESSIONS:
            raise Refused("error", ("system_limit", "sessions"))
        self.sessions[who], self.last = Session(), who
        return "ok"

    def leave(self, who: int, session: Session) -> Term:
        self.leaves_queue(session)
        del self.sessions[who]
        return "ok"

    def leaves_queue(self, session: Session) -> None:
        session.queued = None
        self.queue = [it for it in self.queue if it is not session]

    # Transactions.

    def begin(self, session: Session, _: Term) -> Term:
        if session.age is None:
            self.age += 1
            session.age = self.age
            session.restarts(self.tables)
            return ("tid", session.age)
        if len(session.alone.saved) == NESTING:
            raise Refused("error", ("system_limit", "nesting"))
        if session.is_full():
            raise Refused("error", ("system_limit", "operations"))
        self.done(session, "begin")
        return ("tid", session.age)

    def done(self, session: Session, move: Term) -> Term:
        """A move that needs no lock any more."""
        session.moves.append(move)
        reply = session.alone.tell(move)
        if session.alone.over is not None:
            session.ends()
        return reply

    def commit(self, session: Session, move: Term) -> Term:
        if session.age is None:
            raise Refused("error", "no_transaction")
        if len(session.alone.saved) > 1:
            return self.done(session, move)
        age, updates = session.age, session.alone.updates
        session.ends()
        self.number += 1
        self.committed(age, updates)
        return ("atomic", self.number)

    def committed(self, age: int, updates: List[Update]) -> None:
        """The changes are made, and each session that watches has them in its outbox."""
        told, tables = events(self.tables, updates, age)
        self.changed(tables)
        for session in self.sessions.values():
            if slice_of := [terms[session.levels[tab]] for tab, terms in told if tab in session.levels]:
                self.put(session, ("batch", self.number, slice_of), self.number)

    def changed(self, tables: Tables) -> None:
        self.tables = tables
        for session in self.sessions.values():
            session.sees(tables)

    def abort(self, session: Session, move: Term) -> Term:
        if session.age is None:
            raise Refused("error", "no_transaction")
        self.leaves_queue(session)
        return self.done(session, move)

    # Operations and their locks.

    def opposed(self, session: Session, lock: Lock, queue: List[Session]) -> List[int]:
        """The ages of the others that have a lock against it, or wait for one in this queue."""
        others = [it for it in self.sessions.values() if it is not session]
        held = [it.age for it in others if any(conflict(lock, one) for one in it.locks)]
        waiting = [it.age for it in queue if it is not session and conflict(lock, lock_of(it.queued))]
        return [age for age in held + waiting if age is not None]

    def operation(self, session: Session, move: Term) -> Term:
        if session.age is None:
            raise Refused("error", "no_transaction")
        if session.is_full():
            raise Refused("error", ("system_limit", "operations"))
        lock = lock_of(move)
        opposed = [] if any(covers(one, lock) for one in session.locks) else self.opposed(session, lock, self.queue)
        if not opposed:
            session.locks.append(lock)
            return self.done(session, move)
        if self.waits(session, opposed):
            session.queued = move
            self.queue.append(session)
            return "waiting"
        session.restarts(self.tables)
        return "restart"

    def waits(self, session: Session, opposed: List[int]) -> bool:
        return session.age is not None and all(session.age < age for age in opposed)

    def retry(self, session: Session, _: Term) -> Term:
        """It looks only at those that wait before it, and never dies."""
        move = session.queued
        if move is None:
            raise Refused("error", "not_waiting")
        if self.opposed(session, lock_of(move), self.queue[: self.queue.index(session)]):
            return "waiting"
        self.leaves_queue(session)
        session.locks.append(lock_of(move))
        return self.done(session, move)

    # One-shots. Its age is the greatest, so it never waits; and in a replay each attempt meets the same locks.

    def one_shot(self, session: Session, request: Term) -> Term:
        if session.age is not None:
            raise Refused("error", "in_transaction")
        self.begin(session, "begin")
        try:
            told = self.members(session, request[1])
        except Refused:
            session.ends()
            raise
        if session.age is None:
            return told[-1]
        self.commit(session, "commit")
        return ("atomic", told)

    def members(self, session: Session, parts: List[Term]) -> List[Term]:
        """The replies to the members of a one-shot, up to the end of the level that they began in."""
        told: List[Term] = []
        depth = len(session.alone.saved)
        for part in parts:
            told.append(self.member(session, part))
            if session.age is None or len(session.alone.saved) < depth:
                break
        return told

    def member(self, session: Session, part: Term) -> Term:
        if part[0] == "transaction":
            return self.child(session, part[1])
        reply = (self.abort if part[0] == "abort" else self.operation)(session, part)
        if reply == "restart":
            raise Refused("aborted", "nomore")
        return reply

    def child(self, session: Session, parts: List[Term]) -> Term:
        self.begin(session, "begin")
        depth = len(session.alone.saved)
        told = self.members(session, parts)
        if len(session.alone.saved) < depth:
            return told[-1]
        self.commit(session, "commit")
        return ("atomic", told)

    # Commands on tables.

    def schema(self, session: Session, command: Term) -> Term:
        name, tab, *given = command
        if session.age is not None:
            raise Refused("error", "in_transaction")
        if (name == "create_table") == (tab in self.tables):
            raise Refused("aborted", ("already_exists" if name == "create_table" else "no_exists", tab))
        table = None if name == "delete_table" else self.altered(name, tab, given[0])
        if any(lock[0] == tab for lock in self.asked()):
            raise Refused("aborted", ("locked", tab))
        if name == "create_table" and len(self.tables) == TABLES:
            raise Refused("error", ("system_limit", "tables"))
        self.changed({**{it: other for it, other in self.tables.items() if it != tab}, **({tab: table} if table else {})})
        for watcher in self.sessions.values() if table is None else ():
            if watcher.levels.pop(tab, None):
                self.put(watcher, ("mnesia_table_end", tab, "deleted"), self.number + 1)
        return ("atomic", "ok")

    def asked(self) -> Iterator[Lock]:
        """All locks that a transaction has or waits for."""
        for session in self.sessions.values():
            yield from session.locks
        yield from (lock_of(session.queued) for session in self.queue)

    def altered(self, name: str, tab: str, given: Term) -> Table:
        """The table after a command."""
        if name == "create_table":
            return created(tab, given)
        table = self.tables[tab]
        position = table.position(given)
        if name == "add_table_index":
            if position is None or position in table.indexed:
                raise Refused("aborted", ("bad_def", tab, ("index", given)))
            return table._replace(indexed=table.indexed | {position})
        if position is None or position not in table.indexed:
            raise Refused("aborted", ("no_index", tab, given))
        return table._replace(indexed=table.indexed - {position})

    def info(self, _: Session, request: Term) -> Term:
        if request[1] not in self.tables:
            raise Refused("error", ("no_exists", request[1]))
        table = self.tables[request[1]]
        return {"type": table.kind, "attributes": [*table.names], "index": sorted(table.indexed), "size": len(whole(table))}[request[2]]

    # Subscriptions.

    def take(self, session: Session, _: Term) -> Term:
        if session.outbox:
            return session.outbox.pop(0)
        overflow, session.overflow = session.overflow, None
        return ("mnesia_overflow", overflow) if overflow else "empty"

    def put(self, session: Session, item: Term, number: int) -> None:
        """If there is no room all subscriptions end."""
        if len(session.outbox) < self.room:
            session.outbox.append(item)
        else:
            session.levels, session.overflow = {}, number

    def subscribe(self, session: Session, request: Term) -> Term:
        (_, tab, level), dump = request[1], request[2:]
        if session.overflow:
            raise Refused("error", "overflow")
        if tab not in self.tables:
            raise Refused("error", ("no_exists", tab))
        if tab in session.levels:
            raise Refused("error", ("already_subscribed", tab))
        return self.marked(session, {**session.levels, tab: level}, "begin", tab, level, *([whole(self.tables[tab])] if dump else []))

    def unsubscribe(self, session: Session, request: Term) -> Term:
        _, tab, level = request[1]
        if session.levels.get(tab) != level:
            raise Refused("error", ("not_subscribed", tab))
        return self.marked(session, {it: other for it, other in session.levels.items() if it != tab}, "end", tab, "unsubscribed")

    def marked(self, session: Session, levels: Dict[str, str], what: str, *more: Term) -> Term:
        if len(session.outbox) == self.room:
            raise Refused("error", "outbox_full")
        session.levels = levels
        session.outbox.append((f"mnesia_table_{what}", *more))
        return HERE_OK


def mirrored(items: List[Term]) -> Tables:
    """The tables that are watched with a dump in the end, built only from the items."""
    copies: Tables = {}
    for item in items:
        if item[0] == "mnesia_overflow":
            copies.clear()
        elif item[0] == "batch":
            for _, event in item[2]:
                mirror(copies, event)
        else:
            copies.pop(item[1], None)
            if len(item) == 4:
                copies.update(dumped(item[1], item[3]))
    return copies


def dumped(tab: str, records: List[Term]) -> Tables:
    tables = {tab: EMPTY[tab]}
    for record in records:
        tables, _ = updated(tables, ("write", record))
    return tables
