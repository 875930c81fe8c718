"""Wrong servers for test_history.py and test_in_turn.py: each is a proxy between the clients and a right server, and breaks one rule.

A wrong server sees each request before the server does, and each frame before its client does, and decides what is passed on. So it
can lose a lock, by a read outside of the client's transaction, and drop, double or swap frames.
"""

import contextlib
import select
import socket
import threading
import time
from collections import deque
from typing import Any, Deque, Dict, List, Set, Tuple

from tests.lib.model import UPDATES
from tests.lib.wire import Connection, Term, frame, frames_of, spell, term_of

# Every so many of a kind are done wrong.
OFTEN = 23


class Link:
    """One client's connection, and its connection to the server."""

    def __init__(self, wrong: Any, client: socket.socket, port: int) -> None:
        self.wrong, self.client, self.server = wrong, client, Connection(port, small=wrong.small).socket
        self.client.setsockopt(socket.IPPROTO_TCP, socket.TCP_NODELAY, 1)
        # The pending requests, the open levels and their age, the keys that the transaction may have changed, the frames that are
        # kept back, and other notes of a wrong server.
        self.pending: Deque[Term] = deque()
        self.depth, self.age, self.touched, self.held = 0, 0, set(), []  # type: int, int, Set[Any], List[Term]
        self.notes: Dict[Any, Any] = {}
        # Whether it watches all at level detailed, so that the order of the commits is read off it.
        self.records = False

    def run(self) -> None:
        with contextlib.suppress(OSError):
            self.pass_on()
        self.wrong.gone(self)
        for one in (self.client, self.server):
            with contextlib.suppress(OSError):
                one.shutdown(socket.SHUT_RDWR)
            one.close()

    def pass_on(self) -> None:
        """The frames of both, until one of them ends."""
        rest = {self.client: b"", self.server: b""}
        while True:
            for end in select.select(list(rest), [], [])[0]:
                more = end.recv(65_536)
                if not more:
                    return
                whole, rest[end] = frames_of(rest[end] + more)
                for term in map(term_of, whole):
                    (self.asked if end is self.client else self.told)(term)

    def asked(self, term: Any) -> None:
        self.records |= term == ("subscribe", ("table", "t", "detailed"))
        request = self.wrong.asked(self, term)
        if request is not None:
            self.pending.append(term)
            self.server.sendall(frame(request))

    def told(self, term: Any) -> None:
        if term[0] == "reply":
            request = self.pending.popleft()
            self.follow(request, term[1])
            term = self.wrong.replied(self, request, term)
            if term is None:
                return
        for one in self.wrong.told(self, term):
            self.client.sendall(frame(one))

    def tell(self, reply: Any) -> None:
        """Answers a request that the server is not asked."""
        self.client.sendall(frame(("reply", reply)))

    def follow(self, request: Any, reply: Any) -> None:
        if reply == "restart":
            self.depth, self.touched = 1, set()
        elif request[0] == "transaction":
            return
        elif reply[:1] == ("aborted",) or (request == "commit" and reply[0] == "atomic"):
            self.depth -= 1
        elif reply[:1] == ("tid",):
            self.depth, self.age = self.depth + 1, reply[1]
        if not self.depth:
            self.touched = set()


class Wrong:
    """A stand-in that changes nothing: the others are it but for one rule. One that is small has little room for what a client
    does not read; one that spares recorders sends wrong frames only to other subscribers."""

    small, spares = False, False

    def __init__(self, port: int) -> None:
        self.port, self.count, self.lock = port, 0, threading.Lock()
        self.notes: Dict[Any, Any] = {}
        self.listener = socket.create_server(("127.0.0.1", 0))
        self.aside, self.aside_lock = Connection(port), threading.Lock()
        threading.Thread(target=self.accept, daemon=True).start()

    def accept(self) -> None:
        while True:
            try:
                client, _ = self.listener.accept()
                link = Link(self, client, self.port)
            except OSError:
                return
            self.serve(link)

    def serve(self, link: Link) -> None:
        threading.Thread(target=link.run, daemon=True).start()

    def now_and_then(self) -> bool:
        with self.lock:
            self.count += 1
            return self.count % OFTEN == 0

    def asked(self, link: Any, request: Any) -> Any:
        """What the server is asked, or None."""
        return request

    def replied(self, link: Any, request: Any, term: Any) -> Any:
        """The reply, or None."""
        return term

    def told(self, link: Any, term: Any) -> List[Any]:
        """The frames that the client receives."""
        return [term]

    def gone(self, link: Any) -> None:
        """The connection has ended."""

    def hits(self, link: Any, term: Any) -> Any:
        return is_event(term) and not (self.spares and link.records) and self.now_and_then()

    def by_itself(self, link: Any, request: Any) -> bool:
        """Reads outside of the client's transaction, if the reply is the same. Returns whether it did."""
        if link.pending or not link.depth:
            return False
        with self.aside_lock:
            word, replies = self.aside.ask(("transaction", [request], 0))
        if word == "atomic":
            link.tell(replies[0])
        return bool(word == "atomic")


def is_event(term: Any) -> bool:
    return bool(term[0] == "mnesia_table_event")


def what_of(event: Any) -> Tuple[Any, ...]:
    """The record, or table and key, of an event, and the age of its transaction."""
    body = event[1]
    return (body[1] if len(body) == 3 else body[2]), body[-1][1]


class DropsAnEvent(Wrong):
    def told(self, link: Any, term: Any) -> Any:
        return [] if self.hits(link, term) else [term]


class DoublesAnEvent(Wrong):
    def told(self, link: Any, term: Any) -> Any:
        return [term, term] if self.hits(link, term) else [term]


class SwapsEvents(Wrong):
    """Some frames come after the next one."""

    def is_held(self, link: Any, term: Any) -> Any:
        return self.hits(link, term)

    def told(self, link: Any, term: Any) -> List[Any]:
        held, link.held = link.held, []
        if not held and self.is_held(link, term):
            link.held = [term]
            return []
        return [term, *held]


class DropsASubscribersEvent(DropsAnEvent):
    spares = True


class DoublesASubscribersEvent(DoublesAnEvent):
    spares = True


class SwapsASubscribersEvents(SwapsEvents):
    spares = True


class TellsABatchBeforeItsMark(SwapsEvents):
    def is_held(self, link: Any, term: Any) -> Any:
        return term[0] == "mnesia_table_begin" and not link.records


class TellsAnEventAfterTheEnd(SwapsEvents):
    spares = True

    def told(self, link: Any, term: Any) -> List[Any]:
        is_before = link.held and term[0] != "mnesia_table_end"
        return [term] if is_before else super().told(link, term)


class DropsWhatIsQueuedAtAnEnd(Wrong):
    def asked(self, link: Any, request: Any) -> Any:
        link.notes["ends"] = request[0] == "unsubscribe" or link.notes.get("ends")
        return request

    def told(self, link: Any, term: Any) -> Any:
        if term[0] != "reply" and not is_event(term):
            link.notes["ends"] = False
        return [] if is_event(term) and link.notes.get("ends") else [term]


def place_of(event: Any) -> Any:
    """The table and the key that it changes, and its transaction's age."""
    what, age = what_of(event)
    return what[:2], age


class MergesWrites(Wrong):
    def told(self, link: Any, term: Any) -> Any:
        held, link.held = link.held, []
        if not is_event(term):
            return [*held, term]
        link.held = [term]
        return [one for one in held if place_of(one) != place_of(term)]


class TellsOldRecordsOfBeforeTheCommit(Wrong):
    def told(self, link: Any, term: Any) -> List[Any]:
        if not is_event(term) or len(term[1]) == 3:
            return [term]
        what, age = what_of(term)
        body = list(term[1])
        body[3] = link.notes.setdefault((age, what[0], spell(what[1])), body[3])
        return [(term[0], tuple(body))]


class GivesANewAgeAfterARestart(Wrong):
    def replied(self, link: Any, request: Any, term: Any) -> Any:
        if term[1] == "restart":
            self.notes[link.age] = True
        return term

    def told(self, link: Any, term: Any) -> List[Any]:
        if is_event(term) and what_of(term)[1] in self.notes:
            return [(term[0], (*term[1][:-1], ("tid", what_of(term)[1] + 10_000)))]
        return [term]


class LosesAReadLock(Wrong):
    def asked(self, link: Any, request: Any) -> Any:
        if request[0] in UPDATES:
            link.touched.add((request[1][0], spell(request[1][1])))
        is_free = request[0] == "read" and request[1] != "nosuch" and (request[1], spell(request[2])) not in link.touched
        return None if is_free and self.by_itself(link, request) else request


class LooksAtATableWithoutALock(Wrong):
    def asked(self, link: Any, request: Any) -> Any:
        if request[0] in UPDATES:
            link.touched.add(request[1][0])
        looks = request[0] in ("all_keys", "index_read") and request[-1] != "value" and not link.touched
        return None if looks and self.by_itself(link, request) else request


class ReadsForAWriteByAReadLock(Wrong):
    def asked(self, link: Any, request: Any) -> Any:
        return ("read", *request[1]) if request[0] == "wread" else request


class LosesATableLock(Wrong):
    def asked(self, link: Any, request: Any) -> Any:
        is_lost = request[0] in ("read_lock_table", "write_lock_table") and link.depth and not link.pending
        return link.tell("ok") if is_lost else request


class KeepsNoLockOfWhatFailed(Wrong):
    def asked(self, link: Any, request: Any) -> Any:
        if request == ("delete", ("nosuch", 1)):
            return ("abort", ("no_exists", "nosuch"))
        if request[0] == "write" and len(request[1]) == 2:
            return ("abort", ("bad_type", request[1][0], request[1]))
        return ("abort", ("no_index", request[1], "value")) if request[0] == "index_read" and request[3] == "value" else request


class LosesAWrite(Wrong):
    def asked(self, link: Any, request: Any) -> Any:
        is_right = request[0] == "write" and len(request[1]) == 4 and link.depth and not link.pending
        return link.tell("ok") if is_right and self.now_and_then() else request


class TellsAnOldRead(Wrong):
    def replied(self, link: Any, request: Any, term: Any) -> Any:
        if request[0] != "read" or not isinstance(term[1], list):
            return term
        key = request[1], spell(request[2])
        last, self.notes[key] = self.notes.get(key, term), term
        return last if self.now_and_then() else term


class TellsAReaderAnOldRead(Wrong):
    """The reply to a one-shot that writes nothing is that of old tables."""

    def replied(self, link: Any, request: Any, term: Any) -> Any:
        if request[0] == "read" and isinstance(term[1], list):
            self.notes.setdefault((request[1], spell(request[2])), term[1])
        if request[0] != "transaction" or term[1][0] != "atomic" or any(part[0] != "read" for part in request[1]):
            return term
        old = [self.notes.get((part[1], spell(part[2])), told) for part, told in zip(request[1], term[1][1])]
        return ("reply", ("atomic", old))


class CommitsWhatIsGone(Wrong):
    def gone(self, link: Any) -> None:
        with contextlib.suppress(OSError):
            link.server.sendall(frame("commit") * link.depth)


class CommitsWhatIsAborted(Wrong):
    is_inner = False

    def asked(self, link: Any, request: Any) -> Any:
        is_so = request[0] == "abort" and link.depth and (link.depth > 1) == self.is_inner
        return "commit" if is_so and not link.pending else request

    def replied(self, link: Any, request: Any, term: Any) -> Any:
        return ("reply", ("aborted", request[1])) if request[0] == "abort" and term[1][0] == "atomic" else term


class KeepsAChildThatIsAborted(CommitsWhatIsAborted):
    is_inner = True


class RestartsForNothing(Wrong):
    def asked(self, link: Any, request: Any) -> Any:
        is_read = request[0] == "read" and link.depth == 1 and not link.pending
        return link.tell("restart") if is_read and self.now_and_then() else request


class TellsAnotherOverflow(Wrong):
    """It reads little, so that there are overflows."""

    small = True

    def asked(self, link: Any, request: Any) -> Any:
        link.notes["late"] = request[0] == "subscribe" and len(request) == 3 or link.notes.get("late")
        return request

    def told(self, link: Any, term: Any) -> Any:
        if link.notes.get("late") and is_event(term) and link.notes.get("naps", 0) < 2 and self.now_and_then():
            link.notes["naps"] = link.notes.get("naps", 0) + 1
            time.sleep(2.5)
        return [(term[0], term[1] + 40)] if term[0] == "mnesia_overflow" else [term]


class OverflowsWithRoomLeft(Wrong):
    """It ends a subscriber's subscriptions itself, and says that the next commit found its outbox full."""

    def asked(self, link: Any, request: Any) -> Any:
        if request[0] == "subscribe" and len(request) == 3:
            link.notes.setdefault("watched", []).append(request[1])
        if request[0] == "unsubscribe" and request[1] in link.notes.get("watched", []):
            link.notes["watched"].remove(request[1])
        return request

    def replied(self, link: Any, request: Any, term: Any) -> Any:
        if request == "own":
            return None
        if request == "commit" and isinstance(term[1][1], int):
            self.notes[link.age] = term[1][1]
        return term

    def told(self, link: Any, term: Any) -> Any:
        if term[0] == "mnesia_table_end" and link.notes.get("ends"):
            link.notes["ends"] -= 1
            return []
        if not is_event(term) or link.notes.get("ends"):
            return [] if is_event(term) else [term]
        age, link.notes["last"] = link.notes.get("last"), what_of(term)[1]
        if not link.notes.get("watched") or link.pending or age == link.notes["last"] or link.notes["last"] not in self.notes:
            return [term]
        watched, link.notes["watched"] = link.notes["watched"], []
        link.notes["ends"] = len(watched)
        for one in watched:
            link.pending.append("own")
            link.server.sendall(frame(("unsubscribe", one)))
        return [("mnesia_overflow", self.notes[link.notes["last"]])]


class SplitsAOneShot(Wrong):
    def asked(self, link: Any, request: Any) -> Any:
        if request[0] != "transaction" or len(request[1]) < 2 or request[1][0][0] != "write" or not self.now_and_then():
            return request
        with self.aside_lock:
            reply = self.aside.ask(("transaction", request[1][:1], 1000))
        if reply[0] == "atomic":
            link.notes["first"] = reply[1]
            return (request[0], request[1][1:], request[2])
        return request

    def replied(self, link: Any, request: Any, term: Any) -> Any:
        first = link.notes.pop("first", []) if request[0] == "transaction" else []
        return ("reply", ("atomic", first + term[1][1])) if first and term[1][0] == "atomic" else term


class ForgetsARecordOfADump(Wrong):
    def told(self, link: Any, term: Any) -> Any:
        return [(*term[:3], term[3][:-1])] if term[0] == "mnesia_table_begin" and len(term) == 4 and term[3] else [term]


class GivesANumberTwice(Wrong):
    def replied(self, link: Any, request: Any, term: Any) -> Any:
        if request == "commit" and isinstance(term[1][1], int) and self.now_and_then():
            return ("reply", ("atomic", term[1][1] - 1))
        return term


class OneAfterAnother(Wrong):
    """A transaction begins when the one before has ended."""

    def asked(self, link: Any, request: Any) -> Any:
        if request == "begin" and not link.depth and not link.pending:
            self.aside_lock.acquire()
            link.notes["alone"] = True
        return request

    def replied(self, link: Any, request: Any, term: Any) -> Any:
        if not link.depth:
            self.gone(link)
        return term

    def gone(self, link: Any) -> None:
        if link.notes.pop("alone", False):
            self.aside_lock.release()


class ServesOneAfterAnother(Wrong):
    """A connection is served when the one before has ended."""

    def serve(self, link: Link) -> None:
        link.run()


class MakesCallsInTurn(Wrong):
    """A call is made after the reply to the one before, of all clients: one that waits for a lock delays the others."""

    def asked(self, link: Any, request: Any) -> Any:
        self.aside_lock.acquire()
        return request

    def replied(self, link: Any, request: Any, term: Any) -> Any:
        self.aside_lock.release()
        return term


IN_TURN = [ServesOneAfterAnother, MakesCallsInTurn]

# All of this module, in their order.
WRONG = [it for it in list(globals().values()) if isinstance(it, type) and issubclass(it, Wrong) and it not in (Wrong, *IN_TURN)]
