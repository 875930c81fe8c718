"""Concurrent clients of a server that log their replies and events, for the judge (judging.py).

Six clients make random transactions on few keys of a set and a bag: reads, writes, reads of whole tables, nested levels,
failing operations, requests that are sent ahead, one-shots. Some abort an operation that waits; some vanish, with or without their
commit. Others watch, at both levels, with dumps and without: two recorders that read at once, and some that read late, unsubscribe, subscribe
again or vanish. The seed decides the clients' requests, but not their times.
"""

import random
import select
import threading
import time
from typing import Any, List, Set, Tuple

from tests.lib.judging import LONG, Attempt, Differs, Log, OneShot, Run, is_operation
from tests.lib.model import KINDS, OPTIONS
from tests.lib.wire import PATIENCE, Connection, frames_of, term_of

WRITERS, VANISHING, CONNECTIONS, OUTBOX = 6, 24, 44, 96
KEYS, CLASSES, COMMON = [1, 2, "a", (1, 2)], [0, 1], 3
# What a client asks in a transaction, and how often.
OPERATIONS = {
    "read": 30, "wread": 14, "write": 36, "delete": 6, "delete_object": 6, "index_read": 3, "match_object": 4, "all_keys": 2,
    "read_lock_table": 1, "write_lock_table": 1, "fail": 2,
}  # fmt: skip
now = time.monotonic


class Chance(random.Random):
    """Random requests. A fresh value is no other's."""

    def __init__(self, seed: Any, number: Any) -> None:
        super().__init__(f"{seed}/{number}")
        self.last = number * 1_000_000

    def fresh(self, tab: str) -> Any:
        self.last += 1
        return (self.last, LONG) if tab == "t" and self.random() < 0.4 else self.last

    def record(self, tab: str, key: Any) -> Tuple[Any, ...]:
        return (tab, key, self.choice(CLASSES), self.randrange(COMMON) if self.random() < 0.3 else self.fresh(tab))

    def failing(self, tab: str = "t", key: Any = 1) -> Any:
        return self.choice([("read", "nosuch", 1), ("write", (tab, key)), ("index_read", tab, 0, "value"), ("delete", ("nosuch", 1))])

    def operation(self, fails: bool = True) -> Any:
        tab, key = self.choice(list(KINDS)), self.choice(KEYS)
        name = self.choices(list(OPERATIONS), list(OPERATIONS.values()))[0]
        if name == "fail":
            return self.failing(tab, key) if fails else ("read", tab, key)
        if name == "read":
            return (name, tab, key)
        if name in ("wread", "delete"):
            return (name, (tab, key))
        if name in ("write", "delete_object"):
            return (name, self.record(tab, key))
        if name == "index_read":
            return (name, tab, self.choice(CLASSES), self.choice([3, "class"]))
        if name == "match_object":
            return (name, (tab, self.choice([key, key, "_"]), self.choice(["_", 0]), "_"))
        return (name, tab)

    def parts(self) -> Tuple[Any, ...]:
        """The members of a one-shot, and the value of its last write, which no other has."""
        parts = [self.operation(self.random() < 0.3) for _ in range(self.randrange(1, 5))]
        if self.random() < 0.1:
            return [part for part in parts if part[0] in ("read", "all_keys", "match_object", "index_read")], None
        if self.random() < 0.4:
            inner = [self.operation() for _ in range(self.randrange(1, 4))] + [("abort", "inner")] * (self.random() < 0.3)
            parts.insert(self.randrange(len(parts) + 1), ("transaction", inner))
        if self.random() < 0.08:
            return parts + [("abort", "why")], None
        tab = self.choice(list(KINDS))
        tag = self.fresh(tab)
        return parts + [("write", (tab, self.choice(KEYS), 0, tag))], tag


class Writer:
    """A client that makes transactions until the time is over, and logs them. One that vanishes comes again."""

    def __init__(self, game: Any, number: Any, connection: Any = None) -> None:
        self.game, self.chance, self.connection = game, Chance(game.seed, number), connection or Connection(game.port)
        self.attempt: Any = None
        self.depth, self.given_up = 0, 0

    def ask(self, what: Any) -> Tuple[Any, ...]:
        sent = now()
        reply = self.connection.ask(what)
        return reply, sent, now()

    def run(self) -> None:
        kinds = [self.transaction] * 12 + [self.ahead] * 3 + [self.one_shot] * 5
        while now() < self.game.end:
            self.chance.choice(kinds)()
            if self.chance.random() < 0.1:
                time.sleep(self.chance.random() * 0.01)
        self.connection.close()

    def begun(self, reply: Any, sent: Any, got: Any) -> None:
        if not isinstance(reply, tuple) or reply[0] != "tid":
            raise Differs(f"the reply to begin was {reply}")
        self.attempt, self.depth = Attempt(reply[1], sent, got), 1
        self.game.attempts.append(self.attempt)

    def note(self, move: Any, reply: Any, sent: Any, got: Any) -> bool:
        """Notes a reply. Whether the transaction goes on."""
        if reply == "restart":
            self.attempt.ended("restart", sent, got, last=(move, reply, sent, got))
            self.attempt, self.depth = Attempt(self.attempt.age, sent, None), 1
            self.game.attempts.append(self.attempt)
        elif move == "commit" and self.depth == 1:
            if not isinstance(reply, tuple) or reply[0] != "atomic" or not isinstance(reply[1], int):
                raise Differs(f"the reply to commit was {reply}")
            self.attempt.ended("commit", sent, got, number=reply[1])
            self.depth = 0
        else:
            if reply == "waiting" or reply[:1] == ("error",):
                raise Differs(f"the reply to {move} was {reply}")
            self.attempt.steps.append((move, reply, sent, got))
            self.depth += (move == "begin") - (move == "commit" or reply[:1] == ("aborted",))
            if not self.depth:
                self.attempt.ended("aborted", sent, got)
        return self.depth > 0

    def move(self, left: int) -> Any:
        """The next move, with so many operations still to do."""
        if left > 0:
            level = self.chance.random()
            if self.depth < 4 and level < 0.08:
                return "begin"
            if self.depth > 1 and level > 0.75:
                return self.chance.choice(["commit", ("abort", "level"), self.chance.failing()])
            return self.chance.operation()
        return "commit" if self.chance.random() < 0.85 else ("abort", "why")

    def transaction(self) -> Any:
        self.begun(*self.ask("begin"))
        left, going = self.chance.randrange(1, 7), True
        while going:
            if self.chance.random() < 0.004 and self.game.may_vanish():
                return self.vanish()
            move = self.move(left)
            if is_operation(move) and self.game.gives_up and self.chance.random() < 0.05:
                going = self.give_up(move)
                continue
            told = self.ask(move)
            left = self.chance.randrange(1, 7) if told[0] == "restart" else left - 1
            going = self.note(move, *told)

    def give_up(self, move: Any) -> Any:
        """An operation, and an abort at once after it or if no reply comes soon: an operation that waits then has no reply. Returns whether
        the transaction goes on."""
        self.given_up += 1
        abort, sent, soon = ("abort", self.given_up), now(), self.chance.choice([0, 0.0005, 0.01, 0.03])
        self.connection.send(move)
        if soon and select.select([self.connection.socket], [], [], soon)[0]:
            return self.note(move, self.reply(), sent, now())
        asked = now()
        self.connection.send(abort)
        reply = self.reply()
        if reply == ("aborted", self.given_up):
            self.attempt.given_up.append((move, sent))
            self.game.given_up += 1
            return self.note(abort, reply, asked, now())
        going, reply = self.note(move, reply, sent, now()), self.reply()
        if going:
            return self.note(abort, reply, asked, now())
        if reply != ("error", "no_transaction"):
            raise Differs(f"the reply to {abort} was {reply} outside of a transaction")
        return False

    def reply(self) -> Any:
        term = self.connection.receive()
        if term[0] != "reply":
            raise Differs(f"a client that watches nothing received {term}")
        return term[1]

    def vanish(self) -> None:
        """It asks for something yet, or for its commits, and is gone."""
        move, sent = self.chance.operation(), now()
        if self.chance.random() < 0.5:
            self.attempt.ended("maybe", sent, float("inf"))
            self.connection.send(*["commit"] * self.depth)
        else:
            self.attempt.ended("vanished", sent, float("inf"), last=(move, None, sent, float("inf")))
            self.connection.send(move)
        time.sleep(self.chance.choice([0, 0.001, 0.05]))
        self.chance.choice([self.connection.close, self.connection.break_off])()
        self.connection = Connection(self.game.port)

    def ahead(self) -> None:
        """A transaction in one piece: after a restart the following requests are the whole transaction."""
        moves = ["begin", *(self.chance.operation(fails=False) for _ in range(self.chance.randrange(1, 6))), "commit"]
        sent = now()
        self.connection.send(*moves)
        for at, move in enumerate(moves):
            reply = self.reply()
            self.note(move, reply, sent, now()) if at else self.begun(reply, sent, now())

    def one_shot(self) -> None:
        parts, tag = self.chance.parts()
        shot = OneShot(parts, tag, now())
        self.game.shots.append(shot)
        request = ("transaction", parts, self.chance.choice([0, 1, 1000]))
        if self.chance.random() < 0.01 and self.game.may_vanish():
            self.connection.send(request)
            time.sleep(self.chance.choice([0, 0.01]))
            self.connection.close()
            self.connection = Connection(self.game.port)
            return
        shot.reply = self.connection.ask(request)
        shot.got = now()


class Watcher(Log):
    """A client that watches tables, and logs its events and markers with their times. How it does: it `records`, or subscribes with a `dump`,
    has `small` buffers and reads late, or `vanishes`."""

    def __init__(self, game: Any, name: str, tabs: List[str], level: str, *how: str) -> None:
        super().__init__(name, "records" in how)
        self.game, self.tabs, self.level, self.how = game, tabs, level, how
        self.chance, self.connection = Chance(game.seed, name), Connection(game.port, "small" in how)
        self.replies: List[Any] = []
        self.watched: Set[str] = set()
        self.data = b""
        game.watchers.append(self)

    def pump(self, patience: float) -> bool:
        """Reads what is there, and waits no longer for it. False at the stream's end."""
        if not select.select([self.connection.socket], [], [], patience)[0]:
            return True
        more, got = self.connection.socket.recv(65_536), now()
        whole, self.data = frames_of(self.data + more)
        for term in map(term_of, whole):
            if term[0] == "reply":
                self.replies.append(term[1])
                continue
            self.frames.append((term, got))
            if term[0] == "mnesia_overflow":
                self.watched.clear()
        return bool(more)

    def until(self, what: Any, is_so: Any) -> None:
        end = now() + PATIENCE
        while not is_so():
            if now() > end or not self.pump(0.5) and not is_so():
                raise Differs(f"{self.name} waits for {what}")

    def ask(self, request: Any) -> Any:
        sent = now()
        self.connection.send(request)
        self.until(request, lambda: self.replies)
        reply, got = self.replies.pop(), now()
        if reply == ("ok", "nonode@nohost"):
            self.marks.append((request, sent, got))
        elif reply[1] not in ("overflow", "outbox_full", ("not_subscribed", request[1][1])):
            raise Differs(f"{self.name}: the reply to {request} was {reply}")
        return reply

    def subscribe(self, tab: str) -> None:
        dump = [it for it in self.how if it == "dump"]
        if self.ask(("subscribe", ("table", tab, self.level), *dump))[0] == "ok":
            self.watched.add(tab)

    def unsubscribe(self, tab: str) -> bool:
        """If the table is not watched any more, an overflow comes, or has come."""
        reply = self.ask(("unsubscribe", ("table", tab, self.level)))
        if reply[0] == "ok":
            self.watched.discard(tab)
        elif reply[1] != "outbox_full":
            self.until("an overflow", lambda: tab not in self.watched)
        return bool(reply[0] == "ok")

    def run(self) -> Any:
        while now() < self.game.end:
            self.pump(0.02)
            for tab in self.tabs:
                if tab not in self.watched and (self.records or self.chance.random() < 0.5):
                    self.subscribe(tab)
            if self.records:
                continue
            self.idle()
            if "vanishes" in self.how and self.frames and self.chance.random() < 0.02 and self.game.may_vanish():
                self.vanished = True
                self.connection.break_off()
                return Watcher(self.game, self.name + "'", self.tabs, self.level, *self.how).run()
        self.game.over.wait()
        return self.finish()

    def idle(self) -> None:
        chance = self.chance.random()
        if "small" in self.how and chance < 0.15:
            time.sleep(self.chance.random() * 1.5)
        elif chance < 0.2:
            time.sleep(self.chance.random() * 0.02)
        elif chance < 0.25 and self.watched:
            self.unsubscribe(self.chance.choice(sorted(self.watched)))

    def finish(self) -> None:
        """Unsubscribes, and reads up to its last marker."""
        self.connection.widen()
        end = now() + PATIENCE
        while self.watched and now() < end:
            self.unsubscribe(min(self.watched))
            self.pump(0.01)
        marked = lambda: sum(term[0] in ("mnesia_table_begin", "mnesia_table_end") for term, _ in self.frames) == len(self.marks)
        self.until("its markers", marked)
        self.pump(0.05)
        self.connection.close()


class Game:
    """One round: a server, its clients, and their logs."""

    def __init__(self, port: Any, seed: Any, seconds: float, gives_up: Any, most_bytes: float) -> None:
        self.most_bytes, self.port, self.seed, self.gives_up, self.given_up = most_bytes, port, seed, gives_up, 0
        self.attempts: List[Attempt] = []
        self.shots: List[OneShot] = []
        self.watchers: List[Watcher] = []
        self.failed: List[str] = []
        self.vanishing, self.over = threading.Semaphore(VANISHING), threading.Event()
        self.first = Connection(port)
        for tab, options in OPTIONS.items():
            if self.first.ask(("create_table", tab, options)) != ("atomic", "ok"):
                raise Differs(f"table {tab} is not made")
        both = list(KINDS)
        for name in ("a recorder", "another recorder"):
            recorder = Watcher(self, name, both, "detailed", "records")
            for tab in both:
                recorder.subscribe(tab)
        Watcher(self, "a mirror", both, "detailed", "dump")
        Watcher(self, "a late reader", both, "simple", "dump", "small")
        Watcher(self, "another late reader", ["t"], "detailed", "small")
        Watcher(self, "one that vanishes", ["t"], "simple", "dump", "vanishes")
        self.writers = [Writer(self, number) for number in range(1, WRITERS + 1)]
        self.end = now() + seconds

    def may_vanish(self) -> bool:
        return self.vanishing.acquire(blocking=False)

    def side_by_side(self, clients: List[Any]) -> Any:
        def run(client: Any) -> None:
            try:
                client.run()
            except (Differs, OSError, ValueError, TypeError, IndexError) as error:
                self.failed.append(f"{type(client).__name__}: {type(error).__name__} {error}")
                self.over.set()
                # What it holds would keep the last commit from its end.
                client.connection.close()

        threads = [threading.Thread(target=run, args=(client,), daemon=True) for client in clients]
        for thread in threads:
            thread.start()
        return threads

    def play(self) -> Any:
        """Plays the round; the number and the age of its last commit, which reads all and writes to all tables."""
        watching = self.side_by_side(list(self.watchers))
        for thread in self.side_by_side(self.writers):
            thread.join()
        closing = self.close()
        self.over.set()
        for thread in watching:
            thread.join()
        self.first.close()
        return closing

    def close(self) -> Tuple[Any, ...]:
        """Both tables are read and written, and the last commit made."""
        last = Writer(self, 0, self.first)
        last.begun(*last.ask("begin"))
        moves = [move for tab in KINDS for move in (("match_object", (tab, "_", "_", "_")), ("write", (tab, "last", 0, 0)))]
        while len(last.attempt.steps) < len(moves):
            move = moves[len(last.attempt.steps)]
            last.note(move, *last.ask(move))
        last.note("commit", *last.ask("commit"))
        return self.attempts[-1].number, self.attempts[-1].age

    def run(self) -> Any:
        """Plays the round, and returns all replies and events. Undecided if no recorder has the whole order."""
        return Run(self.attempts, self.shots, self.watchers, self.play(), (OUTBOX, self.most_bytes))

    def told(self) -> str:
        events = sum(len(watcher.frames) for watcher in self.watchers)
        ends = {end: sum(it.end == end for it in self.attempts) for end in ("commit", "restart", "aborted", "vanished", "maybe")}
        overflows = sum(term[0] == "mnesia_overflow" for watcher in self.watchers for term, _ in watcher.frames)
        return f"{ends}, {self.given_up} given up, {len(self.shots)} one-shots, {events} events, {overflows} overflows"
