"""Judges a served run by its clients' logs: whether it equals a run of the transactions one after another.

The order of the commits that change something is that of a recorder, which watches all tables at level detailed; their numbers
are those of the replies. Run serially in that order (model.py), each has to give its client's replies and the recorder's
events, in the time between its request and its reply. The replies of every other transaction have to be those of the
tables at its time. No two transactions have conflicting locks at once, each restarted transaction met an older one, and each subscriber
has exactly the events since its begin marker.
"""

import ast
import bisect
import itertools
import math
import operator
import re
from typing import Any, Callable, Dict, Iterator, List, Tuple

from tests.lib.model import EMPTY, Alone, Table, conflict, events, lock_of, mirror, whole
from tests.lib.wire import memory

# Some values are so long that sockets fill up; none of the bag, whose keys have many records.
LONG = bytes(4000)
# The transactions of fewer commits than these may be open one after another by chance.
FEW = 100
# Of a lock's first and last time, its owner and itself.
TIMES = operator.itemgetter(0, 1)


class Undecided(Exception):
    """No recorder has the whole order."""


class Differs(Exception):
    pass


class Attempt:
    """A transaction's steps since its begin or its last restart: each a move, its reply, when it was sent and when answered."""

    def __init__(self, age: Any, sent: Any, got: Any) -> None:
        self.age, self.began = age, (sent, got)
        self.steps: List[Any] = []
        # How it ended, the times of that request and its reply; the operation that died or was never answered.
        self.end, self.sent, self.got, self.last = None, math.inf, math.inf, None
        self.number = None
        # Operations whose wait an abort has ended, and when they were asked.
        self.given_up: List[Any] = []

    def ended(self, end: Any, sent: Any, got: Any, number: Any = None, last: Any = None) -> None:
        self.end, self.sent, self.got, self.number, self.last = end, sent, got, number, last

    def may_commit(self) -> bool:
        return self.end in ("commit", "maybe")

    def alone(self, tables: Any) -> Tuple[Any, ...]:
        """Its updates if its replies, run serially, are those of the log; else the first move with another reply."""
        alone = Alone(tables)
        for move, reply, *_ in self.steps:
            told = alone.tell(move)
            wanted = ("tid", self.age) if move == "begin" else told
            if reply != wanted:
                return None, f"the reply to {move} was {reply}, serially it is {wanted}"
        return alone.updates, None

    def locks(self) -> Iterator[Any]:
        """The locks that it surely had, with their times."""
        for move, _, _, got in self.steps:
            if is_operation(move) and got < self.sent:
                yield lock_of(move), got, self.sent

    def asked(self) -> Iterator[Any]:
        """The locks that it requested, with the times in which it may have had them or waited for them."""
        until = self.got
        for move, _, sent, _ in self.steps + ([self.last] if self.last else []):
            if is_operation(move):
                yield lock_of(move), sent, until
        for move, sent in self.given_up:
            yield lock_of(move), sent, until


class OneShot:
    """A transaction in one request. If it writes, its last write has a value that no other has."""

    def __init__(self, parts: Any, tag: Any, sent: Any) -> None:
        self.parts, self.tag, self.sent, self.got, self.reply, self.age, self.number = parts, tag, sent, math.inf, None, None, None

    def may_commit(self) -> bool:
        return self.reply is None or self.reply[0] == "atomic"

    def alone(self, tables: Any) -> Tuple[Any, ...]:
        alone = Alone(tables)
        told = alone.one_shot(self.parts)
        if self.reply is not None and self.reply != told:
            return None, f"the reply to the one-shot {self.parts} was {self.reply}, serially it is {told}"
        return alone.updates, None

    def asked(self) -> Iterator[Any]:
        for part in flat(self.parts):
            if is_operation(part):
                yield lock_of(part), self.sent, self.got


class Log:
    """The log of a subscriber, by its name: the received terms with their times, and the begins and ends of its subscriptions with theirs,
    as they were granted. Whether it records the order of all commits, and whether it vanished."""

    def __init__(self, name: str, records: Any) -> None:
        self.name, self.records, self.vanished = name, records, False
        self.frames: List[Any] = []
        self.marks: List[Any] = []

    def fields(self) -> Dict[Any, Any]:
        return {name: getattr(self, name) for name in ("name", "records", "vanished", "frames", "marks")}


class Run:
    """The logs of all clients, and the number and the age of the last commit, which reads all and writes to all tables."""

    def __init__(self, attempts: List[Any], shots: Any, logs: Any, closing: Any, outbox: Tuple[int, float]) -> None:
        """At so many items, or at so many bytes, an outbox is full."""
        self.attempts, self.shots, self.logs, self.closing, self.outbox = attempts, shots, logs, closing, outbox

    def save(self, path: str) -> None:
        """A record: a line for each transaction and subscriber, as a Python literal, with the names LONG and inf."""
        rows = [("Run", {"closing": self.closing, "outbox": self.outbox})]
        rows += [(type(it).__name__, vars(it)) for it in [*self.attempts, *self.shots]] + [("Log", log.fields()) for log in self.logs]
        with open(path, "w", encoding="utf-8") as file:
            file.writelines(shown(repr(row)) + "\n" for row in rows)

    @staticmethod
    def load(path: str) -> Any:
        made: Dict[Any, List[Any]] = {Run: [], Attempt: [], OneShot: [], Log: []}
        with open(path, encoding="utf-8") as file:
            for kind, fields in map(value_of, file):
                it = object.__new__(globals()[kind])
                vars(it).update(fields)
                made[type(it)].append(it)
        [run] = made[Run]
        run.attempts, run.shots, run.logs = made[Attempt], made[OneShot], made[Log]
        return run


def shown(text: str) -> Any:
    return text.replace(repr(LONG), "LONG")


def value_of(line: str) -> Any:
    """The value of a record's line. As a literal infinity is a number that is too great."""
    return ast.literal_eval(re.sub(r"\binf\b", "1e999", line.replace("LONG", repr(LONG))))


def flat(parts: Any) -> Iterator[Any]:
    for part in parts:
        yield from flat(part[1]) if part[0] == "transaction" else [part]


def is_operation(move: Any) -> bool:
    return move not in ("begin", "commit") and move[0] != "abort"


def against_time(spans: Any) -> Any:
    """The first of these that was answered before an earlier one was asked for. Each is a name, and both times."""
    latest, whose = -math.inf, None
    for name, sent, got in spans:
        if got < latest:
            return f"{name} was over before {whose} was asked for"
        if sent > latest:
            latest, whose = sent, name
    return None


class Commit:
    """One that changed something: whose it is, its number or the least and the greatest that it can have, its events."""

    def __init__(self, who: Any, age: Any, told: Any) -> None:
        self.who, self.age, self.told = who, age, told
        self.least = self.most = who.number


class Times:
    """Which commits were surely made before a moment, and which may have been: their positions in the order."""

    def __init__(self, commits: Any) -> None:
        places = list(enumerate(commits, 1))
        over = sorted((one.who.got, place) for place, one in places)
        asked = sorted(((one.who.sent, place) for place, one in places), reverse=True)
        self.over, self.asked = [got for got, _ in over], [-sent for sent, _ in asked]
        self.greatest = list(itertools.accumulate((place for _, place in over), max, initial=0))
        self.least = list(itertools.accumulate((place for _, place in asked), min, initial=len(commits) + 1))

    def between(self, sent: Any, got: Any) -> Tuple[Any, ...]:
        """The positions whose tables a request of these times may have seen."""
        first = self.greatest[bisect.bisect_left(self.over, sent)]
        return first, self.least[bisect.bisect_left(self.asked, -got)] - 1


def stretches(frames: Any) -> Iterator[Any]:
    """Of each commit that a recorder received without a gap before it, the age of the one before, and its age and events. None is
    before the first; it watches both tables again from their second marker on."""
    age, marks = None, 0
    age_of: Callable[[Any], Any] = lambda term: term[0] == "mnesia_table_event" and term[1][-1][1]
    for kind, group in itertools.groupby((term for term, _ in frames), age_of):
        told = list(group)
        if kind:
            if marks >= len(EMPTY) and age != "gap":
                yield age, (kind, told)
            age = kind if marks >= len(EMPTY) else "gap"
            continue
        for term in told:
            if term[0] == "mnesia_overflow":
                age, marks = "gap", 0
            marks += term[0] == "mnesia_table_begin"


class Judge:
    """Of a run that ended with a commit, the last that changed something."""

    def __init__(self, run: Any) -> None:
        self.attempts, self.shots, self.watchers = run.attempts, run.shots, run.logs
        (self.closing, self.last), self.outbox = run.closing, run.outbox

    def faults(self) -> List[Any]:
        """All faults; those of the order first, on which the other checks depend."""
        try:
            self.commits = self.order(self.recorded())
            self.run()
            self.number()
        except Differs as differs:
            return [str(differs)]
        self.times = Times(self.commits)
        found = [self.in_time(), self.locks(), *self.readers(), *self.restarts()]
        for watcher in self.watchers:
            try:
                Follower(self, watcher).follow()
            except Differs as differs:
                found.append(f"{watcher.name}: {differs}")
        return [fault for fault in found if fault]

    def recorded(self) -> Any:
        """The events of all commits in their order, each commit's together: an age, and their terms. If one recorder missed some,
        another goes on."""
        after: Dict[Any, Any] = {}
        for watcher in self.watchers:
            for age, group in stretches(watcher.frames) if watcher.records else []:
                if after.setdefault(age, group) != group:
                    raise Differs(f"after age {age} one recorder received {group}, another {after[age]}")
        groups, age = [], None
        while age in after:
            groups.append(after.pop(age))
            age = groups[-1][0]
        if age != self.last:
            raise Undecided
        return groups

    def order(self, groups: Any) -> Any:
        """The commits in the order of their events."""
        by_age = {it.age: it for it in self.attempts if it.may_commit()}
        by_tag = {it.tag: it for it in self.shots if it.tag is not None and it.may_commit()}
        commits, seen = [], set()
        for age, told in groups:
            tags = [term[1][-3][3] for term in told if len(term[1][-3]) == 4]
            who = by_age.get(age) or next((by_tag[tag] for tag in tags if tag in by_tag), None)
            if who is None or id(who) in seen:
                raise Differs(f"events of age {age} are of no commit, or were sent twice: {told}")
            seen.add(id(who))
            commits.append(Commit(who, age, told))
        for who in [*by_age.values(), *by_tag.values()]:
            is_sure = who.end == "commit" if isinstance(who, Attempt) else who.reply is not None
            if is_sure and id(who) not in seen and self.writes(who):
                raise Differs(f"no events came of commit {who.number or who.parts}")
        return commits

    @staticmethod
    def writes(who: Any) -> bool:
        """Whether something of it survives, which is the same on all tables for those replies."""
        if isinstance(who, OneShot):
            return True
        depths: List[List[Any]] = [[]]
        for move, reply, *_ in who.steps:
            if move == "begin":
                depths.append([])
            elif move == "commit":
                done = depths.pop()
                depths[-1] += done
            elif reply[:1] == ("aborted",):
                depths.pop()
            elif move[0] in ("write", "delete", "delete_object"):
                depths[-1].append(move)
        return bool(depths[0])

    def run(self) -> None:
        """Runs each serially, on the tables after those before it."""
        self.worlds = [EMPTY]
        self.batches: List[List[Tuple[str, Dict[str, Any]]]] = [[]]
        for commit in self.commits:
            updates, fault = commit.who.alone(self.worlds[-1])
            if fault:
                raise Differs(f"commit {commit.who.number}, of age {commit.age}: {fault}")
            told, tables = events(self.worlds[-1], updates, commit.age)
            wanted = [terms["detailed"] for _, terms in told]
            if wanted != commit.told:
                raise Differs(f"commit {commit.who.number}, of age {commit.age}: its events are {commit.told}, wanted {wanted}")
            self.worlds.append(tables)
            self.batches.append(told)
        self.touched = {tab: [at for at, told in enumerate(self.batches) if any(it[0] == tab for it in told)] for tab in EMPTY}

    def number(self) -> None:
        """The commits' numbers: each once, and enough other ones for the commits whose replies have none."""
        known = [it.number for it in self.attempts if it.end == "commit"]
        if len(set(known)) != len(known) or max(known) != self.closing:
            raise Differs("numbers of commits come twice, or are over the last one's")
        free = sorted(set(range(1, self.closing + 1)) - set(known))
        untold = [it for it in self.shots if it.reply and it.reply[0] == "atomic"]
        perhaps = [it for it in self.shots if it.reply is None] + [it for it in self.attempts if it.end == "maybe"]
        if not len(untold) <= len(free) <= len(untold) + len(perhaps):
            raise Differs(f"{len(free)} numbers are no attempt's, and {len(untold)} to {len(untold) + len(perhaps)} others committed")
        # The known numbers of the commits that changed something, with their positions in the order.
        self.told = [(commit.who.number, place) for place, commit in enumerate(self.commits) if commit.who.number]
        if self.told != sorted(self.told):
            raise Differs("the commits' numbers are in another order than their events")
        self.share(free)

    def share(self, free: Any) -> None:
        """The unused numbers between two commits, for those between them whose replies have none."""
        before, pending = 0, []
        for commit in [*self.commits, None]:
            number = commit.who.number if commit else self.closing + 1
            if number is None:
                pending.append(commit)
                continue
            left = free[bisect.bisect(free, before) : bisect.bisect(free, number)]
            if len(left) < len(pending):
                raise Differs(f"{len(pending)} commits have their events between those of commits {before} and {number}")
            for at, one in enumerate(pending):
                one.least, one.most = left[at], left[len(left) - len(pending) + at]
            before, pending = number, []

    def in_time(self) -> Any:
        """Commits, numbers and ages go with the time."""
        ages = sorted((it.age, *it.began) for it in self.attempts if it.began[1] is not None)
        firsts = [next(group) for _, group in itertools.groupby(ages, operator.itemgetter(0))]
        numbers = sorted((it.number, it.sent, it.got) for it in self.attempts if it.end == "commit")
        commits = [(f"the commit of age {it.age}", it.who.sent, it.who.got) for it in self.commits]
        numbered = [(f"commit {number}", sent, got) for number, sent, got in numbers]
        begun = [(f"the begin of age {age}", sent, got) for age, sent, got in firsts]
        return against_time(commits) or against_time(numbered) or against_time(begun)

    def seen_at(self, who: Any) -> Any:
        """The positions in the order that the replies of a transaction that changed nothing may have."""
        if isinstance(who, OneShot):
            return self.times.between(who.sent, who.got)
        if who.number is None:
            return self.times.between(*who.steps[-1][2:])
        first, last = self.times.between(who.sent, who.got)
        before, near = self.near(who.number)
        under, over = sum(it.most < who.number for it in near), sum(it.least < who.number for it in near)
        return max(first, before + under), min(last, before + over)

    def near(self, number: int) -> Tuple[Any, ...]:
        """The commits whose replies have no number, between the last with a lesser number and the first with a greater one; and how many are
        before them."""
        at = bisect.bisect(self.told, (number, 0))
        before = self.told[at - 1][1] + 1 if at else 0
        return before, self.commits[before : self.told[at][1] if at < len(self.told) else len(self.commits)]

    def readers(self) -> Iterator[Any]:
        """Checks transactions that changed nothing: their replies are those of the tables at their time."""
        wrote = {id(commit.who) for commit in self.commits}
        told = [it for it in self.attempts if it.steps] + [it for it in self.shots if it.reply and it.reply != ("aborted", "nomore")]
        for who in told:
            if id(who) in wrote:
                continue
            first, last = self.seen_at(who)
            faults = [who.alone(tables)[1] for tables in self.worlds[first : last + 1]]
            if all(faults):
                what = f"age {who.age}, {who.end}" if isinstance(who, Attempt) else "a one-shot"
                yield f"{what}, at {first} to {last} of the order: {faults[-1] if faults else 'no such place'}"

    def locks(self) -> Any:
        """Finds two transactions that surely had conflicting locks at once."""
        spans = sorted(((start, end, it, lock) for it in self.attempts for lock, start, end in it.locks()), key=TIMES)
        held: List[Any] = []
        most = 0
        for start, end, owner, lock in spans:
            held = [one for one in held if one[1] > start]
            most = max(most, len({whose.age for _, _, whose, _ in held}))
            for _, _, whose, other in held:
                if whose.age != owner.age and conflict(lock, other):
                    return f"ages {owner.age} and {whose.age} both have {lock} and {other}"
            held.append((start, end, owner, lock))
        return None if most > 2 or len(self.commits) < FEW else "transactions are open one after another"

    def restarts(self) -> Iterator[Any]:
        """Checks that each restarted transaction met an older one that had a lock or waited for it."""
        asked = sorted(((sent, until, it, lock) for it in [*self.attempts, *self.shots] for lock, sent, until in it.asked()), key=TIMES)
        # A client that vanished may have requested it until the end.
        gone, asked = [it for it in asked if it[1] == math.inf], [it for it in asked if it[1] < math.inf]
        starts, ends = [it[0] for it in asked], list(itertools.accumulate((it[1] for it in asked), max))
        ages = {id(commit.who): commit.age for commit in self.commits}
        for who in (it for it in self.attempts if it.end == "restart"):
            move, _, sent, got = who.last
            lock, last = lock_of(move), bisect.bisect(starts, got)
            met = asked[bisect.bisect_left(ends, sent) : last] + [it for it in gone if it[0] <= got]
            others = [owner for _, until, owner, other in met if until >= sent and owner is not who and conflict(lock, other)]
            if not any((owner.age or ages.get(id(owner), 0)) < who.age for owner in others):
                yield f"age {who.age} was restarted at {move}, and met no older one"


class Follower:
    """Follows a subscriber's log, and the positions in the order of the commits that it may be at."""

    def __init__(self, judge: Any, watcher: Any) -> None:
        self.judge, self.watcher = judge, watcher
        self.level: Dict[str, str] = {}
        self.copies: Dict[str, Table] = {}
        self.at = [0]
        # Of each item when its first frame came, and its bytes.
        self.items: List[Tuple[float, int]] = []

    def next(self, place: Any) -> Any:
        """The next commit with an event for it."""
        nexts = [len(self.judge.batches)]
        for tab in self.level:
            touched = self.judge.touched[tab]
            nexts += touched[bisect.bisect(touched, place) :][:1]
        return min(nexts)

    def owed(self, place: Any) -> List[Any]:
        if place >= len(self.judge.batches):
            return []
        return [terms[self.level[tab]] for tab, terms in self.judge.batches[place] if tab in self.level]

    def follow(self) -> None:
        frames: List[Any] = self.watcher.frames
        marks: Iterator[Any] = iter(self.watcher.marks)
        place = 0
        while place < len(frames):
            term, got = frames[place]
            if term[0] == "mnesia_table_event":
                place += self.batch([it for it, _ in frames[place : place + 64]], got)
                continue
            if term[0] == "mnesia_overflow":
                self.overflow(term[1])
            else:
                self.mark(term, got, next(marks, None))
            place += 1
        if not self.watcher.vanished and (self.level or list(marks)):
            raise Differs(f"it never received the end of {list(self.level)}")

    def batch(self, frames: Any, got: Any) -> Any:
        """The events of one commit, which have to be together."""
        for place in {self.next(place) for place in self.at}:
            owed = self.owed(place)
            # A client that vanished may have received some of them.
            count = min(len(owed), len(frames)) if self.watcher.vanished else len(owed)
            if owed and frames[:count] == owed[:count]:
                self.at = [place]
                self.items.append((got, sum(map(memory, owed))))
                for term in owed:
                    mirror(self.copies, term[1])
                return count
        raise Differs(f"received {frames[0]}, and the next is of {[self.owed(self.next(place))[:1] for place in self.at[:2]]}")

    def mark(self, term: Any, got: Any, asked: Any) -> None:
        request, sent, answered = asked or (None, 0, 0)
        first, last = self.judge.times.between(sent, answered)
        limits = [(place, self.next(place)) for place in self.at]
        at = sorted({at for place, limit in limits for at in range(max(place, first), min(limit, last + 1))})
        self.items.append((got, 0))
        if term[0] == "mnesia_table_begin" and request and request[0] == "subscribe":
            at = self.begin(term, request, at)
        elif term[0] == "mnesia_table_end" and request and request[0] == "unsubscribe":
            at = self.end(term, request, at)
        else:
            at = []
        if not at:
            raise Differs(f"received {term}, asked {request}, at none of {first} to {last} of the order")
        self.at = at

    def begin(self, term: Any, request: Any, at: List[int]) -> Any:
        _, (_, tab, level), *dump = request
        if term[1:3] != (tab, level) or len(term) != 3 + len(dump):
            return []
        if dump:
            at = [place for place in at if whole(self.judge.worlds[place][tab]) == term[3]]
            self.copies.update({tab: self.judge.worlds[at[0]][tab]} if at else {})
        self.level[tab] = level
        return at

    def end(self, term: Any, request: Any, at: List[int]) -> Any:
        tab, level = request[1][1:]
        if term != ("mnesia_table_end", tab, "unsubscribed") or self.level.pop(tab, None) != level:
            return []
        copy = self.copies.pop(tab, None)
        if copy and all(copy != self.judge.worlds[place][tab] for place in at):
            raise Differs(f"its copy of {tab} is not the table")
        return at

    def overflow(self, number: int) -> None:
        """Its outbox was full when the commit came."""
        for place in {self.next(place) for place in self.at} - {len(self.judge.batches)}:
            commit = self.judge.commits[place - 1]
            if commit.least <= number <= commit.most:
                if self.full_since() < commit.who.sent:
                    raise Differs(f"overflow {number}, and its outbox had room")
                self.level, self.copies, self.at = {}, {}, [place]
                return
        raise Differs(f"overflow {number}, and the next commit for it is another")

    def full_since(self) -> float:
        """When it received the first of its last items that together make an outbox full."""
        count, most = self.judge.outbox
        held = list(itertools.accumulate((size for _, size in reversed(self.items)), initial=0))
        last = next((last for last, size in enumerate(held) if last == count or size >= most), None)
        return self.items[-last][0] if last else -math.inf
