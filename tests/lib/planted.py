"""Models with a planted fault, which the properties and the streams have to find."""

from typing import List

from tests.lib.model import Table
from tests.lib.sessions import Book, Refused, Session
from tests.lib.wire import Term


class KeepsAChild(Book):
    """A child's changes stay if it is aborted."""

    def done(self, session: Session, move: Term) -> Term:
        if len(session.alone.saved) > 1 and move[0] == "abort":
            super().done(session, "commit")
            return ("aborted", move[1])
        return super().done(session, move)


class LosesAReadLock(Book):
    """A read is not kept from a write."""

    def operation(self, session: Session, move: Term) -> Term:
        reply = super().operation(session, move)
        if move[0] == "read" and session.locks:
            session.locks.pop()
        return reply


class RestartsForAYounger(Book):
    """A session that meets a younger one does not wait."""

    def waits(self, session: Session, opposed: List[int]) -> bool:
        return False


class GrantsARetry(Book):
    """A retry looks at no one."""

    def retry(self, session: Session, move: Term) -> Term:
        others, self.sessions = self.sessions, {0: session}
        reply = super().retry(session, move)
        self.sessions = others
        return reply


class NamesNoSession(Book):
    """What is no request is replied to under no session."""

    def answer(self, payload: bytes) -> Term:
        who, reply = super().answer(payload)
        return (0 if reply == ("error", "badcommand") else who, reply)


class IndexesTheKey(Book):
    """The key may have an index."""

    def altered(self, name: str, tab: str, given: Term) -> Table:
        try:
            return super().altered(name, tab, given)
        except Refused as refused:
            if refused.reply == ("aborted", ("bad_def", tab, ("index", 2))):
                return Table("set", ("key", "val"), frozenset([2]))
            raise


class NumbersAnOverflowLate(Book):
    """By the commit after the first one of which no event came."""

    def put(self, session: Session, item: Term, number: int) -> None:
        super().put(session, item, number + (item[0] == "batch"))


class KeepsADeletedTable(Book):
    """No marker says that a table is gone."""

    def put(self, session: Session, item: Term, number: int) -> None:
        if item[0] != "mnesia_table_end":
            super().put(session, item, number)


class CallsABagASet(Book):
    """A bag is reported as a set."""

    def info(self, session: Session, request: Term) -> Term:
        reply = super().info(session, request)
        return "set" if reply == "bag" else reply


# The number of steps after the begins that find the fault, at most: of sessions that meet, and of sessions that watch.
MEETING = {KeepsAChild: 4, LosesAReadLock: 2, RestartsForAYounger: 2, GrantsARetry: 3}
WATCHING = {NumbersAnOverflowLate: 4, KeepsADeletedTable: 2}
PLANTED = [NamesNoSession, *MEETING, IndexesTheKey, *WATCHING]
