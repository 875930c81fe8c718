# SPDX-License-Identifier: Apache-2.0
"""What is asked of tables, by name: the same for transactions and one-shots of both clients."""

from __future__ import annotations

from typing import Any, Generic, List, TypeVar, Union

from .errors import Aborted, NoMore, refusal
from .terms import Record, Term
from .wire import result

# The results of operations: records, keys, and nothing for a change.
Records = TypeVar("Records")
Keys = TypeVar("Keys")
Done = TypeVar("Done")


class Operations(Generic[Records, Keys, Done]):
    """What is asked of tables, in a transaction (`Transaction`) or a one-shot (`OneShot`)."""

    def _operate(self, operation: Term) -> Any:
        raise NotImplementedError

    def read(self, table: str, key: Term) -> Records:
        """The records of the key, in the order of their insertion."""
        records: Records = self._operate(("read", table, key))
        return records

    def wread(self, table: str, key: Term) -> Records:
        """As `read`, with a write lock: for a record that is written next."""
        records: Records = self._operate(("wread", (table, key)))
        return records

    def write(self, record: Record) -> Done:
        """Writes a record: in a set it replaces the one with its key, in a bag it comes after the others of its key."""
        done: Done = self._operate(("write", record))
        return done

    def delete(self, table: str, key: Term) -> Done:
        """Deletes all records of the key."""
        done: Done = self._operate(("delete", (table, key)))
        return done

    def delete_object(self, record: Record) -> Done:
        """Deletes the record if the table has it."""
        done: Done = self._operate(("delete_object", record))
        return done

    def index_read(self, table: str, value: Term, attribute: Union[str, int]) -> Records:
        """The records whose attribute has the value; it needs an index."""
        records: Records = self._operate(("index_read", table, value, attribute))
        return records

    def match_object(self, pattern: Record) -> Records:
        """The records that are equal to the pattern but for "_" in it, which fits every term."""
        records: Records = self._operate(("match_object", pattern))
        return records

    def all_keys(self, table: str) -> Keys:
        """The table's keys, each once."""
        keys: Keys = self._operate(("all_keys", table))
        return keys

    def read_lock_table(self, table: str) -> Done:
        """No other transaction writes in the table before this one ends."""
        done: Done = self._operate(("read_lock_table", table))
        return done

    def write_lock_table(self, table: str) -> Done:
        """No other transaction reads or writes in the table before this one ends."""
        done: Done = self._operate(("write_lock_table", table))
        return done


Shot = TypeVar("Shot")


class Gathered(Operations[Shot, Shot, Shot]):
    """Operations that are kept, to be sent in one request."""

    def __init__(self) -> None:
        self._operations: List[Term] = []

    def _operate(self, operation: Term) -> Any:
        self._operations.append(operation)
        return self

    def child(self, operations: Gathered[Any]) -> Shot:
        """A level. Its answer is ("atomic", answers), or ("aborted", reason) if it aborted; the other operations go on then."""
        shot: Shot = self._operate(("transaction", list(operations._operations)))
        return shot

    def abort(self, reason: Term) -> Shot:
        """Ends its level with nothing of it."""
        shot: Shot = self._operate(("abort", reason))
        return shot

    def _request(self, retries: int) -> Term:
        return ("transaction", list(self._operations), retries)

    def _answers(self, reply: Any) -> List[Any]:
        if reply[0] == "aborted":
            raise self._ended(reply[1])
        answers: List[Any] = result(reply)[1]
        return answers

    def _ended(self, reason: Any) -> Exception:
        """What a reply ("aborted", reason) raises."""
        if ("abort", reason) in self._operations:
            return Aborted(reason)
        return NoMore(reason) if reason == "nomore" else refusal(reason)

    def __repr__(self) -> str:
        return f"<tabd.{type(self).__name__} of {len(self._operations)} operations>"
