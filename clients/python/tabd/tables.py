# SPDX-License-Identifier: Apache-2.0
"""A table by its name."""

from __future__ import annotations

from typing import TYPE_CHECKING, Any, List, Union

from .errors import BadType
from .subscriptions import Events
from .terms import Record, Term
from .transactions import OneShot

if TYPE_CHECKING:
    from .client import Client

_TABLE = object()


class Table:
    """A table by its name. `len(table)` is how many records it has, as of the last commit.

    `read`, `write`, `delete` of a key and `keys` are operations of this thread's transaction if it is in one, else a one-shot each."""

    def __init__(self, client: Client, name: str) -> None:
        self.client, self.name = client, name

    def __repr__(self) -> str:
        return f"<tabd.Table {self.name!r} of {self.client._address}>"

    def __len__(self) -> int:
        size: int = self.info("size")
        return size

    def __bool__(self) -> bool:
        """True, also of a table without records: nothing is asked."""
        return True

    def read(self, key: Term) -> List[Record]:
        """The records of the key, in the order of their insertion."""
        records: List[Record] = self._do("read", self.name, key)
        return records

    def write(self, record: Record) -> None:
        """Writes a record, which begins with the table's name."""
        if not isinstance(record, tuple) or record[:1] != (self.name,):
            raise BadType(("bad_type", self.name, record))
        self._do("write", record)

    def delete(self, key: Any = _TABLE) -> None:
        """Deletes all records of the key. Without a key it deletes the table, as `drop` does."""
        if key is _TABLE:
            self.drop()
        else:
            self._do("delete", self.name, key)

    def keys(self) -> List[Any]:
        """The table's keys, each once."""
        keys: List[Any] = self._do("all_keys", self.name)
        return keys

    def _do(self, operation: str, *what: Any) -> Any:
        session = self.client._session()
        if session is not None:
            return getattr(session.innermost(), operation)(*what)
        shot: OneShot = getattr(self.client.one_shot(), operation)(*what)
        return shot.run()[0]

    def info(self, item: str) -> Any:
        """As `Client.table_info`."""
        return self.client.table_info(self.name, item)

    def drop(self) -> None:
        """Deletes the table, with its records."""
        self.client.delete_table(self.name)

    def add_index(self, attribute: Union[str, int]) -> None:
        """Gives an attribute an index, by its name or position."""
        self.client.add_table_index(self.name, attribute)

    def del_index(self, attribute: Union[str, int]) -> None:
        """Ends the index of an attribute."""
        self.client.del_table_index(self.name, attribute)

    def events(self, dump: bool = False, detailed: bool = False) -> Events:
        """The table's events; with `dump` its records come first, in `Begin`; with `detailed` each has the records before it."""
        return self.client.events(self.name, dump=dump, detailed=detailed)
