#!/usr/bin/env python3
# SPDX-License-Identifier: Apache-2.0
"""Mirrors two tables of `tabd replay` by their dumps and events, with only Python's standard library.

    mirror.py PROGRAM [OPTION ..]      as mirror.py crates/tabd/out/tabd

Session 1 commits random transactions, from a seed; session 2 watches a set and a bag, and takes its items now and then.
A begin marker has the table's records, and each batch the events of one commit. If session 2 takes too seldom, its outbox
overflows: it gets the overflow after the items before it, its copy is out of date, and it subscribes again. In the end the copies are
compared with the tables, which session 1 reads. The last line has the numbers of items; the status is 1 if a copy differs.
"""

import random
import subprocess
import sys

from frames import frame, read, take

import io

TABLES = {"person": [], "call": [("type", "bag")]}
COMMITS = 400


class Server:
    """A replay that is asked one request at a time."""

    def __init__(self, words):
        self.process = subprocess.Popen(words, stdin=subprocess.PIPE, stdout=subprocess.PIPE)

    def ask(self, session, what):
        self.process.stdin.write(frame((session, what)))
        self.process.stdin.flush()
        length = int.from_bytes(take(self.process.stdout, 4), "big")
        payload = io.BytesIO(take(self.process.stdout, length))
        take(payload, 1)
        return read(payload)[1]

    def end(self):
        self.process.stdin.close()
        return self.process.wait()


class Mirror:
    """The copies of the tables that are watched, by table and key."""

    def __init__(self):
        self.copies = {}
        self.told = {"dumps": 0, "batches": 0, "events": 0, "overflows": 0}

    def begin(self, table, records):
        self.copies[table] = {}
        for record in records:
            self.copies[table].setdefault(record[1], []).append(record)
        self.told["dumps"] += 1

    def change(self, event):
        kind, what = event[:2]
        copy = self.copies[what[0]]
        records = copy.setdefault(what[1], [])
        if kind == "delete":
            records.clear()
        elif kind == "delete_object":
            records[:] = [record for record in records if record != what]
        elif not TABLES[what[0]]:
            records[:] = [what]
        elif what not in records:
            records.append(what)
        if not records:
            del copy[what[1]]
        self.told["events"] += 1

    def follow(self, item):
        """Whether an item was taken."""
        if item == "empty":
            return False
        if item[0] == "mnesia_table_begin":
            self.begin(item[1], item[3])
        elif item[0] == "mnesia_overflow":
            self.copies.clear()
            self.told["overflows"] += 1
        else:
            for _, event in item[2]:
                self.change(event)
            self.told["batches"] += 1
        return True


def subscribe(server, mirror):
    """Watches each table that is not watched, from its records on."""
    for table in TABLES:
        if table not in mirror.copies:
            server.ask(2, ("subscribe", ("table", table, "simple"), "dump"))
    while mirror.follow(server.ask(2, "take")):
        pass


def commit(server, chance):
    server.ask(1, "begin")
    for _ in range(chance.randrange(1, 5)):
        table, key = chance.choice(list(TABLES)), chance.randrange(20)
        record = (table, key, chance.randrange(4))
        server.ask(1, chance.choice([("write", record), ("write", record), ("delete", (table, key)), ("delete_object", record)]))
    server.ask(1, chance.choice(["commit", "commit", "commit", ("abort", "changed_my_mind")]))


def contents(server, table):
    server.ask(1, "begin")
    records = {key: server.ask(1, ("read", table, key)) for key in range(20)}
    server.ask(1, "commit")
    return {key: found for key, found in records.items() if found}


def main():
    if len(sys.argv) < 2:
        sys.exit(__doc__)
    server, mirror, chance = Server([*sys.argv[1:], "replay", "--outbox", "4"]), Mirror(), random.Random(1)
    for session in (1, 2):
        server.ask(session, "join")
    for table, options in TABLES.items():
        server.ask(1, ("create_table", table, options))
    for _ in range(COMMITS):
        subscribe(server, mirror)
        for _ in range(chance.choice([1, 1, 2, 7])):
            commit(server, chance)
    while not mirror.copies.keys() == TABLES.keys() or mirror.follow(server.ask(2, "take")):
        subscribe(server, mirror)
    differs = [table for table in TABLES if contents(server, table) != mirror.copies[table]]
    for table in differs:
        print(f"{table}: {contents(server, table)}, but its copy is {mirror.copies[table]}")
    status = server.end()
    print(", ".join(f"{count} {what}" for what, count in mirror.told.items()))
    sys.exit(1 if differs or status else 0)


if __name__ == "__main__":
    main()
