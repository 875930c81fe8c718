#!/usr/bin/env python3
# SPDX-License-Identifier: Apache-2.0
"""Several writers and a mirror of `tabd serve`, each on a connection of its own, with only Python's standard library.

    served.py PROGRAM            as served.py crates/tabd/out/tabd

Each writer commits random transactions, from a seed, and repeats them if they are restarted; every fourth is a
one-shot. The mirror subscribes with a dump and follows the events; if it is too slow its outbox overflows, and it
subscribes again. In the end its copy is compared with the table, and the number of commits with the writers' replies.
The last line has the numbers of commits and events; the status is 1 if something differs.
"""

import random
import subprocess
import sys
import threading

from connection import Connection

WRITERS, COMMITS, KEYS = 4, 200, 20


def write(port, seed, told):
    """Commits so many transactions. What a reply says of each commit is kept."""
    connection, chance = Connection(port), random.Random(seed)
    for turn in range(COMMITS):
        writes = [("write", ("t", chance.randrange(KEYS), chance.randrange(1000))) for _ in range(2)]
        if turn % 4 == 0:
            while connection.ask(("transaction", writes, 100))[0] != "atomic":
                pass
            continue
        connection.ask("begin")
        while any(connection.ask(operation) == "restart" for operation in writes):
            pass
        told.append(connection.ask("commit")[1])
    connection.close()


class Mirror:
    """A copy of the table, by key."""

    def __init__(self, port, small=False):
        self.connection, self.copy, self.told = Connection(port, small), None, {"dumps": 0, "events": 0, "overflows": 0}
        self.subscribe()

    def subscribe(self):
        self.connection.ask(("subscribe", ("table", "t", "simple"), "dump"))

    def follow(self, event):
        if event[0] == "mnesia_table_begin":
            self.copy = {record[1]: record for record in event[3]}
            self.told["dumps"] += 1
        elif event[0] == "mnesia_overflow":
            self.told["overflows"] += 1
            self.subscribe()
        else:
            record = event[1][1]
            self.copy[record[1]] = record
            self.told["events"] += 1

    def catch_up(self):
        """Follows until the event of a last write of its own, which no other writes."""
        self.connection.ask("begin")
        self.connection.ask(("write", ("t", "last", "mirror")))
        self.connection.ask("commit")
        while self.copy is None or "last" not in self.copy:
            self.follow(self.connection.event())
        del self.copy["last"]


def main():
    if len(sys.argv) < 2:
        sys.exit(__doc__)
    words = [*sys.argv[1:], "serve", "--port", "0", "--connections", str(WRITERS + 2), "--outbox", "16"]
    server = subprocess.Popen(words, stdout=subprocess.PIPE, text=True)
    port = int(server.stdout.readline().rsplit(":", 1)[1])
    first = Connection(port)
    first.ask(("create_table", "t", []))
    mirror, told = Mirror(port), []
    writers = [threading.Thread(target=write, args=(port, seed, told)) for seed in range(WRITERS)]
    for thread in writers:
        thread.start()
    for thread in writers:
        thread.join()
    mirror.catch_up()
    first.ask("begin")
    table = {key: first.ask(("read", "t", key)) for key in range(KEYS)}
    last = first.ask("commit")[1]
    rows = {key: found[0] for key, found in table.items() if found}
    differs = rows != mirror.copy or len(set(told)) != len(told) or last != WRITERS * COMMITS + 2
    if differs:
        print(f"the table is {rows}, the copy {mirror.copy}; the last commit is {last}, {len(set(told))} of {len(told)} are different")
    first.close()
    mirror.connection.close()
    status = server.wait()
    print(", ".join(f"{count} {what}" for what, count in mirror.told.items()))
    sys.exit(1 if differs or status else 0)


if __name__ == "__main__":
    main()
