#!/usr/bin/env python3
# SPDX-License-Identifier: Apache-2.0
"""A load on `tabd serve`, with only Python's standard library.

    load.py PROGRAM              as load.py crates/tabd/out/tabd
    load.py PROGRAM COMMITS      that many of each of the sixteen writers, 400 by default

Writers commit random transactions, from a seed, and repeat them if they are restarted; every fourth is a one-shot. Now
and then a writer breaks its connection off, in the middle of a transaction or while it waits for a reply, and goes on with a
new one, until 64 connections were made. Mirrors subscribe with a dump and follow the events; all but the first stop reading
at times, so that their outboxes overflow, and subscribe again. In the end the copies are compared with the table, and the
server has to end by itself when all connections are closed. The last line has the server's memory after a tenth of
the commits and at the end; the status is 1 if something differs. It takes less than a minute.
"""

import random
import subprocess
import sys
import threading
import time

from connection import Connection
from served import Mirror

WRITERS, MIRRORS, CONNECTIONS = 16, 3, 64
KEYS = 200
COMMITS = int(sys.argv[2]) if len(sys.argv) > 2 else 400
# Writers stop by then.
SECONDS = 35 + COMMITS // 10


class Load:
    """The threads' shared counts: the commits so far, and how many new connections may still be made."""

    def __init__(self, port, process):
        self.port, self.process, self.lock = port, process, threading.Lock()
        self.left = CONNECTIONS - WRITERS - MIRRORS - 1
        self.until = time.monotonic() + SECONDS
        self.told, self.commits, self.failed, self.early = [], 0, [], None

    def anew(self):
        """Whether one connection more may be broken off."""
        with self.lock:
            is_left = self.left > 0
            self.left -= is_left
            return is_left

    def commit(self, number=None):
        """Keeps the number of a commit, which a one-shot's reply does not have, and the memory after the first tenth."""
        with self.lock:
            self.commits += 1
            if number:
                self.told.append(number)
            if self.commits == WRITERS * COMMITS // 10:
                self.early = self.memory()

    def memory(self):
        """The kilobytes that the server holds."""
        with open(f"/proc/{self.process.pid}/status") as lines:
            return next(int(line.split()[1]) for line in lines if line.startswith("VmRSS"))

    def run(self, what, *given):
        """Does this, and keeps why it failed."""
        try:
            what(self, *given)
        except Exception as error:
            self.failed.append(f"{what.__name__}{given}: {error!r}")


def write(load, seed):
    connection, chance = Connection(load.port), random.Random(seed)
    for turn in range(COMMITS):
        if time.monotonic() > load.until:
            break
        writes = [("write", ("t", chance.randrange(KEYS), chance.randbytes(40))) for _ in range(3)]
        if chance.random() < 0.01 and load.anew():
            break_off(connection, chance, writes)
            connection = Connection(load.port)
        if turn % 4 == 0:
            while connection.ask(("transaction", writes, 100))[0] != "atomic":
                pass
            load.commit()
            continue
        connection.ask("begin")
        while any(connection.ask(operation) == "restart" for operation in writes):
            pass
        load.commit(committed(connection))
    connection.close()


def committed(connection):
    """The number of the commit of the transaction that is open."""
    word, number = connection.ask("commit")
    if word != "atomic":
        raise ValueError(f"a commit was answered {word}")
    return number


def break_off(connection, chance, writes):
    """The reply to the last request is not read: it may be one that waits for a lock, or a commit."""
    connection.ask("begin")
    connection.ask(writes[0])
    connection.send(chance.choice([writes[1], "commit", ("transaction", writes, 5)]))
    connection.break_off()


def follow(load, number, mirrors):
    """Follows until the last record, which is written when all writers are done."""
    mirror = Mirror(load.port, small=number > 0)
    mirrors[number] = mirror
    chance = random.Random(number)
    while mirror.copy is None or "last" not in mirror.copy:
        mirror.follow(mirror.connection.event())
        if number and chance.random() < 0.002:
            time.sleep(0.3)


def table_of(connection):
    """The table, and the number of the last commit."""
    connection.ask("begin")
    connection.ask(("write", ("t", "last", "done")))
    committed(connection)
    connection.ask("begin")
    table = {key: connection.ask(("read", "t", key)) for key in [*range(KEYS), "last"]}
    return {key: found[0] for key, found in table.items() if found}, committed(connection)


def side_by_side(load, mirrors):
    """The writers and the mirrors; then the table."""
    first = Connection(load.port)
    first.ask(("create_table", "t", []))
    following = [threading.Thread(target=load.run, args=(follow, at, mirrors), daemon=True) for at in range(MIRRORS)]
    writing = [threading.Thread(target=load.run, args=(write, seed), daemon=True) for seed in range(WRITERS)]
    for thread in following + writing:
        thread.start()
    for thread in writing:
        thread.join()
    table, last = table_of(first)
    for thread in following:
        thread.join(5)
    late = load.memory()
    first.close()
    for mirror in filter(None, mirrors):
        mirror.connection.close()
    for _ in range(load.left):
        Connection(load.port).close()
    return table, last, late


def ends(server):
    """The status with which the server ends by itself, once every connection is closed; None if a session has not ended."""
    try:
        return server.wait(5)
    except subprocess.TimeoutExpired:
        return None
    finally:
        server.kill()


def main():
    if len(sys.argv) < 2:
        sys.exit(__doc__)
    words = ["serve", "--port", "0", "--connections", str(CONNECTIONS), "--outbox", "16", "--journal", "256"]
    server = subprocess.Popen(sys.argv[1:2] + words, stdout=subprocess.PIPE, text=True)
    load, mirrors = Load(int(server.stdout.readline().rsplit(":", 1)[1]), server), [None] * MIRRORS
    begun, spare = time.monotonic(), load.left
    table, last, late = side_by_side(load, mirrors)
    seconds, broken = time.monotonic() - begun, spare - load.left
    status = ends(server)
    wrong = load.failed + [f"mirror {at} differs" for at, mirror in enumerate(mirrors) if not mirror or mirror.copy != table]
    if len(set(load.told)) != len(load.told):
        wrong.append("two replies have the same commit number")
    # Of a connection that was broken off it is not known whether its last request was a commit.
    if not load.commits + 2 <= last <= load.commits + 2 + broken:
        wrong.append(f"{load.commits} commits had replies, and the last has the number {last}")
    if status != 0:
        wrong.append("a session has not ended" if status is None else f"the server ended with {status}")
    for line in wrong:
        print(line)
    print(f"{load.commits} commits in {seconds:.1f} s, {broken} connections broken off")
    for mirror in filter(None, mirrors):
        print(", ".join(f"{count} {what}" for what, count in mirror.told.items()))
    print(f"memory after a tenth {load.early} kB, at the end {late} kB")
    sys.exit(1 if wrong else 0)


if __name__ == "__main__":
    main()
