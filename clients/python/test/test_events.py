# SPDX-License-Identifier: Apache-2.0
"""Events and mirrors against the program, which is also killed and started again."""

from __future__ import annotations

import random
import socket
import sys
import threading
import time
import unittest
from typing import Dict, List, Optional, Tuple
from unittest import mock

from servers import Server, needs_program

import tabd

SET, BAG = "person", "call"
SECONDS = 60.0
COUNT, VALUE = 200, b"v" * 4000


def narrow(address: Tuple[str, int], timeout: float) -> socket.socket:
    """A connection on which little stands between the server and who does not read."""
    opened = socket.socket()
    opened.settimeout(timeout)
    opened.setsockopt(socket.SOL_SOCKET, socket.SO_RCVBUF, 4096)
    opened.setsockopt(socket.IPPROTO_TCP, socket.TCP_MAXSEG, 536)
    opened.connect(address)
    return opened


def widen(opened: socket.socket) -> None:
    """Else each frame takes its time."""
    opened.setsockopt(socket.SOL_SOCKET, socket.SO_RCVBUF, 1 << 20)


def contents(client: tabd.Client, *names: str) -> Dict[str, List[tabd.Record]]:
    """The tables' records, in the order of their keys, all at one commit."""
    return client.run(lambda t: {name: [record for key in t.all_keys(name) for record in t.read(name, key)] for name in names})


def copies(mirror: tabd.Mirror) -> Dict[str, List[tabd.Record]]:
    return {name: mirror.records(name) for name in mirror.names}


def change(client: tabd.Client, chance: random.Random, keys: range) -> None:
    """A transaction of some changes of both tables; now and then it is aborted, or a level in it is."""

    def some(t: tabd.Transaction) -> None:
        for _ in range(chance.randrange(1, 5)):
            record = (chance.choice([SET, BAG]), chance.choice(keys), chance.randrange(4))
            kind = chance.randrange(5)
            if kind == 0:
                t.delete(record[0], record[1])
            elif kind == 1:
                t.delete_object(record)
            else:
                t.write(record)

    def whole(t: tabd.Transaction) -> None:
        some(t)
        if chance.randrange(4) == 0:
            try:
                with t.transaction() as inner:
                    some(inner)
                    inner.abort("a level")
            except tabd.Aborted:
                pass
        if chance.randrange(6) == 0:
            t.abort("all")

    try:
        client.run(whole)
    except tabd.Aborted:
        pass


@needs_program
class Served(unittest.TestCase):
    def setUp(self) -> None:
        self.serve("--outbox", "16")

    def serve(self, *words: str) -> None:
        self.server = Server(*words, connections=24)
        self.addCleanup(self.server.kill)
        self.client = tabd.Client(self.server.port)
        self.addCleanup(self.client.close)

    def flood(self) -> None:
        """More than an outbox of 4 and the buffers of a narrow connection hold."""
        for number in range(COUNT):
            self.client.run(lambda t: t.write((SET, number, VALUE)))


class EventsOfTables(Served):
    def test_simple(self) -> None:
        table = self.client.create_table("t")
        self.client.run(lambda t: t.write(("t", 0, 0)))
        with table.events(dump=True) as events:
            with self.client.transaction() as t:
                t.write(("t", 1, "a"))
                t.write(("t", 1, "b"))
                with self.assertRaises(tabd.Aborted):
                    with t.transaction() as inner:
                        inner.write(("t", 2, "undone"))
                        inner.abort("why")
                t.delete_object(("t", 1, "b"))
                t.delete("t", 5)
            changes = [tabd.Write(("t", 1, "a"), t.age), tabd.Write(("t", 1, "b"), t.age)]
            changes += [tabd.DeleteObject(("t", 1, "b"), t.age), tabd.Delete("t", 5, t.age)]  # type: ignore[list-item]
            found = [next(events) for _ in range(5)]
            self.assertEqual(found, [tabd.Begin("t", [("t", 0, 0)]), *changes])
            self.assertIsNone(events.next(0.1))
            table.delete()
            self.assertEqual(list(events), [tabd.End("t", "deleted")])

    def test_detailed(self) -> None:
        with self.client.create_table("b", type="bag").events(detailed=True) as events:
            with self.client.transaction() as t:
                for value in (1, 2):
                    t.write(("b", "k", value))
                t.delete_object(("b", "k", 1))
                t.delete("b", "k")
            one, two = ("b", "k", 1), ("b", "k", 2)
            self.assertEqual(next(events), tabd.Begin("b", None))
            self.assertEqual([next(events), next(events)], [tabd.Write(one, t.age, []), tabd.Write(two, t.age, [one])])
            self.assertEqual(next(events), tabd.DeleteObject(one, t.age, [one, two]))
            self.assertEqual(next(events), tabd.Delete("b", "k", t.age, [two]))

    def test_several_tables_are_told_in_one_order(self) -> None:
        for name in ("a", "b"):
            self.client.create_table(name)
        with self.client.events("a", "b") as events:
            for number in range(10):
                with self.client.transaction() as t:
                    for name in random.Random(number).sample(["a", "b"], 2):
                        t.write((name, number, number))
            found = [next(events) for _ in range(22)][2:]
            wanted = [(name, number) for number in range(10) for name in random.Random(number).sample(["a", "b"], 2)]
            self.assertEqual([event.record[:2] for event in found if isinstance(event, tabd.Write)], wanted)

    def test_the_end_of_the_server(self) -> None:
        events = self.client.create_table("t").events()
        self.assertEqual(next(events), tabd.Begin("t", None))
        self.server.kill()
        with self.assertRaises(tabd.Closed):
            next(events)

    def test_a_client_goes_on_with_the_next_server(self) -> None:
        """Connections that ended while no one used them are left out."""
        self.client.create_table("t")
        self.server.kill()
        self.server = Server(port=self.server.port)
        self.addCleanup(self.server.kill)
        self.client.create_table("t")
        self.assertEqual(self.client.run(lambda t: t.all_keys("t")), [])

    def test_an_overflow(self) -> None:
        self.serve("--outbox", "4")
        table = self.client.create_table(SET)
        with mock.patch("socket.create_connection", narrow):
            events = table.events(dump=True)
        with events:
            self.flood()
            self.client.run(lambda t: [t.delete(SET, number) for number in range(COUNT - 1)])
            widen(events._connection.socket)
            told = [next(events)]
            while not isinstance(told[-1], tabd.Overflow):
                told.append(next(events))
            written = [event.record[1] for event in told if isinstance(event, tabd.Write)]
            self.assertEqual(written, list(range(len(written))))
            self.assertLess(len(written), COUNT)
            self.assertEqual(next(events), tabd.Begin(SET, [(SET, COUNT - 1, VALUE)]))
            self.client.run(lambda t: t.delete(SET, COUNT - 1))
            self.assertIsInstance(next(events), tabd.Delete)


class Batches(Served):
    """Of a server that tells whole commits, with their numbers."""

    def setUp(self) -> None:
        self.serve("--batches", "--outbox", "1024")

    def test_events_have_their_commit(self) -> None:
        table = self.client.create_table("t")
        with table.events() as events:
            self.client.run(lambda t: [t.write(("t", key, key)) for key in (1, 2)])
            self.client.run(lambda t: t.delete("t", 1))
            table.delete()
            found = list(events)
        ages = [event.age for event in found if isinstance(event, (tabd.Write, tabd.Delete))]
        wanted = [tabd.Write(("t", 1, 1), ages[0]), tabd.Write(("t", 2, 2), ages[0]), tabd.Delete("t", 1, ages[2])]
        self.assertEqual(found, [tabd.Begin("t", None), *wanted, tabd.End("t", "deleted")])
        self.assertEqual([event.commit for event in found if isinstance(event, (tabd.Write, tabd.Delete))], [1, 1, 2])

    def test_a_mirror_shows_whole_commits(self) -> None:
        """Four move amounts between accounts of two tables; the sum never differs, and the numbers rise. Threads are switched often,
        so that who reads comes between the changes of a commit where a mirror lets it."""
        self.addCleanup(sys.setswitchinterval, sys.getswitchinterval())
        sys.setswitchinterval(1e-6)
        accounts = [(name, key) for name in ("a", "b") for key in range(20)]
        for name in ("a", "b"):
            self.client.create_table(name)
        self.client.run(lambda t: [t.write((name, key, 100)) for name, key in accounts])

        def move(chance: random.Random) -> None:
            chosen = chance.sample(accounts, 10)

            def change(t: tabd.Transaction) -> None:
                for amount, (name, key) in zip((-9, -7, -5, -3, -1, 1, 3, 5, 7, 9), chosen):
                    t.write((name, key, t.wread(name, key)[0][2] + amount))

            self.client.run(change)

        seen: List[Tuple[Optional[int], int]] = []

        def ended(mirror: tabd.Mirror) -> bool:
            seen.append((mirror.commit, sum(record[2] for records in copies(mirror).values() for record in records)))
            return mirror.commit == 41

        with tabd.Mirror(self.client, "a", "b") as mirror:
            self.assertTrue(mirror.wait(lambda one: one.live, SECONDS))
            self.assertIsNone(mirror.commit)
            chances = [random.Random(seed) for seed in range(4)]
            writers = [threading.Thread(target=lambda one: [move(one) for _ in range(10)], args=(chance,)) for chance in chances]
            for thread in writers:
                thread.start()
            self.assertTrue(mirror.wait(ended, SECONDS))
            for thread in writers:
                thread.join()
            numbers = [number for number, _ in seen if number is not None]
            self.assertEqual({total for _, total in seen}, {100 * len(accounts)})
            self.assertEqual(sorted(numbers), numbers)
            self.assertGreater(len(set(numbers)), 10)
            self.assertIsNone(mirror.fault)


class Mirrors(Served):
    def make_tables(self) -> None:
        self.client.create_table(SET)
        self.client.create_table(BAG, type="bag")

    def same(self, mirror: tabd.Mirror, client: Optional[tabd.Client] = None) -> None:
        wanted = contents(client or self.client, *mirror.names)
        mirror.wait(lambda one: one.live and copies(one) == wanted, SECONDS)
        self.assertEqual((mirror.fault, copies(mirror)), (None, wanted))

    def test_it_follows(self) -> None:
        self.make_tables()
        # So many keys that what is lost of one is not soon written over.
        chance = random.Random(1)
        for _ in range(20):
            change(self.client, chance, range(60))
        with tabd.Mirror(self.client, SET, BAG) as mirror:
            self.assertTrue(mirror.wait(lambda one: one.live, SECONDS))
            self.same(mirror)
            for _ in range(300):
                change(self.client, chance, range(60))
            self.same(mirror)
            self.assertEqual(mirror.all_keys(SET), self.client.run(lambda t: t.all_keys(SET)))
            self.assertEqual(mirror.read(BAG, 3), self.client.run(lambda t: t.read(BAG, 3)))
            self.assertEqual(mirror.connections, 1)

    def test_a_table_that_comes_and_goes(self) -> None:
        self.client.create_table(BAG)
        with tabd.Mirror(self.client, SET, BAG, pause=0.05) as mirror:
            self.assertFalse(mirror.wait(lambda one: one.live, 0.2))
            self.client.create_table(SET)
            self.client.run(lambda t: t.write((SET, 1, 1)))
            self.same(mirror)
            self.client.delete_table(SET)
            self.assertTrue(mirror.wait(lambda one: not one.live and not one.records(SET), SECONDS))
            # It was a set, and is a bag.
            self.client.create_table(SET, type="bag")
            self.client.run(lambda t: [t.write((SET, 1, value)) for value in (1, 2)])
            self.same(mirror)
            self.assertEqual(mirror.connections, 1)

    def test_it_survives_an_overflow(self) -> None:
        self.serve("--outbox", "4")
        self.make_tables()
        with mock.patch("socket.create_connection", narrow):
            mirror = tabd.Mirror(self.client, SET, BAG)
            self.assertTrue(mirror.wait(lambda one: one.live, SECONDS))
        with mirror:
            # Who waits holds the mirror still while its condition is asked.
            flooding = threading.Thread(target=self.flood)
            flooding.start()
            mirror.wait(lambda one: flooding.join() or True, SECONDS)
            assert mirror._follower.connection is not None
            widen(mirror._follower.connection.socket)
            self.client.run(lambda t: [t.delete(SET, number) for number in range(1, COUNT)])
            self.client.run(lambda t: t.write((BAG, 1, 1)))
            self.same(mirror)
            self.assertGreaterEqual(mirror.overflows, 1)
            self.assertEqual(mirror.connections, 1)

    def test_it_connects_again(self) -> None:
        self.make_tables()
        with tabd.Mirror(self.client, SET, pause=0.05) as mirror:
            self.assertTrue(mirror.wait(lambda one: one.live, SECONDS))
            assert mirror._follower.connection is not None
            mirror._follower.connection.close()
            self.client.run(lambda t: t.write((SET, 1, 1)))
            self.same(mirror)
            self.assertEqual(mirror.connections, 2)

    def test_writers_and_a_mirror_while_the_server_is_killed(self) -> None:
        """Four write while the server is killed and started anew, three times. Its tables are lost each time: each writer makes them
        again, and the mirror comes to have those of the last server alone. Keys are of the time that they were written in, so that what
        is left of an earlier one shows."""

        def start(port: int = 0) -> Server:
            server = Server("--outbox", "4", connections=40, port=port)
            self.addCleanup(server.kill)
            return server

        server = start()
        client = tabd.Client(server.port)
        mirror = tabd.Mirror(client, SET, BAG, pause=0.05)
        self.addCleanup(mirror.close)
        stop, time_of = threading.Event(), [0]

        def ensure() -> None:
            for name, kind in ((SET, "set"), (BAG, "bag")):
                try:
                    client.create_table(name, type=kind)
                except (tabd.AlreadyExists, tabd.Locked):
                    pass

        def write(seed: int) -> None:
            chance = random.Random(seed)
            while not stop.is_set():
                try:
                    change(client, chance, range(100 * time_of[0], 100 * time_of[0] + 6))
                except tabd.NoExists:
                    ensure()
                except tabd.Closed:
                    time.sleep(0.02)

        self.addCleanup(stop.set)
        writers = [threading.Thread(target=write, args=(seed,), daemon=True) for seed in range(4)]
        for thread in writers:
            thread.start()
        for _ in range(3):
            self.assertTrue(mirror.wait(lambda one: one.live and one.records(SET) and one.records(BAG), SECONDS))
            time.sleep(0.3)
            server.kill()
            self.assertTrue(mirror.wait(lambda one: not one.live, SECONDS))
            time_of[0] += 1
            server = start(server.port)
        self.assertTrue(mirror.wait(lambda one: one.live and one.records(SET) and one.records(BAG), SECONDS))
        time.sleep(0.3)
        stop.set()
        for thread in writers:
            thread.join(SECONDS)
            self.assertFalse(thread.is_alive())
        self.same(mirror, client)
        self.assertEqual({record[1] // 100 for record in mirror.records(SET)} - {2, 3}, set())
        self.assertGreaterEqual(mirror.connections, 4)
        client.close()


if __name__ == "__main__":
    unittest.main()
