# SPDX-License-Identifier: Apache-2.0
"""The client against the program: tables, transactions, one-shots and refusals, as docs/PROTOCOL.md has them."""

from __future__ import annotations

import os
import tempfile
import threading
import time
import unittest
from typing import Any, Callable, List, Type

from servers import Server, needs_program

import tabd


@needs_program
class Tables(unittest.TestCase):
    def setUp(self) -> None:
        self.server = Server()
        self.addCleanup(self.server.kill)
        self.client = tabd.Client(self.server.port)
        self.addCleanup(self.client.close)

    def refused(self, error: Type[tabd.Refused], reason: Any, call: Callable[..., Any], *args: Any, **named: Any) -> None:
        with self.assertRaises(error) as raised:
            call(*args, **named)
        self.assertIs(type(raised.exception), error)
        self.assertEqual(raised.exception.reason, reason)

    def test_tables(self) -> None:
        call = self.client.create_table("call", ["from", "to", "secs"], type="bag", index=["secs", 3])
        self.assertEqual([call.info(item) for item in ("type", "attributes", "index", "size")], ["bag", ["from", "to", "secs"], [3, 4], 0])
        call.del_index("to")
        self.assertEqual(call.info("index"), [4])
        call.add_index(3)
        self.assertEqual(call.info("index"), [3, 4])
        call.delete()
        self.refused(tabd.NoExists, ("no_exists", "call"), call.info, "size")

    def test_a_tables_own_operations(self) -> None:
        table = self.client.create_table("t")
        self.assertEqual((len(table), bool(table)), (0, True))
        self.assertIsNone(table.write(("t", 1, "a")))
        table.write(("t", 2, "b"))
        self.assertEqual((table.read(1), table.read(3), table.keys(), len(table)), ([("t", 1, "a")], [], [1, 2], 2))
        # In a transaction they are operations of it.
        with self.assertRaises(tabd.Aborted), self.client.transaction() as t:
            table.write(("t", 3, "c"))
            with t.transaction():
                table.delete(1)
                self.assertEqual(table.keys(), [2, 3])
            self.assertEqual(len(table), 2)
            t.abort("why")
        table.delete(2)
        self.assertEqual(table.keys(), [1])
        self.refused(tabd.BadType, ("bad_type", "t", ("u", 1, 1)), table.write, ("u", 1, 1))
        self.refused(tabd.BadType, ("bad_type", "t", [1, 1]), table.write, [1, 1])
        with self.assertRaises(tabd.BadTerm):
            table.delete(None)
        self.assertEqual(table.keys(), [1])
        # Without a key it is the table that is deleted.
        table.delete()
        self.refused(tabd.NoExists, ("no_exists", "t"), table.read, 1)
        self.client.create_table("t").drop()
        self.refused(tabd.NoExists, ("no_exists", "t"), table.info, "size")

    def test_what_a_transaction_shows(self) -> None:
        self.client.create_table("t")
        with self.client.transaction() as t:
            self.assertEqual(repr(t), "<tabd.Transaction of age None, level 1, open>")
            t.write(("t", 1, 1))
            self.assertEqual(repr(t), "<tabd.Transaction of age 1, level 1, open>")
        self.assertEqual(repr(t), "<tabd.Transaction of age 1, level 1, committed>")
        with self.client.events("t") as events:
            self.assertEqual(repr(events), "<tabd.Events of 't', open>")
        self.assertEqual(repr(events), "<tabd.Events of 't', closed>")
        self.assertEqual(repr(self.client), f"<tabd.Client of 127.0.0.1:{self.server.port}, 1 of 8 connections>")

    def test_operations_on_a_set(self) -> None:
        self.client.create_table("t", ["key", "val"], index=["val"])
        with self.client.transaction() as t:
            for key in (1, 2, 3):
                t.write(("t", key, "old"))
            self.assertIsNone(t.write(("t", 1, "new")))
            self.assertEqual(t.read("t", 1), [("t", 1, "new")])
            self.assertEqual(t.wread("t", 4), [])
            t.delete("t", 2)
            t.delete_object(("t", 3, "other"))
            self.assertEqual(t.index_read("t", "old", "val"), [("t", 3, "old")])
            self.assertEqual(t.match_object(("t", "_", "new")), [("t", 1, "new")])
            self.assertEqual(t.all_keys("t"), [1, 3])
            t.read_lock_table("t")
            t.write_lock_table("t")
        self.assertEqual(t.commit, 1)
        self.assertEqual(self.client.table("t").info("size"), 2)

    def test_operations_on_a_bag(self) -> None:
        self.client.create_table("b", type="bag")
        with self.client.transaction() as t:
            for value in ("x", "y", "z", "x"):
                t.write(("b", 1, value))
            t.delete_object(("b", 1, "y"))
            self.assertEqual(t.read("b", 1), [("b", 1, "x"), ("b", 1, "z")])

    def test_terms_come_back(self) -> None:
        self.client.create_table("t")
        values = ["atom", b"bytes", -(2**127), [1, 2, 3], [], ["a", [1]], (), ("x", 1), {"a": 1, (1,): b""}, tabd.Pairs((([1], 1),)), "é"]
        with self.client.transaction() as t:
            for value in values:
                t.write(("t", value, value))
                self.assertEqual(t.read("t", value), [("t", value, value)])
            self.assertEqual(len(t.all_keys("t")), len(values))

    def test_an_error_undoes(self) -> None:
        self.client.create_table("t")
        with self.assertRaises(KeyError):
            with self.client.transaction() as t:
                t.write(("t", 1, 1))
                raise KeyError()
        with self.assertRaises(tabd.Aborted) as raised:
            self.client.run(lambda t: (t.write(("t", 2, 2)), t.abort(("no", 1))))
        self.assertEqual(raised.exception.reason, ("no", 1))
        self.assertEqual(self.client.run(lambda t: t.all_keys("t")), [])

    def test_levels(self) -> None:
        self.client.create_table("t")
        with self.client.transaction() as t:
            t.write(("t", 1, "outer"))
            with t.transaction() as inner:
                inner.write(("t", 2, "inner"))
                with self.assertRaises(tabd.Error):
                    t.write(("t", 3, "the outer one, while a level is open"))
            with self.assertRaises(tabd.Aborted):
                with self.client.transaction() as inner:
                    self.assertEqual(inner.read("t", 2), [("t", 2, "inner")])
                    inner.write(("t", 1, "aborted"))
                    inner.abort("why")
            self.assertEqual((inner.level, inner.age), (2, t.age))
            self.assertEqual(t.read("t", 1), [("t", 1, "outer")])
        self.assertEqual(self.client.run(lambda t: t.all_keys("t")), [1, 2])
        with self.assertRaises(tabd.Ended):
            t.read("t", 1)

    def test_refusals(self) -> None:
        client, table = self.client, self.client.create_table("t")
        run: Callable[[str], Callable[..., Any]] = lambda name: lambda *args: client.run(lambda t: getattr(t, name)(*args))
        self.refused(tabd.AlreadyExists, ("already_exists", "t"), client.create_table, "t")
        self.refused(tabd.BadDef, ("bad_def", "u", ("type", "queue")), client.create_table, "u", type="queue")
        self.refused(tabd.BadDef, ("bad_def", "t", ("index", "key")), table.add_index, "key")
        self.refused(tabd.NoIndex, ("no_index", "t", "val"), table.del_index, "val")
        self.refused(tabd.NoExists, ("no_exists", "u"), run("read"), "u", 1)
        self.refused(tabd.BadType, ("bad_type", "t", ("t", 1)), run("write"), ("t", 1))
        self.refused(tabd.NoIndex, ("no_index", "t", "val"), run("index_read"), "t", 1, "val")
        self.refused(tabd.NoExists, ("no_exists", "u"), client.events, "u")
        self.refused(tabd.AlreadySubscribed, ("already_subscribed", "t"), client.events, "t", "t")
        self.refused(tabd.BadCommand, "badcommand", client.delete_table, b"no atom")
        with client.transaction() as t:
            t.read("t", 1)
            self.refused(tabd.InTransaction, "in_transaction", client.create_table, "u")
            self.refused(tabd.InTransaction, "in_transaction", client.one_shot().read("t", 1).run)
            self.assertEqual(table.info("size"), 0)
            other = tabd.Client(self.server.port)
            self.refused(tabd.Locked, ("locked", "t"), other.delete_table, "t")
            other.close()

    def test_limits(self) -> None:
        self.client.create_table("t")
        with self.client.transaction() as t:
            for _ in range(1000):
                t.write(("t", 1, 1))
            self.refused(tabd.SystemLimit, ("system_limit", "operations"), t.write, ("t", 2, 2))
        self.assertEqual(self.client.run(lambda t: t.all_keys("t")), [1])
        with self.client.transaction() as t:
            with self.assertRaises(tabd.BadTerm):
                t.write(("t", 1, b"x" * 1_048_576))
            t.write(("t", 1, b"x" * 1_000_000))

    def test_one_shots(self) -> None:
        self.client.create_table("t")
        child = tabd.OneShot().write(("t", 2, 2)).abort("why")
        shot = self.client.one_shot().write(("t", 1, 1)).wread("t", 1).child(child).child(tabd.OneShot().write(("t", 3, 3)))
        self.assertEqual(shot.all_keys("t").run(), ["ok", [("t", 1, 1)], ("aborted", "why"), ("atomic", ["ok"]), [1, 3]])
        with self.assertRaises(tabd.Aborted):
            self.client.one_shot().delete("t", 1).abort(("no_exists", "t")).run()
        self.refused(tabd.NoExists, ("no_exists", "u"), self.client.one_shot().delete("t", 1).read("u", 1).run)
        self.assertEqual(self.client.one_shot().read("t", 1).run(), [[("t", 1, 1)]])

    def test_a_one_shot_that_has_no_more_retries(self) -> None:
        self.client.create_table("t")
        with self.client.transaction() as t:
            t.write(("t", 1, 1))
            other = tabd.Client(self.server.port)
            with self.assertRaises(tabd.NoMore):
                other.one_shot().read("t", 1).run(retries=0)
            other.close()

    def test_a_hot_record(self) -> None:
        """Each raise counts once, with more threads than connections, which are as many as the server serves."""
        server = Server(connections=4)
        self.addCleanup(server.kill)
        client, calls = tabd.Client(server.port, connections=4), []
        client.create_table("t")
        client.run(lambda t: t.write(("t", 1, 0)))

        @client.transactional
        def bump(t: tabd.Transaction, by: int) -> int:
            calls.append(1)
            [(_, _, value)] = t.read("t", 1)
            t.write(("t", 1, value + by))
            return int(value) + by

        told: List[int] = []
        threads = [threading.Thread(target=lambda: told.extend(bump(by=1) for _ in range(15))) for _ in range(6)]
        for thread in threads:
            thread.start()
        for thread in threads:
            thread.join()
        self.assertEqual(sorted(told), list(range(1, 91)))
        self.assertGreater(len(calls), 90, "nothing was restarted, so nothing is shown")
        client.close()

    def test_a_reply_that_takes_too_long(self) -> None:
        self.client.create_table("t")
        patient = tabd.Client(self.server.port, timeout=0.3)
        inside, leave = threading.Event(), threading.Event()

        def younger() -> None:
            with self.client.transaction() as t:
                t.write(("t", 1, 1))
                inside.set()
                leave.wait(10)

        def older() -> None:
            with patient.transaction() as t:
                self.assertGreater(t.age, 0, "it is begun before the other")
                thread.start()
                inside.wait(10)
                t.read("t", 1)

        thread = threading.Thread(target=younger)
        began = time.monotonic()
        with self.assertRaises(tabd.TimedOut):
            older()
        self.assertLess(time.monotonic() - began, 5)
        # Another connection is used next, since the reply may still come on that one.
        self.assertEqual(patient.run(lambda t: t.read("t", 2)), [])
        leave.set()
        thread.join()
        patient.close()

    def test_a_lock_that_takes_too_long(self) -> None:
        server = Server("--abort-waits")
        self.addCleanup(server.kill)
        client, hasty = tabd.Client(server.port), tabd.Client(server.port, lock_timeout=0.3, connections=1)
        self.addCleanup(client.close)
        self.addCleanup(hasty.close)
        client.create_table("t")
        inside, leave = threading.Event(), threading.Event()

        def younger() -> None:
            with client.transaction() as t:
                t.write(("t", 1, 1))
                inside.set()
                leave.wait(10)

        thread = threading.Thread(target=younger)
        began = time.monotonic()
        with hasty.transaction() as t:
            self.assertGreater(t.age, 0, "it is begun before the other")
            thread.start()
            inside.wait(10)
            with self.assertRaises(tabd.LockTimeout):
                with t.transaction() as inner:
                    inner.write(("t", 2, 2))
                    inner.read("t", 1)
            t.write(("t", 3, 3))
        self.assertLess(time.monotonic() - began, 5)
        leave.set()
        thread.join()
        self.assertEqual(hasty.run(lambda t: [t.read("t", key) for key in (1, 2, 3)]), [[("t", 1, 1)], [], [("t", 3, 3)]])


@needs_program
class AtASocketFile(unittest.TestCase):
    def setUp(self) -> None:
        self.folder = tempfile.TemporaryDirectory()
        self.addCleanup(self.folder.cleanup)
        self.path = os.path.join(self.folder.name, "socket")

    def test_a_transaction_and_events(self) -> None:
        with Server(path=self.path), tabd.Client(self.path) as client:
            table = client.create_table("t")
            with client.transaction() as t:
                t.write(("t", 1, "a"))
            with table.events(dump=True) as events:
                self.assertEqual(next(events), tabd.Begin("t", [("t", 1, "a")]))

    def test_no_server(self) -> None:
        with self.assertRaisesRegex(tabd.NotConnected, self.path):
            tabd.Client(self.path).create_table("t")


if __name__ == "__main__":
    unittest.main()
