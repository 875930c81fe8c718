# SPDX-License-Identifier: Apache-2.0
"""Clients, transactions, events and mirrors that a process has when it is forked."""

from __future__ import annotations

import os
import signal
import sys
import subprocess
import threading
import time
import unittest
from typing import Any, Callable, List, Tuple

from servers import Server, needs_program

import tabd

CHILDREN = 8
ONE_SHOTS = int(os.environ.get("TABD_FORK_ONE_SHOTS", "30"))
SECONDS = 60


def forked(do: Callable[[], Any]) -> Tuple[int, int]:
    """A child that calls `do`, and a descriptor from which its result, or the name of its error, can be read."""
    reading, writing = os.pipe()
    sys.stdout.flush()
    child = os.fork()
    if child:
        os.close(writing)
        return child, reading
    try:
        # It also ends if it waits for a reply that its parent reads.
        signal.alarm(SECONDS)
        os.close(reading)
        try:
            told = repr(do())
        except BaseException as error:
            told = f"{type(error).__name__}: {error}"
        os.write(writing, told.encode()[:4000])
    finally:
        os._exit(0)


def told_by(child: Tuple[int, int]) -> str:
    with open(child[1]) as file:
        told = file.read()
    os.waitpid(child[0], 0)
    return told


def in_a_child(do: Callable[[], Any]) -> str:
    return told_by(forked(do))


def error_of(do: Callable[[], Any]) -> str:
    try:
        return repr(do())
    except Exception as error:
        return type(error).__name__


@needs_program
class Forks(unittest.TestCase):
    def setUp(self) -> None:
        self.server = Server(connections=64)
        self.addCleanup(self.server.kill)
        # One connection, which a child would share.
        self.client = tabd.Client(self.server.port, connections=1)
        self.addCleanup(self.client.close)
        self.table = self.client.create_table("t")

    def use(self, number: int, times: int = ONE_SHOTS) -> str:
        """What differs of the replies to one-shots, each of which only this process asks."""
        for count in range(times):
            key = (number, count)
            told = self.client.one_shot().write(("t", key, number)).read("t", key).run()
            if told != ["ok", [("t", key, number)]]:
                return f"{told} of {key}"
        return "all its own"

    def test_each_process_has_its_own_replies(self) -> None:
        children = [forked(lambda number=number: self.use(number)) for number in range(1, CHILDREN)]  # type: ignore[misc]
        told = [repr(self.use(0)), *map(told_by, children)]
        self.assertEqual(told, ["'all its own'"] * CHILDREN)
        self.assertEqual(len(self.table), CHILDREN * ONE_SHOTS)

    def test_a_child_of_a_child(self) -> None:
        def child() -> List[str]:
            return [self.use(1, 5), in_a_child(lambda: self.use(2, 5)), self.use(3, 5)]

        self.assertEqual(in_a_child(child), repr(["all its own", "'all its own'", "all its own"]))
        self.assertEqual(self.use(4, 5), "all its own")

    def test_a_transaction_is_the_parents(self) -> None:
        with self.client.transaction() as t:
            t.write(("t", 1, "parent"))

            def child() -> List[str]:
                return [error_of(lambda: t.read("t", 1)), error_of(lambda: t.transaction().__enter__()), error_of(lambda: t.abort("why"))]

            self.assertEqual(in_a_child(child), repr(["WrongProcess"] * 3))
            t.write(("t", 2, "parent"))
        self.assertEqual(self.table.keys(), [1, 2])

    def test_a_child_that_leaves_the_parents_block(self) -> None:
        """It neither commits nor aborts; its own transactions are others."""
        for leave in (lambda: None, lambda: sys.exit(1), lambda: {}[1]):
            with self.client.transaction() as t:
                t.write(("t", 1, "parent"))
                reading, writing = os.pipe()
                child = os.fork()
                if child == 0:
                    signal.alarm(SECONDS)
                    try:
                        # As a child does that goes on after the block.
                        try:
                            self.client._here.block, block = (lambda: None), self.client.transaction()
                            block._transaction = t
                            try:
                                leave()
                            except BaseException as error:
                                block.__exit__(type(error), error, None)
                            else:
                                block.__exit__(None, None, None)
                        except tabd.WrongProcess:
                            pass
                        self.client.close()
                        calls: List[Callable[[], Any]] = [lambda: t.read("t", 1), t.transaction, lambda: t.abort("why")]  # noqa: B023
                        os.write(writing, " ".join(map(error_of, calls)).encode())
                    finally:
                        os._exit(0)
                os.close(writing)
                self.assertEqual(told_by((child, reading)), "Ended Ended Ended")
                t.write(("t", 2, "parent"))
            self.assertEqual(self.table.keys(), [1, 2])
            self.client.run(lambda t: [t.delete("t", key) for key in (1, 2)])

    def test_a_client_in_the_parents_block(self) -> None:
        with self.client.transaction() as t:
            t.write(("t", 1, 1))
            # It has a transaction of its own, that waits for none.
            self.assertEqual(in_a_child(lambda: self.client.run(lambda own: own.write(("t", 2, 2)))), "None")
            t.write(("t", 3, 3))
        self.assertEqual(self.table.keys(), [1, 2, 3])

    def test_a_child_closes_only_its_descriptors(self) -> None:
        other = tabd.Client(self.server.port, connections=1)
        self.addCleanup(other.close)
        events = self.table.events()
        self.addCleanup(events.close)
        other.run(lambda t: None)
        connection = other._pool.take()
        other._pool.give(connection)
        told = in_a_child(lambda: (events.close(), other.close(), self.client.close()) and "closed")
        self.assertEqual(told, "'closed'")
        # Each of the parent's goes on, on the same connection.
        other.run(lambda t: t.write(("t", 1, 1)))
        self.assertIs(other._pool.take(), connection)
        self.assertEqual([next(events), next(events)][1].record, ("t", 1, 1))  # type: ignore[union-attr]

    def test_events_are_the_parents(self) -> None:
        events = self.table.events()
        self.addCleanup(events.close)
        self.assertEqual(next(events), tabd.Begin("t", None))
        self.assertEqual(in_a_child(lambda: [error_of(lambda: next(events)), error_of(lambda: events.next(0.1))]), repr(["WrongProcess"] * 2))
        self.client.run(lambda t: t.write(("t", 1, 1)))
        self.assertIsInstance(next(events), tabd.Write)

    def test_a_mirror_is_the_parents(self) -> None:
        mirror = tabd.Mirror(self.client, "t")
        self.addCleanup(mirror.close)
        self.assertTrue(mirror.wait(lambda one: one.live, SECONDS))

        def child() -> List[str]:
            calls: List[Callable[[], Any]] = [
                lambda: mirror.read("t", 1),
                lambda: mirror.records("t"),
                lambda: mirror.all_keys("t"),
                lambda: mirror.wait(lambda one: True, 1),
            ]
            found = [error_of(call) for call in calls]
            mirror.close()
            return found

        self.assertEqual(in_a_child(child), repr(["WrongProcess"] * 4))
        self.client.run(lambda t: t.write(("t", 1, 1)))
        self.assertTrue(mirror.wait(lambda one: one.read("t", 1), SECONDS))
        self.assertEqual(mirror.connections, 1)

    def test_a_child_while_threads_use_the_client(self) -> None:
        """A lock that another thread has at that moment is locked in the child for good."""
        stop = threading.Event()

        def work() -> None:
            while not stop.is_set():
                self.table.keys()

        threads = [threading.Thread(target=work, daemon=True) for _ in range(3)]
        for thread in threads:
            thread.start()
        try:
            for _ in range(10):
                self.assertEqual(in_a_child(lambda: self.table.keys()), "[]")
        finally:
            stop.set()
            for thread in threads:
                thread.join(SECONDS)

    def test_the_parents_end_is_seen_while_a_child_lives(self) -> None:
        """Its locks are free then: no descriptor of the child keeps its session open."""
        code = (
            "import os, sys, time; sys.path.insert(0, sys.argv[1]); import tabd\n"
            "client = tabd.Client(int(sys.argv[2]))\n"
            "with client.transaction() as t:\n"
            "    t.write(('t', 1, 1))\n"
            "    child = os.fork()\n"
            "    if child == 0:\n"
            "        time.sleep(60); os._exit(0)\n"
            "    print(child, flush=True); time.sleep(60)\n"
        )
        where = os.path.join(os.path.dirname(os.path.abspath(__file__)), "..")
        words = [sys.executable, "-c", code, where, str(self.server.port)]
        with subprocess.Popen(words, stdout=subprocess.PIPE, text=True) as parent:
            assert parent.stdout is not None
            child = int(parent.stdout.readline())
            parent.kill()
        try:
            client = tabd.Client(self.server.port, timeout=20.0)
            self.addCleanup(client.close)
            began = time.monotonic()
            client.run(lambda t: t.write(("t", 1, 2)))
            self.assertLess(time.monotonic() - began, 20)
        finally:
            os.kill(child, signal.SIGKILL)


if __name__ == "__main__":
    unittest.main()
