# SPDX-License-Identifier: Apache-2.0
"""What ends a mirror: an error, `close`, and the end of the last reference to it."""

from __future__ import annotations

import gc
import threading
import time
import unittest
import weakref
from typing import Any, Callable, List
from unittest import mock

from servers import Server, needs_program

import tabd

SECONDS = 30.0


def holds_soon(condition: Callable[[], Any]) -> bool:
    end = time.monotonic() + SECONDS
    while not condition() and time.monotonic() < end:
        time.sleep(0.01)
    return bool(condition())


@needs_program
class Ends(unittest.TestCase):
    def setUp(self) -> None:
        # So few connections that a mirror that was not closed has the last one.
        self.server = Server("--forever", connections=2)
        self.addCleanup(self.server.kill)
        self.client = tabd.Client(self.server.port, connections=1)
        self.addCleanup(self.client.close)
        self.client.create_table("t")

    def test_an_error_is_raised_to_whoever_reads_or_waits(self) -> None:
        told: List[BaseException] = []
        with tabd.Mirror(self.client, "x" * 300) as mirror:
            calls: List[Callable[[], Any]] = [
                lambda: mirror.wait(lambda one: one.live, SECONDS),
                lambda: mirror.wait(lambda one: True),
                lambda: mirror.read("x" * 300, 1),
                lambda: mirror.all_keys("x" * 300),
                lambda: mirror.records("x" * 300),
            ]
            for call in calls:
                with self.assertRaises(tabd.BadTerm) as raised:
                    call()
                told.append(raised.exception)
            self.assertIs(mirror.fault, told[0])
            self.assertFalse(mirror.live)
            self.assertIn("failed", repr(mirror))

    def test_an_error_ends_a_wait_that_is_under_way(self) -> None:
        with tabd.Mirror(self.client, "t") as mirror:
            self.assertTrue(mirror.wait(lambda one: one.live, SECONDS))
            with mock.patch("tabd.copies.Copies.apply", side_effect=ValueError("mine")):
                writes = threading.Timer(0.1, lambda: self.client.table("t").write(("t", 1, 1)))
                writes.start()
                with self.assertRaisesRegex(ValueError, "mine"):
                    mirror.wait(lambda one: False, SECONDS)
                writes.join(SECONDS)

    def test_a_table_that_it_does_not_follow(self) -> None:
        with tabd.Mirror(self.client, "t") as mirror:
            for call in (lambda: mirror.read("u", 1), lambda: mirror.all_keys("u"), lambda: mirror.records("u")):
                with self.assertRaisesRegex(tabd.Error, "'u'"):
                    call()

    def test_a_closed_one_is_not_waited_for(self) -> None:
        mirror = tabd.Mirror(self.client, "t")
        mirror.wait(lambda one: one.live, SECONDS)
        threading.Timer(0.1, mirror.close).start()
        with self.assertRaises(tabd.Closed):
            mirror.wait(lambda one: False, SECONDS)
        self.assertEqual(mirror.read("t", 1), [])

    def test_one_that_is_dropped_gives_all_back(self) -> None:
        gc.disable()
        self.addCleanup(gc.enable)
        for _ in range(3):
            mirror = tabd.Mirror(self.client, "t")
            self.assertTrue(mirror.wait(lambda one: one.live, SECONDS))
            gone, thread = weakref.ref(mirror), mirror._thread
            del mirror
            self.assertIsNone(gone(), "something refers to it")
            thread.join(SECONDS)
            self.assertFalse(thread.is_alive())
            # The server can serve another connection.

    def test_a_full_server_is_asked_again(self) -> None:
        with tabd.Client(self.server.port, connections=1) as other:
            other.table("t").info("size")
            with tabd.Mirror(self.client, "t", pause=0.05) as mirror:
                self.assertFalse(mirror.wait(lambda one: one.live, 0.3))
                other.close()
                self.assertTrue(mirror.wait(lambda one: one.live, SECONDS))


if __name__ == "__main__":
    unittest.main()
