# SPDX-License-Identifier: Apache-2.0
"""An interrupt, as of Ctrl-C, raises at any point of the client. What the thread does next is its own transaction, which commits."""

from __future__ import annotations

import dis
import gc
import os
import sys
import unittest
from types import FrameType
from typing import Any, Callable

from servers import Server, needs_program

import tabd

CLIENT = os.path.dirname(tabd.__file__)


class Interrupted(BaseException):
    pass


class Interrupt:
    """Raises `Interrupted` at the point of a given number. The points are where Python looks for signals: the start of each of the client's
    functions, and the end of each call in it."""

    def __init__(self, at: int) -> None:
        self.at, self.passed = at, 0

    def pass_point(self) -> None:
        self.passed += 1
        if self.passed == self.at:
            raise Interrupted

    def __call__(self, frame: FrameType, event: str, argument: Any) -> Any:
        if not frame.f_code.co_filename.startswith(CLIENT):
            return None
        self.pass_point()
        frame.f_trace_lines, frame.f_trace_opcodes = False, True
        return Calls(self, frame.f_code.co_code)


class Calls:
    """Follows one run of a function."""

    def __init__(self, interrupt: Interrupt, code: bytes) -> None:
        self.interrupt, self.code, self.called = interrupt, code, False

    def __call__(self, frame: FrameType, event: str, argument: Any) -> Any:
        if event == "opcode":
            called, self.called = self.called, dis.opname[self.code[frame.f_lasti]].startswith("CALL")
            if called:
                self.interrupt.pass_point()
        return self


def interrupted(work: Callable[[], None], at: int) -> bool:
    """Whether the work came as far as the point."""
    sys.settrace(Interrupt(at))
    try:
        work()
    except Interrupted:
        return True
    finally:
        sys.settrace(None)
    return False


@needs_program
class Interrupts(unittest.TestCase):
    def setUp(self) -> None:
        server = Server("--forever", connections=64)
        self.addCleanup(server.kill)
        self.other = tabd.Client(server.port, lock_timeout=5.0, timeout=5.0)
        self.addCleanup(self.other.close)
        self.client = tabd.Client(server.port, connections=1, timeout=5.0, pool_timeout=5.0)
        self.addCleanup(self.client.close)
        self.other.create_table("t")

    def at_each_point(self, work: Callable[[], None], refused: bool = False) -> None:
        at = 0
        while interrupted(work, at := at + 1):
            if refused:
                # The refusal refers to its transaction, which refers to it.
                gc.collect()
            with self.client.transaction() as t:
                self.assertEqual(t.level, 1, f"point {at}")
                t.write(("t", "next", at))
            self.assertEqual(self.client.table("t").read("next"), [("t", "next", at)], f"point {at}")
            # No lock was left.
            self.other.run(lambda t: t.write(("t", "work", at)))
        self.assertGreater(at, 50)

    def test_a_transaction(self) -> None:
        def work() -> None:
            with self.client.transaction() as t:
                t.write(("t", "work", 1))
                t.read("t", "work")

        self.at_each_point(work)

    def test_an_attempt(self) -> None:
        def work() -> None:
            for attempt in self.client.attempts():
                with attempt as t:
                    t.write(("t", "work", 1))

        self.at_each_point(work)

    def test_a_level(self) -> None:
        def work() -> None:
            with self.client.transaction() as t:
                t.write(("t", "work", 1))
                with t.transaction() as inner:
                    inner.write(("t", "work", 2))

        self.at_each_point(work)

    def test_a_refused_operation(self) -> None:
        def work() -> None:
            try:
                with self.client.transaction() as t:
                    t.write(("t", "work", 1))
                    t.read("none", 1)
            except tabd.NoExists:
                pass

        self.at_each_point(work, refused=True)

    def test_a_function_and_a_one_shot(self) -> None:
        def work() -> None:
            self.client.run(lambda t: t.write(("t", "work", 1)))
            self.client.one_shot().read("t", "work").write(("t", "work", 2)).run()

        self.at_each_point(work)


if __name__ == "__main__":
    unittest.main()
