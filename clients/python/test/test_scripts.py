# SPDX-License-Identifier: Apache-2.0
"""The client against a server that plays a script: what it sends, in which order, and that it sends nothing ahead."""

from __future__ import annotations

import socket
import unittest
from typing import Any, Callable, Tuple

from servers import Ahead, Replies, Script

import tabd

OK, ATOMIC = "ok", ("atomic", "ok")
# A transaction's `begin` is sent together with its first request. It is sent separately before a level and if a wait for a lock has a time limit;
# a level's always is.
BEGIN = Ahead(("begin", ("tid", 7)))
ALONE = ("begin", ("tid", 7))
COMMIT = ("commit", ("atomic", 1))
ABORT = (("abort", "client"), ("aborted", "client"))
# What waits, and the abort that ends the first wait of a connection.
WAIT = (("read", "t", 1), Replies())
REASON = ("lock_timeout", 1)
GIVEN_UP = (("abort", REASON), ("aborted", REASON))


def given_up_behind(*replies: Any) -> Tuple[Any, Any]:
    """The abort comes behind what the operation was told."""
    return (("abort", REASON), Replies(*replies))


def write(key: int) -> Tuple[Any, ...]:
    return ("write", ("t", key, key))


class Scripts(unittest.TestCase):
    def play(self, do: Callable[[tabd.Client], Any], *steps: Tuple[Any, Any]) -> Any:
        script = Script(*steps)
        with tabd.Client(script.port) as client:
            try:
                return do(client)
            finally:
                client.close()
                self.assertIsNone(script.end())

    def test_runs_again_after_a_restart(self) -> None:
        calls = []

        def function(t: tabd.Transaction) -> str:
            calls.append(t.age)
            for key in (1, 2, 3):
                t.write(("t", key, key))
            return "done"

        # Its age is asked for before its first operation.
        steps = [ALONE, (write(1), OK), (write(2), "restart"), (write(1), OK), (write(2), OK), (write(3), OK), COMMIT]
        self.assertEqual(self.play(lambda client: client.run(function), *steps), "done")
        self.assertEqual(calls, [7, 7])

    def test_runs_again_where_the_restart_was_caught(self) -> None:
        calls = []

        def function(t: tabd.Transaction) -> None:
            calls.append(1)
            for key in (1, 2):
                try:
                    t.write(("t", key, key))
                except tabd.Error:
                    pass

        self.play(lambda client: client.run(function), BEGIN, (write(1), "restart"), (write(1), OK), (write(2), OK), COMMIT)
        self.assertEqual(len(calls), 2)

    def test_runs_again_where_another_error_came_of_a_restart(self) -> None:
        calls = []

        def function(t: tabd.Transaction) -> None:
            calls.append(1)
            try:
                t.write(("t", 1, 1))
            except tabd.Restart:
                raise KeyError("mine") from None

        self.play(lambda client: client.run(function), BEGIN, (write(1), "restart"), (write(1), OK), COMMIT)
        self.assertEqual(len(calls), 2)

    def test_no_more_than_its_retries(self) -> None:
        def function(t: tabd.Transaction) -> None:
            t.write(("t", 1, 1))

        with self.assertRaises(tabd.NoMore):
            again = (write(1), "restart")
            self.play(lambda client: client.run(function, retries=2), BEGIN, again, again, again, ABORT)

    def test_a_block_is_told_to_restart(self) -> None:
        def block(client: tabd.Client) -> None:
            with client.transaction() as t:
                t.write(("t", 1, 1))
                t.write(("t", 2, 2))

        with self.assertRaises(tabd.Restart):
            self.play(block, BEGIN, (write(1), OK), (write(2), "restart"), ABORT)

    def test_a_restart_ends_all_levels(self) -> None:
        calls = []

        def function(t: tabd.Transaction) -> None:
            calls.append(1)
            t.write(("t", 1, 1))
            with t.transaction() as inner:
                inner.write(("t", 2, 2))

        once = [(write(1), OK), ALONE]
        steps = [BEGIN, *once, (write(2), "restart"), *once, (write(2), OK), ("commit", ATOMIC), COMMIT]
        self.play(lambda client: client.run(function), *steps)
        self.assertEqual(len(calls), 2)

    def test_an_inner_run_leaves_a_restart_to_the_outermost(self) -> None:
        calls = []

        def inner(t: tabd.Transaction) -> None:
            calls.append("inner")
            t.write(("t", 2, 2))

        def play(client: tabd.Client) -> None:
            def outer(t: tabd.Transaction) -> None:
                calls.append("outer")
                client.run(inner)

            client.run(outer)

        self.play(play, ALONE, ALONE, (write(2), "restart"), ALONE, (write(2), OK), ("commit", ATOMIC), COMMIT)
        self.assertEqual(calls, ["outer", "inner"] * 2)

    def test_a_caught_refusal_has_ended_its_level(self) -> None:
        def function(t: tabd.Transaction) -> None:
            for key in (1, 2):
                with self.assertRaises(tabd.BadType):
                    t.write(("t", key, key))

        refused = ("aborted", ("bad_type", "t", ("t", 1, 1)))
        with self.assertRaises(tabd.BadType):
            self.play(lambda client: client.run(function), BEGIN, (write(1), refused))

    def test_a_caught_refusal_of_a_level_leaves_the_outer_one(self) -> None:
        def function(t: tabd.Transaction) -> None:
            with self.assertRaises(tabd.NoExists):
                with t.transaction() as inner:
                    try:
                        inner.write(("t", 1, 1))
                    except tabd.Refused:
                        pass
            t.write(("t", 2, 2))

        refused = ("aborted", ("no_exists", "t"))
        self.play(lambda client: client.run(function), ALONE, ALONE, (write(1), refused), (write(2), OK), COMMIT)

    def test_a_limit_leaves_the_transaction_open(self) -> None:
        def function(t: tabd.Transaction) -> None:
            with self.assertRaises(tabd.SystemLimit):
                t.write(("t", 1, 1))

        self.play(lambda client: client.run(function), BEGIN, (write(1), ("error", ("system_limit", "operations"))), COMMIT)

    def test_an_error_of_the_function_aborts(self) -> None:
        def function(t: tabd.Transaction) -> None:
            t.write(("t", 1, 1))
            raise KeyError("mine")

        with self.assertRaises(KeyError):
            self.play(lambda client: client.run(function), BEGIN, (write(1), OK), ABORT)

    def test_a_commit_without_a_reply(self) -> None:
        script = Script(BEGIN, (write(1), OK), ("commit", None))
        with self.assertRaises(tabd.OutcomeUnknown):
            tabd.Client(script.port).run(lambda t: t.write(("t", 1, 1)))
        self.assertEqual(script.end(), "as the script says")

    def test_a_one_shot_and_a_table_without_a_reply(self) -> None:
        options = [("type", "set"), ("attributes", ["key", "val"]), ("index", [])]
        for request, ask in (
            (("transaction", [write(1)], 100), lambda client: client.one_shot().write(("t", 1, 1)).run()),
            (("create_table", "t", options), lambda client: client.create_table("t")),
        ):
            script = Script((request, None))
            with self.assertRaises(tabd.OutcomeUnknown):
                ask(tabd.Client(script.port))
            self.assertEqual(script.end(), "as the script says")

    def hasty(self, do: Callable[[tabd.Client], Any], *steps: Tuple[Any, Any]) -> Any:
        """With a client that waits for no lock for long."""
        script = Script(*steps)
        with tabd.Client(script.port, lock_timeout=0.3) as client:
            try:
                return do(client)
            finally:
                client.close()
                self.assertIsNone(script.end())

    def given_up(self, *steps: Tuple[Any, Any], levels: int = 1) -> None:
        """A read in so many levels is given up, which ends all of them, and the connection goes on."""

        def read(t: tabd.Transaction, more: int) -> None:
            if more == 0:
                t.read("t", 1)
            else:
                with t.transaction() as inner:
                    read(inner, more - 1)

        def do(client: tabd.Client) -> None:
            with self.assertRaises(tabd.LockTimeout):
                client.run(lambda t: read(t, levels - 1))
            client.run(lambda t: None)

        self.hasty(do, *[ALONE] * levels, WAIT, *steps, BEGIN, COMMIT)

    def test_a_wait_is_given_up(self) -> None:
        self.given_up(GIVEN_UP)

    def test_the_lock_comes_first(self) -> None:
        self.given_up(given_up_behind([("t", 1, 1)], ("aborted", REASON)))

    def test_a_failure_comes_first(self) -> None:
        self.given_up(given_up_behind(("aborted", ("no_exists", "t")), ("error", "no_transaction")))
        self.given_up(given_up_behind(("aborted", ("no_exists", "t")), ("aborted", REASON)), levels=2)

    def test_a_restart_comes_first(self) -> None:
        self.given_up(given_up_behind("restart", ("aborted", REASON)), levels=2)

    def test_an_inner_wait_is_given_up(self) -> None:
        def function(t: tabd.Transaction) -> None:
            with self.assertRaises(tabd.LockTimeout):
                with t.transaction() as inner:
                    inner.read("t", 1)
            t.write(("t", 1, 1))

        self.hasty(lambda client: client.run(function), ALONE, ALONE, WAIT, GIVEN_UP, (write(1), OK), COMMIT)

    def test_no_server(self) -> None:
        with socket.socket() as held:
            # Bound, and not listening.
            held.bind(("127.0.0.1", 0))
            client = tabd.Client(held.getsockname()[1])
            for ask in (client.one_shot().read("t", 1).run, lambda: client.run(lambda t: None), lambda: client.create_table("t")):
                with self.assertRaises(tabd.NotConnected):
                    ask()

    def test_an_operation_without_a_reply(self) -> None:
        script = Script(BEGIN, (write(1), None))
        with self.assertRaises(tabd.Closed) as raised:
            tabd.Client(script.port).run(lambda t: t.write(("t", 1, 1)))
        self.assertNotIsInstance(raised.exception, tabd.OutcomeUnknown)
        self.assertEqual(script.end(), "as the script says")


if __name__ == "__main__":
    unittest.main()
