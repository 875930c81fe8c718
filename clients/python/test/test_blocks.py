# SPDX-License-Identifier: Apache-2.0
"""What repeats a block or a function that lost a lock, against a server that plays a script; decorated functions."""

from __future__ import annotations

import functools
import gc
import inspect
import threading
import unittest
from typing import Any, Callable, Iterator, List, Tuple

from servers import Ahead, Script

import tabd

OK, RESTART = "ok", "restart"
BEGIN = Ahead(("begin", ("tid", 7)))
ALONE = ("begin", ("tid", 7))
COMMIT = ("commit", ("atomic", 1))
ABORT = (("abort", "client"), ("aborted", "client"))


def write(key: int) -> Tuple[Any, ...]:
    return ("write", ("t", key, key))


def put(t: tabd.Transaction, key: int) -> None:
    t.write(("t", key, key))


class Scripted(unittest.TestCase):
    def play(self, do: Callable[[tabd.Client], Any], *steps: Tuple[Any, Any]) -> Any:
        script = Script(*steps)
        with tabd.Client(script.port, connections=1, pool_timeout=2.0) as client:
            try:
                return do(client)
            finally:
                client.close()
                self.assertIsNone(script.end())


class Attempts(Scripted):
    def test_the_block_is_done_again(self) -> None:
        seen: List[int] = []

        def do(client: tabd.Client) -> None:
            for attempt in client.attempts():
                with attempt as t:
                    seen.append(len(seen))
                    put(t, 1)
                    put(t, 2)
            self.assertEqual((t.commit, t.age), (1, 7))

        # The transaction is open at the server with its age: it is not begun again.
        again = [(write(1), OK), (write(2), RESTART), (write(1), RESTART)]
        self.play(do, BEGIN, *again, (write(1), OK), (write(2), OK), COMMIT)
        self.assertEqual(seen, [0, 1, 2])

    def test_a_block_that_ends_well_is_done_once(self) -> None:
        def do(client: tabd.Client) -> None:
            for attempt in client.attempts():
                with attempt as t:
                    put(t, 1)
            for attempt in client.attempts():
                with attempt as t:
                    pass

        self.play(do, BEGIN, (write(1), OK), COMMIT, BEGIN, COMMIT)

    def test_no_more_than_its_retries(self) -> None:
        def do(client: tabd.Client) -> None:
            for attempt in client.attempts(retries=2):
                with attempt as t:
                    put(t, 1)

        again = (write(1), RESTART)
        with self.assertRaises(tabd.NoMore):
            self.play(do, BEGIN, again, again, again, ABORT)

    def test_an_error_leaves_the_loop(self) -> None:
        for error in (KeyError, KeyboardInterrupt, tabd.Aborted):

            def do(client: tabd.Client) -> None:
                for attempt in client.attempts():
                    with attempt as t:
                        put(t, 1)
                        raise error("mine")  # noqa: B023
                self.fail("it went on")

            with self.subTest(error=error), self.assertRaises(error):
                self.play(do, BEGIN, (write(1), OK), ABORT)

    def test_another_error_that_comes_of_a_restart(self) -> None:
        def do(client: tabd.Client) -> None:
            for attempt in client.attempts():
                with attempt as t:
                    try:
                        put(t, 1)
                    except tabd.Restart:
                        raise KeyError("mine") from None

        self.play(do, BEGIN, (write(1), RESTART), (write(1), OK), COMMIT)

    def test_an_interrupt_after_a_restart_is_not_lost(self) -> None:
        def do(client: tabd.Client) -> None:
            for attempt in client.attempts():
                with attempt as t:
                    try:
                        put(t, 1)
                    except tabd.Restart:
                        raise KeyboardInterrupt() from None

        with self.assertRaises(KeyboardInterrupt):
            self.play(do, BEGIN, (write(1), RESTART), ABORT)

    def test_a_break_in_the_block_commits(self) -> None:
        def do(client: tabd.Client) -> int:
            for attempt in client.attempts():
                with attempt as t:
                    put(t, 1)
                    break
            for attempt in client.attempts():
                with attempt as t:
                    put(t, 2)
                    return 5
            return 0

        self.assertEqual(self.play(do, BEGIN, (write(1), OK), COMMIT, BEGIN, (write(2), OK), COMMIT), 5)

    def test_a_break_between_attempts_gives_all_back(self) -> None:
        """The connection is closed, which ends its transaction, and the slot is free for the next one."""
        script = Script(BEGIN, (write(1), RESTART))
        with tabd.Client(script.port, connections=1, pool_timeout=2.0) as client:
            for attempt in client.attempts():
                with attempt as t:
                    put(t, 1)
                break
            del attempt, t
            gc.collect()
            self.assertIsNone(script.end())
            # The script's server serves no more.
            with self.assertRaises(tabd.NotConnected) as raised:
                client.run(lambda t: None)
            self.assertNotIsInstance(raised.exception, tabd.PoolTimeout)

    def test_a_block_that_catches_restart_raises_it_at_its_end(self) -> None:
        """It may have ended the loop by a return, so it can't be repeated silently."""

        def do(client: tabd.Client) -> int:
            for attempt in client.attempts():
                with attempt as t:
                    try:
                        put(t, 1)
                    except tabd.Error:
                        pass
                    return 1
            return 2

        with self.assertRaises(tabd.Restart):
            self.play(do, BEGIN, (write(1), RESTART), ABORT)

    def test_an_inner_loop_leaves_a_restart_to_the_outermost(self) -> None:
        seen: List[str] = []

        def do(client: tabd.Client) -> None:
            for attempt in client.attempts():
                with attempt as outer:
                    seen.append("outer")
                    put(outer, 1)
                    for inner in client.attempts():
                        with inner as t:
                            seen.append("inner")
                            put(t, 2)

        once = [(write(1), OK), ALONE]
        self.play(do, BEGIN, *once, (write(2), RESTART), *once, (write(2), OK), ("commit", ("atomic", "ok")), COMMIT)
        self.assertEqual(seen, ["outer", "inner"] * 2)

    def test_what_is_entered_twice_or_not_at_all(self) -> None:
        def do(client: tabd.Client) -> None:
            count = 0
            for _ in client.attempts():
                count += 1
            self.assertEqual(count, 1)
            for attempt in client.attempts():
                with attempt:
                    with self.assertRaises(tabd.Error):
                        attempt.__enter__()
            block = client.transaction()
            with block:
                pass
            with self.assertRaises(tabd.Error):
                block.__enter__()

        self.play(do, BEGIN, COMMIT, BEGIN, COMMIT)


class Levels(Scripted):
    def test_a_level_that_is_entered_after_its_transaction(self) -> None:
        """It is no level of the thread's next one."""

        def do(client: tabd.Client) -> None:
            with client.transaction() as t:
                put(t, 1)
                level = t.transaction()
            with client.transaction() as t:
                put(t, 2)
                with self.assertRaises(tabd.Ended):
                    level.__enter__()

        self.play(do, BEGIN, (write(1), OK), COMMIT, BEGIN, (write(2), OK), COMMIT)

    def test_a_level_after_a_caught_restart(self) -> None:
        """What it did would be committed without what came before it."""

        def do(client: tabd.Client) -> None:
            with client.transaction() as t:
                try:
                    put(t, 1)
                except tabd.Restart:
                    pass
                with client.transaction() as inner:
                    put(inner, 2)

        with self.assertRaises(tabd.Restart):
            self.play(do, BEGIN, (write(1), RESTART), ABORT)

    def test_an_outer_block_that_is_left_first(self) -> None:
        def do(client: tabd.Client) -> None:
            block = client.transaction()
            t = block.__enter__()
            level = t.transaction()
            put(level.__enter__(), 1)
            block.__exit__(KeyError, KeyError("mine"), None)
            with self.assertRaises(tabd.Ended):
                level.__exit__(None, None, None)

        self.play(do, ALONE, ALONE, (write(1), OK), ABORT, ABORT)


class Begins(Scripted):
    """`begin` is sent together with the first request, which must only be done in that transaction."""

    def test_a_refused_begin(self) -> None:
        """The server refuses the operation too, and the next one begins the transaction again."""

        def do(client: tabd.Client) -> None:
            with client.transaction() as t:
                with self.assertRaises(tabd.NoMemory):
                    put(t, 1)
                put(t, 2)

        refused = Ahead(("begin", ("error", "no_memory")))
        self.play(do, refused, (write(1), ("error", "no_transaction")), BEGIN, (write(2), OK), COMMIT)

    def test_a_refused_begin_ends_the_block(self) -> None:
        def do(client: tabd.Client) -> None:
            with self.assertRaises(tabd.SystemLimit):
                client.run(lambda t: put(t, 1))
            client.one_shot().write(("t", 2, 2)).run()

        refused = Ahead(("begin", ("error", ("system_limit", "ages"))))
        shot = (("transaction", [write(2)], 100), ("atomic", [OK]))
        self.play(do, refused, (write(1), ("error", "no_transaction")), shot)

    def test_a_restart_of_the_first_operation(self) -> None:
        self.play(lambda client: client.run(lambda t: put(t, 1)), BEGIN, (write(1), RESTART), (write(1), OK), COMMIT)

    def test_a_block_that_asks_nothing_and_fails(self) -> None:
        def do(client: tabd.Client) -> None:
            with self.assertRaises(KeyError), client.transaction():
                raise KeyError("mine")
            client.run(lambda t: None)

        self.play(do, BEGIN, COMMIT)

    def test_what_is_no_operation_begins_it(self) -> None:
        """Else the server would not know that it is in a transaction."""
        options = [("type", "set"), ("attributes", ["key", "val"]), ("index", [])]
        refused = ("error", "in_transaction")

        def do(client: tabd.Client) -> None:
            with client.transaction():
                with self.assertRaises(tabd.InTransaction):
                    client.create_table("u")
                with self.assertRaises(tabd.InTransaction):
                    client.one_shot().write(("t", 1, 1)).run()

        steps = [(("create_table", "u", options), refused), (("transaction", [write(1)], 100), refused)]
        self.play(do, ALONE, *steps, COMMIT)


CLIENT = tabd.Client(1)


class Decorated(Scripted):
    def test_functions_and_methods(self) -> None:
        def do(client: tabd.Client) -> None:
            class Repository:
                value = 3

                @client.transactional
                def put(self, t: tabd.Transaction, key: int, times: int = 1) -> int:
                    """Puts it."""
                    for _ in range(times):
                        put(t, key)
                    return self.value

                @classmethod
                @client.transactional
                def make(cls, t: tabd.Transaction, key: int) -> str:
                    put(t, key)
                    return cls.__name__

                @client.transactional
                def first(t: tabd.Transaction, self: Any, key: int) -> int:  # type: ignore[misc]
                    put(t, key)
                    return int(self.value)

            @client.transactional
            def function(t: tabd.Transaction, key: int) -> int:
                put(t, key)
                return key

            self.assertEqual(Repository().put(1, times=2), 3)
            self.assertEqual(Repository.make(3), "Repository")
            self.assertEqual(Repository().first(4), 3)  # type: ignore[call-arg, arg-type]
            self.assertEqual(function(key=5), 5)
            self.assertEqual((Repository.put.__name__, Repository.put.__doc__), ("put", "Puts it."))
            self.assertEqual(str(inspect.signature(Repository.put)), "(self, key: 'int', times: 'int' = 1) -> 'int'")
            self.assertEqual(str(inspect.signature(function)), "(key: 'int') -> 'int'")

        once = [step for key in (3, 4, 5) for step in (BEGIN, (write(key), OK), COMMIT)]
        self.play(do, BEGIN, (write(1), RESTART), (write(1), OK), (write(1), OK), COMMIT, *once)

    def test_functions_that_do_nothing_when_they_are_called(self) -> None:
        async def coroutine(t: tabd.Transaction) -> None: ...

        def generator(t: tabd.Transaction) -> Iterator[int]:
            yield 1

        async def both(t: tabd.Transaction) -> Any:
            yield 1

        class Called:
            async def __call__(self, t: tabd.Transaction) -> None: ...

        for function in (coroutine, generator, both, functools.partial(generator), Called(), 5):
            with self.subTest(function=function):
                with self.assertRaises(TypeError):
                    CLIENT.transactional(function)  # type: ignore[call-overload]
                with self.assertRaises(TypeError):
                    CLIENT.run(function)  # type: ignore[arg-type]


class OtherThreads(Scripted):
    def test_a_transaction_is_of_its_thread(self) -> None:
        told: List[BaseException] = []

        def do(client: tabd.Client) -> None:
            with client.transaction() as t:
                put(t, 1)

                def other() -> None:
                    for call in (lambda: put(t, 2), t.transaction, lambda: t.abort("why")):
                        try:
                            call()
                        except tabd.Error as error:
                            told.append(error)

                thread = threading.Thread(target=other)
                thread.start()
                thread.join()

        self.play(do, BEGIN, (write(1), OK), COMMIT)
        self.assertEqual([type(error) for error in told], [tabd.WrongThread] * 3)

    def test_a_block_that_another_thread_leaves(self) -> None:
        """Its connection is closed, and its own thread is in no transaction."""
        script = Script(BEGIN, (write(1), OK))
        client = tabd.Client(script.port, connections=1, connect_timeout=1.0)
        block = client.transaction()
        put(block.__enter__(), 1)
        told: List[BaseException] = []

        def other() -> None:
            try:
                block.__exit__(None, None, None)
            except tabd.Error as error:
                told.append(error)

        thread = threading.Thread(target=other)
        thread.start()
        thread.join()
        self.assertEqual([type(error) for error in told], [tabd.WrongThread])
        self.assertIsNone(script.end())
        self.assertIsNone(client._session())


if __name__ == "__main__":
    unittest.main()
