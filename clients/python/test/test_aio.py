# SPDX-License-Identifier: Apache-2.0
"""The client for asyncio against the program: transactions, cancellation, the pool, events and a mirror."""

from __future__ import annotations

import asyncio
import os
import random
import socket
import tempfile
import time
import unittest
from typing import Any, Awaitable, Callable, Dict, List
from unittest import mock

from servers import Server, needs_program, refusing

import tabd
import tabd.aio

SECONDS = 60.0
ACCOUNTS, TASKS, TRANSFERS = 20, 16, 6
Test = Callable[[tabd.aio.Client], Awaitable[None]]


class Loops(unittest.TestCase):
    """Each test is a coroutine with a client of a server of its own."""

    def play(self, test: Test, *words: str, **named: Any) -> None:
        with Server(*words, connections=48) as server:
            self.port = server.port

            async def whole() -> None:
                async with tabd.aio.Client(server.port, **named) as client:
                    await client.create_table("t")
                    await test(client)

            asyncio.run(asyncio.wait_for(whole(), 2 * SECONDS))


async def put(t: tabd.aio.Transaction, key: Any, value: Any = 1) -> None:
    await t.write(("t", key, value))


@needs_program
class Transactions(Loops):
    def test_levels_and_operations(self) -> None:
        async def test(client: tabd.aio.Client) -> None:
            async with client.transaction() as t:
                self.assertIsNone(await t.write(("t", 1, "a")))
                with self.assertRaises(tabd.Aborted):
                    async with t.transaction() as inner:
                        await put(inner, 2)
                        inner.abort("why")
                async with client.transaction() as inner:
                    await put(inner, 3)
                    with self.assertRaises(tabd.Error):
                        await t.read("t", 1)
                self.assertEqual((inner.level, await t.all_keys("t")), (2, [1, 3]))
                with self.assertRaises(tabd.InTransaction):
                    await client.one_shot().read("t", 1).run()
            self.assertEqual((t.commit, repr(t)), (1, "<tabd.aio.Transaction of age 1, level 1, committed>"))
            with self.assertRaises(tabd.NoExists):
                async with client.transaction() as t:
                    await put(t, 4)
                    await t.read("u", 1)
            with self.assertRaises(KeyError):
                async with client.transaction() as t:
                    await put(t, 4)
                    raise KeyError("mine")
            child = tabd.aio.OneShot().write(("t", 5, 5)).abort("child")
            told = await client.one_shot().write(("t", 4, 4)).child(child).all_keys("t").run()
            self.assertEqual(told, ["ok", ("aborted", "child"), [1, 3, 4]])
            self.assertEqual(client._pool.count, 1)

        self.play(test)

    def test_a_level_that_is_of_no_open_transaction(self) -> None:
        """What it did would be another transaction's, or be committed without what came before it."""

        async def test(client: tabd.aio.Client) -> None:
            async with client.transaction() as t:
                await put(t, 1)
                level = t.transaction()
            async with client.transaction() as t:
                await put(t, 2)
                with self.assertRaises(tabd.Ended):
                    await level.__aenter__()
            async with client.transaction() as older:
                await put(older, 3)

                async def younger() -> None:
                    async with client.transaction() as t:
                        try:
                            await put(t, 3)
                        except tabd.Restart:
                            pass
                        async with client.transaction() as inner:
                            await put(inner, 4)

                with self.assertRaises(tabd.Restart):
                    await asyncio.ensure_future(younger())
            self.assertEqual(await client.table("t").keys(), [1, 2, 3])

        self.play(test)

    def test_a_tables_own_operations(self) -> None:
        async def test(client: tabd.aio.Client) -> None:
            table = client.table("t")
            await table.write(("t", 1, 1))
            await table.write(("t", 2, 2))
            self.assertEqual((await table.read(1), await table.keys(), await table.size()), ([("t", 1, 1)], [1, 2], 2))
            with self.assertRaises(tabd.Aborted):
                async with client.transaction() as t:
                    await table.delete(1)
                    self.assertEqual(await table.keys(), [2])
                    t.abort("why")
            await table.add_index("val")
            self.assertEqual(await table.info("index"), [3])
            await table.del_index("val")
            with self.assertRaises(tabd.BadType):
                await table.write(("u", 1, 1))
            await table.drop()
            with self.assertRaises(tabd.NoExists):
                await table.size()

        self.play(test)

    def test_attempts(self) -> None:
        """A lock of an older transaction is lost until that one has ended."""

        async def test(client: tabd.aio.Client) -> None:
            count: List[int] = []

            async def younger() -> None:
                async for attempt in client.attempts():
                    async with attempt as t:
                        count.append(1)
                        await put(t, 1, "younger")
                for attempt in client.attempts():
                    async with attempt as t:
                        await put(t, 2)

            @client.transactional
            async def decorated(t: tabd.aio.Transaction, value: str) -> str:
                count.append(1)
                await put(t, 1, value)
                return value

            for job in (younger, lambda: decorated("younger")):
                count.clear()
                async with client.transaction() as t:
                    await put(t, 1, "older")
                    task = asyncio.ensure_future(job())
                    with self.assertRaises(tabd.NoMore):
                        await asyncio.ensure_future(client.run(lambda u: put(u, 1), retries=1))
                await task
                self.assertGreater(len(count), 1)
                self.assertEqual(await client.table("t").read(1), [("t", 1, "younger")])
            with self.assertRaises(TypeError):
                client.transactional(lambda t: put(t, 1))

        self.play(test)

    def test_two_operations_at_once(self) -> None:
        async def test(client: tabd.aio.Client) -> None:
            async with client.transaction() as t:
                await put(t, 1)
                told = await asyncio.gather(t.read("t", 1), t.read("t", 2), return_exceptions=True)
                self.assertEqual(told[0], [("t", 1, 1)])
                self.assertIs(type(told[1]), tabd.Error)
                await put(t, 2)
            self.assertEqual(await client.table("t").keys(), [1, 2])

        self.play(test)

    def test_a_lock_that_takes_too_long(self) -> None:
        async def test(client: tabd.aio.Client) -> None:
            hasty = tabd.aio.Client(self.port, lock_timeout=0.3, connections=1)
            async with hasty.transaction() as t:
                await t.read("t", 9)
                async with client.transaction() as younger:
                    await put(younger, 1)

                    async def wait() -> None:
                        async with t.transaction() as inner:
                            await inner.read("t", 1)

                    with self.assertRaises(tabd.LockTimeout):
                        await wait()
                    await put(t, 3)
            self.assertEqual(await client.table("t").keys(), [1, 3])
            await hasty.close()

        self.play(test, "--abort-waits")


@needs_program
class Cancellation(Loops):
    async def cancelled(self, task: asyncio.Task[Any]) -> None:
        task.cancel()
        with self.assertRaises(asyncio.CancelledError):
            await task

    def test_between_operations(self) -> None:
        """It is aborted, and the connection is the next one's."""

        async def test(client: tabd.aio.Client) -> None:
            inside = asyncio.Event()

            async def work() -> None:
                async with client.transaction() as t:
                    await put(t, 1)
                    async with t.transaction() as inner:
                        await put(inner, 2)
                        inside.set()
                        await asyncio.sleep(SECONDS)

            task = asyncio.ensure_future(work())
            await inside.wait()
            await self.cancelled(task)
            self.assertEqual((await client.table("t").keys(), client._pool.count), ([], 1))

        self.play(test, connections=1)

    def test_while_a_reply_is_pending(self) -> None:
        """The connection is closed, and its slot is free for the next one."""

        async def test(client: tabd.aio.Client) -> None:
            other = tabd.aio.Client(self.port)
            inside, held = asyncio.Event(), asyncio.Event()
            seen: List[tabd.aio.Transaction] = []

            async def work() -> None:
                async with client.transaction() as t:
                    seen.append(t)
                    await t.read("t", 9)
                    inside.set()
                    await held.wait()
                    # It is older than the one that has the lock, and waits.
                    await t.read("t", 1)

            task = asyncio.ensure_future(work())
            await inside.wait()
            async with other.transaction() as holder:
                await put(holder, 1, "held")
                held.set()
                while not seen[0]._session.connection._asking:
                    await asyncio.sleep(0.01)
                await self.cancelled(task)
            with self.assertRaises(tabd.Closed):
                await seen[0].read("t", 1)
            self.assertEqual(await client.table("t").read(1), [("t", 1, "held")])
            await other.close()

        self.play(test, connections=1)

    def test_at_any_time(self) -> None:
        """Each connection that goes on gets only its own replies."""

        async def test(client: tabd.aio.Client) -> None:
            chance = random.Random(1)

            async def work(number: int) -> None:
                async for attempt in client.attempts():
                    async with attempt as t:
                        await put(t, number, "one")
                        await put(t, -number, "other")

            for number in range(1, 30):
                task = asyncio.ensure_future(work(number))
                await asyncio.sleep(chance.random() * 0.004)
                task.cancel()
                await asyncio.wait({task})
                key = ("probe", number)
                told = await client.one_shot().write(("t", key, number)).read("t", key).delete("t", key).run()
                self.assertEqual(told, ["ok", [("t", key, number)], "ok"])
            keys = set(await client.table("t").keys())
            self.assertEqual(keys, {-key for key in keys})

        self.play(test, "--forever", connections=2, pool_timeout=SECONDS)

    def test_while_one_waits_for_a_connection(self) -> None:
        async def test(client: tabd.aio.Client) -> None:
            async with client.transaction() as t:
                await put(t, 1)
                waiting = [asyncio.ensure_future(client.table("t").keys()) for _ in range(3)]
                await asyncio.sleep(0.05)
                await self.cancelled(waiting[0])
                with self.assertRaises(tabd.PoolTimeout):
                    await waiting[1]
                with self.assertRaises(tabd.PoolTimeout):
                    await waiting[2]
            self.assertEqual(await client.table("t").keys(), [1])

        self.play(test, connections=1, pool_timeout=0.3)


@needs_program
class Money(Loops):
    def test_tasks_that_move_it_and_are_cancelled(self) -> None:
        """The sum is kept, and a mirror comes to be equal."""

        async def test(client: tabd.aio.Client) -> None:
            async def fill(t: tabd.aio.Transaction) -> None:
                for account in range(ACCOUNTS):
                    await put(t, account, 100)

            await client.run(fill)
            moved = [0]

            async def move(one: int, other: int) -> None:
                async for attempt in client.attempts():
                    async with attempt as t:
                        [(_, _, less)] = await t.wread("t", one)
                        [(_, _, more)] = await t.wread("t", other)
                        if less < 1:
                            t.abort("poor")
                        await put(t, one, less - 1)
                        await put(t, other, more + 1)
                moved[0] += 1

            async def work(seed: int) -> int:
                chance, cancelled = random.Random(seed), 0
                for _ in range(TRANSFERS):
                    task = asyncio.ensure_future(move(*chance.sample(range(ACCOUNTS), 2)))
                    if chance.randrange(3) == 0:
                        await asyncio.sleep(chance.random() * 0.01)
                        task.cancel()
                    await asyncio.wait({task})
                    cancelled += task.cancelled()
                return cancelled

            async with tabd.aio.Mirror(client, "t") as mirror:
                cancelled = sum(await asyncio.gather(*(work(seed) for seed in range(TASKS))))
                self.assertGreater(cancelled, 0, "nothing was cancelled, so nothing is shown")
                self.assertGreater(moved[0], 0)
                await client.table("t").write(("t", "end", 0))
                self.assertTrue(await mirror.wait(lambda one: one.read("t", "end"), SECONDS))
                [records] = await client.one_shot().match_object(("t", "_", "_")).run()
                self.assertEqual(mirror.records("t"), records)
                self.assertEqual(sum(record[2] for record in records), 100 * ACCOUNTS)
                self.assertLessEqual(client._pool.count, 8)

        self.play(test, "--forever", "--outbox", "1024", connections=8)


@needs_program
class Events(Loops):
    def test_they_come(self) -> None:
        async def test(client: tabd.aio.Client) -> None:
            table = client.table("t")
            await table.write(("t", 0, 0))
            async with table.events(dump=True) as events:
                async with client.transaction() as t:
                    await put(t, 1)
                    await put(t, 2)
                    await t.delete("t", 1)
                found = [await events.__anext__() for _ in range(4)]
                age = t.age
                assert age is not None
                wanted = [tabd.Begin("t", [("t", 0, 0)]), tabd.Write(("t", 1, 1), age), tabd.Write(("t", 2, 1), age), tabd.Delete("t", 1, age)]
                self.assertEqual(found, wanted)
                # A task that is cancelled while it waits takes none with it.
                waiting = asyncio.ensure_future(events.__anext__())
                await asyncio.sleep(0.05)
                waiting.cancel()
                await asyncio.wait({waiting})
                self.assertIsNone(await events.next(0.05))
                await table.write(("t", 3, 3))
                self.assertIsInstance(await events.next(SECONDS), tabd.Write)
                await table.drop()
                self.assertEqual([event async for event in events], [tabd.End("t", "deleted")])

        self.play(test)

    def test_batches_and_several_tables(self) -> None:
        async def test(client: tabd.aio.Client) -> None:
            await client.create_table("u")
            events = client.events("t", "u")

            async def all_of() -> List[tabd.Event]:
                return [event async for event in events]

            task = asyncio.ensure_future(all_of())
            while not client._pool.closed and not events._watched == {"t", "u"}:
                await asyncio.sleep(0.01)
            async with client.transaction() as t:
                await t.write(("u", 1, 1))
                await t.write(("t", 1, 1))
            for name in ("t", "u"):
                await client.delete_table(name)
            told = await asyncio.wait_for(task, SECONDS)
            self.assertEqual([event.record[0] for event in told if isinstance(event, tabd.Write)], ["u", "t"])
            self.assertEqual({event.commit for event in told if isinstance(event, tabd.Write)}, {1})

        self.play(test, "--batches")

    def test_more_than_are_kept(self) -> None:
        """A task that reads late gets all of them, in order, or an overflow and the records again."""

        async def test(client: tabd.aio.Client) -> None:
            count = 200
            async with client.events("t", dump=True) as events:
                for start in range(0, count, 20):
                    shot = client.one_shot()
                    for key in range(start, start + 20):
                        shot.write(("t", key, key))
                    await shot.run()
                copy: Dict[Any, Any] = {}
                while len(copy) < count:
                    event = await events.next(SECONDS)
                    if isinstance(event, tabd.Begin):
                        copy = {record[1]: record[2] for record in event.records or ()}
                    elif isinstance(event, tabd.Write):
                        copy[event.record[1]] = event.record[2]
                self.assertEqual(copy, {key: key for key in range(count)})

        with mock.patch("tabd.aio.connection.MOST_TOLD", 16):
            self.play(test)

    def test_the_end_of_the_server(self) -> None:
        with Server() as server:

            async def test() -> None:
                client = tabd.aio.Client(server.port)
                table = await client.create_table("t")
                async with table.events() as events, client.transaction() as t:
                    await put(t, 1)
                    self.assertEqual(await events.__anext__(), tabd.Begin("t", None))
                    server.kill()
                    with self.assertRaises(tabd.Closed):
                        await events.__anext__()
                    with self.assertRaises(tabd.Closed):
                        await put(t, 2)
                    raise KeyError("mine")

            with self.assertRaises(KeyError):
                asyncio.run(test())


@needs_program
class Mirrors(Loops):
    def test_it_follows_a_table_that_comes_and_goes(self) -> None:
        async def test(client: tabd.aio.Client) -> None:
            async with tabd.aio.Mirror(client, "t", "u", pause=0.05) as mirror:
                self.assertFalse(await mirror.wait(lambda one: one.live, 0.2))
                for kind, wanted in (("set", [("u", 1, 2)]), ("bag", [("u", 1, 1), ("u", 1, 2)])):
                    table = await client.create_table("u", type=kind)
                    for value in (1, 2):
                        await table.write(("u", 1, value))
                    self.assertTrue(await mirror.wait(lambda one: one.live and one.records("u") == wanted, SECONDS))  # noqa: B023
                    await table.drop()
                    self.assertTrue(await mirror.wait(lambda one: not one.live and not one.records("u"), SECONDS))
                with self.assertRaises(tabd.Error):
                    mirror.read("v", 1)
            with self.assertRaises(tabd.Closed):
                await mirror.wait(lambda one: False, SECONDS)

        self.play(test)

    def test_an_error_is_raised_and_a_dropped_one_ends(self) -> None:
        async def test(client: tabd.aio.Client) -> None:
            async with tabd.aio.Mirror(client, "x" * 300) as mirror:
                with self.assertRaises(tabd.BadTerm):
                    await mirror.wait(lambda one: one.live, SECONDS)
                with self.assertRaises(tabd.BadTerm):
                    mirror.read("x" * 300, 1)
            mirror = tabd.aio.Mirror(client, "t")
            self.assertTrue(await mirror.wait(lambda one: one.live, SECONDS))
            task = mirror._task
            del mirror
            await asyncio.wait({task}, timeout=SECONDS)
            self.assertTrue(task.done())

        self.play(test)


class Openings(unittest.TestCase):
    def test_a_full_server(self) -> None:
        async def test(port: int) -> None:
            for _ in range(3):
                with self.assertRaises(tabd.NotServed):
                    await tabd.aio.Client(port).one_shot().write(("t", 1, 1)).run()

        with refusing() as port:
            asyncio.run(test(port))

    @needs_program
    def test_a_full_server_at_a_file(self) -> None:
        with tempfile.TemporaryDirectory() as folder:
            path = os.path.join(folder, "socket")

            async def test() -> None:
                async with tabd.aio.Client(path, connections=1) as first:
                    await first.create_table("t")
                    for _ in range(5):
                        with self.assertRaises(tabd.NotServed):
                            await tabd.aio.Client(path).table("t").size()
                    self.assertEqual(await first.table("t").size(), 0)

            with Server("--forever", connections=1, path=path):
                asyncio.run(test())

    def test_no_server_and_no_answer(self) -> None:
        async def test() -> None:
            with socket.socket() as held:
                held.bind(("127.0.0.1", 0))
                port = held.getsockname()[1]
                with self.assertRaises(tabd.NotConnected):
                    await tabd.aio.Client(port).create_table("t")
                held.listen()
                began = time.monotonic()
                with self.assertRaises(tabd.ConnectTimeout):
                    await tabd.aio.Client(port, connect_timeout=0.1).create_table("t")
                self.assertLess(time.monotonic() - began, 5)

        asyncio.run(test())

    @needs_program
    def test_a_client_in_two_loops_and_a_child(self) -> None:
        with Server() as server:
            client = tabd.aio.Client(server.port)

            async def one(key: int) -> List[Any]:
                return await client.one_shot().write(("t", key, key)).all_keys("t").run()

            with tabd.Client(server.port) as first:
                first.create_table("t")
            self.assertEqual(asyncio.run(one(1)), ["ok", [1]])
            self.assertEqual(asyncio.run(one(2)), ["ok", [1, 2]])
            child = os.fork()
            if child == 0:
                told: Any = None
                try:
                    told = asyncio.run(one(3))
                finally:
                    os._exit(0 if told == ["ok", [1, 2, 3]] else 1)
            self.assertEqual(os.waitpid(child, 0)[1], 0)
            self.assertEqual(asyncio.run(one(4)), ["ok", [1, 2, 3, 4]])


if __name__ == "__main__":
    unittest.main()
