# SPDX-License-Identifier: Apache-2.0
"""How connections are opened, counted and given up: full and stopped servers, time limits, many descriptors, interrupts."""

from __future__ import annotations

import contextlib
import os
import resource
import signal
import socket
import tempfile
import threading
import time
import unittest
from typing import Any, Callable, Dict, Iterator, List
from unittest import mock

from servers import Server, needs_program, refusing

import tabd
from tabd.connection import Connection

SHAPES: Dict[str, Callable[[tabd.Client], Any]] = {
    "one-shot": lambda client: client.one_shot().write(("t", 1, 1)).run(),
    "info": lambda client: client.table("t").info("size"),
    "run": lambda client: client.run(lambda t: t.read("t", 1)),
    "events": lambda client: client.events("t"),
    "a table": lambda client: client.create_table("u"),
}


@contextlib.contextmanager
def stopped(server: Server) -> Iterator[None]:
    os.kill(server.process.pid, signal.SIGSTOP)
    # All of its threads.
    os.waitid(os.P_PID, server.process.pid, os.WSTOPPED)
    try:
        yield
    finally:
        os.kill(server.process.pid, signal.SIGCONT)


def hurry(connection: Connection) -> None:
    """Sets a short `timeout` after the connection is open: on a busy machine, opening one might take longer than that."""
    connection.timeout = 0.3
    connection.socket.settimeout(0.3)


class Errors(unittest.TestCase):
    def test_their_bases_are_those_of_the_standard_library(self) -> None:
        for error, base in (
            (tabd.Closed, ConnectionError),
            (tabd.NotServed, ConnectionError),
            (tabd.TimedOut, TimeoutError),
            (tabd.ConnectTimeout, TimeoutError),
            (tabd.PoolTimeout, TimeoutError),
            (tabd.LockTimeout, TimeoutError),
        ):
            self.assertTrue(issubclass(error, base) and issubclass(error, tabd.Error), error)
        # There was no connection, so nothing was asked.
        for error in (tabd.NotServed, tabd.ConnectTimeout, tabd.PoolTimeout):
            self.assertTrue(issubclass(error, tabd.NotConnected), error)


class AFullServer(unittest.TestCase):
    """It says so in reply to no request, and closes the connection, before what the client sends or after it."""

    def refused(self, where: Any, times: int) -> None:
        for name, ask in SHAPES.items():
            for _ in range(times):
                with self.subTest(shape=name), tabd.Client(where, connections=1) as client:
                    with self.assertRaises(tabd.NotServed) as raised:
                        ask(client)
                    self.assertNotIsInstance(raised.exception, tabd.TimedOut)

    @needs_program
    def test_it_refuses_each_call(self) -> None:
        with tempfile.TemporaryDirectory() as folder:
            for path in ("", os.path.join(folder, "socket")):
                with Server("--forever", connections=2, path=path) as server:
                    where = path or server.port
                    with tabd.Client(where) as first, tabd.Client(where) as second:
                        first.create_table("t")
                        second.table("t").info("size")
                        self.refused(where, 3)
                        # Those that are served go on.
                        self.assertEqual((len(first.table("t")), len(second.table("t"))), (0, 0))

    def test_it_has_closed_before_the_client_sends(self) -> None:
        with refusing() as port:
            self.refused(port, 3)

    @needs_program
    def test_there_is_room_again(self) -> None:
        with Server("--forever", connections=1) as server:
            client = tabd.Client(server.port)
            self.addCleanup(client.close)
            with tabd.Client(server.port) as first:
                first.create_table("t")
                with self.assertRaises(tabd.NotServed):
                    client.table("t").info("size")
            for _ in range(100):
                with contextlib.suppress(tabd.NotServed):
                    self.assertEqual(client.table("t").info("size"), 0)
                    return
                time.sleep(0.05)
            self.fail("no room within 5 s")


class TimeLimits(unittest.TestCase):
    def setUp(self) -> None:
        self.held = socket.socket()
        self.addCleanup(self.held.close)
        self.held.bind(("127.0.0.1", 0))
        self.held.listen()
        # The system accepts connections there, and no one answers.
        self.silent = self.held.getsockname()[1]

    def within(self, seconds: float, error: Any, call: Callable[[], Any]) -> BaseException:
        began = time.monotonic()
        with self.assertRaises(error) as raised:
            call()
        self.assertLess(time.monotonic() - began, seconds)
        return raised.exception

    def test_no_answer_to_a_new_connection(self) -> None:
        for limits in ({"connect_timeout": 0.1}, {"connect_timeout": 0.1, "timeout": 100.0}):
            for name, ask in SHAPES.items():
                with self.subTest(shape=name, limits=limits):
                    raised = self.within(5, tabd.ConnectTimeout, lambda: ask(tabd.Client(self.silent, **limits)))
                    self.assertNotIsInstance(raised, (tabd.NotServed, tabd.OutcomeUnknown))

    @needs_program
    def test_a_server_that_serves_no_more(self) -> None:
        """Without --forever it sends nothing to a client that connects later."""
        with Server(connections=1) as server, tabd.Client(server.port) as first:
            first.create_table("t")
            self.within(5, tabd.ConnectTimeout, lambda: tabd.Client(server.port, connect_timeout=0.3).create_table("u"))

    @needs_program
    def test_a_stopped_server(self) -> None:
        with Server() as server, tabd.Client(server.port) as client:
            table = client.create_table("t")
            with self.assertRaises(tabd.TimedOut), client.transaction() as t:
                t.write(("t", 1, 1))
                hurry(t._session.connection)
                with stopped(server):
                    self.within(10, tabd.TimedOut, lambda: t.read("t", 1))
                    # A new connection is opened for it, and is not answered.
                    raised = self.within(10, tabd.TimedOut, lambda: tabd.Client(server.port, connect_timeout=0.3).table_info("t", "size"))
                    self.assertNotIsInstance(raised, tabd.NotServed)
            self.assertEqual(table.info("size"), 0)

    @needs_program
    def test_a_stopped_server_and_a_change(self) -> None:
        """Its request was sent, also if not all of it: whether it was done is not known."""
        with Server() as server:
            for value in (1, b"x" * 1_000_000):
                with tabd.Client(server.port) as client:
                    client.run(lambda t: None)
                    connection = client._pool.take()
                    hurry(connection)
                    client._pool.give(connection)
                    with stopped(server):
                        raised = self.within(10, tabd.OutcomeUnknown, client.one_shot().write(("t", 1, value)).run)
                        self.assertIsInstance(raised.__cause__, tabd.TimedOut)

    @needs_program
    def test_all_connections_are_in_use(self) -> None:
        with Server() as server, tabd.Client(server.port, connections=1, pool_timeout=0.2) as client:
            table = client.create_table("t")
            told: List[BaseException] = []

            def other() -> None:
                for ask in (table.keys, client.one_shot().read("t", 1).run, client.transaction().__enter__):
                    try:
                        ask()
                    except tabd.Error as error:
                        told.append(error)

            with client.transaction() as t:
                t.write(("t", 1, 1))
                thread = threading.Thread(target=other, daemon=True)
                thread.start()
                thread.join(10)
                self.assertEqual([type(error) for error in told], [tabd.PoolTimeout] * 3)
            self.assertEqual(len(table), 1)


class Interrupted(KeyboardInterrupt):
    pass


@needs_program
class Places(unittest.TestCase):
    """Each slot of the pool is given back, whatever ends its use. A client with one slot shows it at once."""

    def setUp(self) -> None:
        server = Server(connections=64)
        self.addCleanup(server.kill)
        self.client = tabd.Client(server.port, connections=1, pool_timeout=5.0)
        self.addCleanup(self.client.close)
        self.table = self.client.create_table("t")

    def test_while_a_connection_opens(self) -> None:
        self.client._pool.take().close()
        for what in ("tabd.connection._opened", "tabd.connection.Connection._greet", "tabd.connection.Connection._reply"):
            for error in (Interrupted, OSError, tabd.NotConnected):
                with tabd.Client(self.client._address.port, connections=1, pool_timeout=1.0) as client:
                    with mock.patch(what, side_effect=error), self.assertRaises((error, tabd.NotConnected)):
                        client.table("t").info("size")
                    self.assertEqual(client.table("t").info("size"), 0)

    def test_while_one_is_looked_at(self) -> None:
        for error in (Interrupted, ValueError):
            with mock.patch("tabd.connection.Connection.is_idle", side_effect=error), self.assertRaises(error):
                self.table.info("size")
            self.assertEqual(self.table.info("size"), 0)

    def test_while_a_reply_is_pending(self) -> None:
        calls = (lambda: self.table.info("size"), self.client.one_shot().read("t", 1).run, lambda: self.client.run(lambda t: t.read("t", 1)))
        for call in calls:
            with mock.patch("tabd.connection.Connection._next_reply", side_effect=Interrupted), self.assertRaises(Interrupted):
                call()
            self.assertEqual(self.table.info("size"), 0)

    def test_in_a_block(self) -> None:
        with self.assertRaises(Interrupted):
            with self.client.transaction() as t:
                t.write(("t", 1, 1))
                raise Interrupted()
        self.assertEqual(self.table.info("size"), 0)

    def test_interrupts_at_any_time(self) -> None:
        """A signal raises in the middle of whatever the client does."""

        def interrupt(*_: object) -> None:
            raise Interrupted()

        def work(number: int) -> None:
            with self.client.transaction() as t:
                t.write(("t", number, number))
            self.client.one_shot().read("t", number).run()

        self.addCleanup(signal.signal, signal.SIGALRM, signal.signal(signal.SIGALRM, interrupt))
        interrupted = 0
        for number in range(150):
            try:
                try:
                    signal.setitimer(signal.ITIMER_REAL, 0.0001 + (number % 40) * 0.00005)
                    for _ in range(50):
                        work(number)
                finally:
                    signal.setitimer(signal.ITIMER_REAL, 0)
            except Interrupted:
                interrupted += 1
            # Each interrupt may cost the connection, and the server serves so many in all.
            if interrupted == 40:
                break
        self.assertGreater(interrupted, 20)
        work(1)

    def test_more_descriptors_than_select_takes(self) -> None:
        soft, hard = resource.getrlimit(resource.RLIMIT_NOFILE)
        if hard != resource.RLIM_INFINITY and hard < 1200:
            self.skipTest("so many descriptors are not allowed here")
        resource.setrlimit(resource.RLIMIT_NOFILE, (max(soft, 1200), hard))
        self.addCleanup(resource.setrlimit, resource.RLIMIT_NOFILE, (soft, hard))
        with contextlib.ExitStack() as stack:
            for _ in range(1050):
                stack.callback(os.close, os.dup(0))
            with tabd.Client(self.client._address.port, connections=1, timeout=10.0, pool_timeout=2.0) as client:
                for _ in range(3):
                    self.assertEqual(client.table("t").info("size"), 0)
                self.assertEqual(client.run(lambda t: t.read("t", 1)), [])


if __name__ == "__main__":
    unittest.main()
