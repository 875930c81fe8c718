# SPDX-License-Identifier: Apache-2.0
"""`tabd-cli` where something is wrong: no server, one that goes away or says nothing, a full disk, a folder that can't be written, Ctrl-C.

Each command then writes one line on standard error, has status 1, or 130 after Ctrl-C, and loses nothing."""

from __future__ import annotations

import contextlib
import io
import os
import resource
import shutil
import signal
import socket
import subprocess
import sys
import tempfile
import threading
import time
import unittest
from typing import Any, Dict, Iterator, List, Optional, Tuple
from unittest import mock

from servers import HERE, PROGRAM, Server  # isort: skip (it makes `tabd` known)

from patience import SECONDS, Patient

import tabd
import tabd.cli.metrics
import tabd.cli.wire
import tabd.connection
from tabd.cli import main, parser

# Bytes of the greeting's reply.
GREETED = len(tabd.cli.wire.frame(("reply", ("error", "no_transaction"))))
RECORDS = 2000


def arguments(folder: str) -> Dict[str, List[str]]:
    """Right arguments of each command that asks the server, except keep."""
    whole, new = os.path.join(folder, "whole"), os.path.join(folder, "new")
    return {
        "read": ["t", "1"],
        "all": ["t"],
        "match": ["t", "_", "_"],
        "write": ["t", "1", "a"],
        "delete": ["t", "1"],
        "create": ["u"],
        "drop": ["gone"],
        "info": ["t"],
        "watch": ["t", "--dump", "--count", "1"],
        "bench": ["--seconds", "0.2", "--connections", "2"],
        "dump": [new, "t"],
        "restore": [whole],
    }


PAGES: Dict[str, List[str]] = {"tables": [], "top": ["--count", "2", "--every", "0.05"]}


def run(*words: str) -> Tuple[int, str, str]:
    """The status and both outputs."""
    out, err = io.StringIO(), io.StringIO()
    with contextlib.redirect_stdout(out), contextlib.redirect_stderr(err):
        status = main(list(words))
    return status, out.getvalue(), err.getvalue()


class Proxy:
    """Passes bytes between its clients and a server, until `limit` bytes came from the server. Then it ends all connections and takes no more;
    or, if it `stalls`, it passes nothing more on the connections that are open, and serves new ones."""

    def __init__(self, port: int, limit: Optional[int] = None, stalls: bool = False) -> None:
        self.server, self.limit, self.stalls = port, limit, stalls
        self.passed, self.reached = 0, threading.Event()
        self.guard = threading.Lock()
        self.sockets: List[socket.socket] = []
        self.listener = socket.create_server(("127.0.0.1", 0))
        self.port = self.listener.getsockname()[1]
        threading.Thread(target=self._accept, daemon=True).start()

    def __enter__(self) -> Proxy:
        return self

    def __exit__(self, *_: object) -> None:
        self.end()

    def end(self) -> None:
        for each in [self.listener, *self.sockets]:
            with contextlib.suppress(OSError):
                each.shutdown(socket.SHUT_RDWR)
            each.close()

    def _accept(self) -> None:
        with contextlib.suppress(OSError):
            while True:
                client, _ = self.listener.accept()
                server = socket.create_connection(("127.0.0.1", self.server))
                self.sockets += [client, server]
                is_free = self.reached.is_set()
                threading.Thread(target=self._copy, args=(client, server, True), daemon=True).start()
                threading.Thread(target=self._copy, args=(server, client, is_free), daemon=True).start()

    def _copy(self, source: socket.socket, target: socket.socket, is_free: bool) -> None:
        with contextlib.suppress(OSError):
            while True:
                data = source.recv(1 << 16)
                part = data if is_free else self._allowed(data)
                if part:
                    target.sendall(part)
                if len(part) < len(data) or self.limit == self.passed and not is_free:
                    self._reach()
                if not data and not (self.stalls and self.reached.is_set()):
                    with contextlib.suppress(OSError):
                        target.shutdown(socket.SHUT_WR)
                if not data:
                    return

    def _allowed(self, data: bytes) -> bytes:
        """What may still be passed."""
        with self.guard:
            part = data if self.limit is None else data[: self.limit - self.passed]
            self.passed += len(part)
        return part

    def _reach(self) -> None:
        self.reached.set()
        if not self.stalls:
            self.end()


def heed_interrupts() -> None:
    """A background job of a shell ignores SIGINT, and so does each process that it starts."""
    signal.signal(signal.SIGINT, signal.SIG_DFL)


@unittest.skipUnless(PROGRAM, "TABD names no program")
class Troubled(Patient):
    def setUp(self) -> None:
        self.folder = tempfile.mkdtemp()
        self.addCleanup(shutil.rmtree, self.folder)
        os.chmod(self.folder, 0o755)
        self.server = Server("--forever", "--batches", "--metrics", "0")
        self.addCleanup(self.server.kill)
        assert self.server.process.stdout is not None
        self.page = int(self.server.process.stdout.readline().rsplit(":", 1)[1])
        self.client = tabd.Client(self.server.port)
        self.addCleanup(self.client.close)
        self.words = arguments(self.folder)
        self.new = self.words["dump"][0]
        for table in ("t", "back"):
            self.client.create_table(table)
            for first in range(0, RECORDS, 500):
                shot = self.client.one_shot()
                for key in range(first, first + 500):
                    shot.write((table, key, b"v" * 40))
                shot.run()
        self.assertEqual(run("--server", str(self.server.port), "dump", self.words["restore"][0], "back")[0], 0)
        self.client.delete_table("back")
        self.prepare()

    def tables(self) -> List[str]:
        return [line.split("\t")[0] for line in run("tables", "--metrics", str(self.page))[1].splitlines()]

    def prepare(self) -> None:
        """What each command finds: a table to drop and none to create, an older file, and no table that is to be restored."""
        for name in ("gone", "u", "back"):
            with contextlib.suppress(tabd.NoExists):
                self.client.delete_table(name)
        self.client.create_table("gone")
        with open(self.new, "wb") as file:
            file.write(b"older")

    def check(self, found: Tuple[int, str, str], command: str, status: int = 1) -> None:
        """One line that begins with the command, and nothing lost."""
        got, _, err = found
        self.assertEqual((got, err.count("\n")), (status, 1), f"{command}: {found[2]!r}")
        self.assertTrue(err.startswith(f"tabd-cli {command}: "), err)
        self.assertEqual(self.client.table_info("t", "size"), RECORDS)
        self.assertEqual(sorted(os.listdir(self.folder)), ["new", "whole"], command)
        with open(self.new, "rb") as file:
            self.assertEqual(file.read(), b"older", command)

    def test_each_command_is_tried(self) -> None:
        commands: Any
        [commands] = [action.choices for action in parser()._actions if action.dest == "command"]
        self.assertEqual(sorted(commands), sorted([*self.words, *PAGES, "keep"]))

    # The server

    def test_server_goes_away(self) -> None:
        """At a few bytes of each command's replies."""
        for command, words in self.words.items():
            with Proxy(self.server.port) as proxy:
                self.assertEqual(run("--server", str(proxy.port), command, *words)[0], 0, command)
                # How many requests bench makes is not always the same.
                whole = proxy.passed if command != "bench" else 1000
            self.prepare()
            self.client.one_shot().write(("t", 1, b"v" * 40)).run()
            for limit in {0, 1, GREETED - 1, GREETED, GREETED + 1, (GREETED + whole) // 2, whole - 1}:
                with self.subTest(command, limit=limit), Proxy(self.server.port, limit) as proxy:
                    found = run("--server", str(proxy.port), command, *words)
                    self.client.one_shot().write(("t", 1, b"v" * 40)).run()
                    self.check(found, command)
                    self.prepare()

    def test_page_goes_away(self) -> None:
        for command, words in PAGES.items():
            with Proxy(self.page) as proxy:
                self.assertEqual(run(command, "--metrics", str(proxy.port), *words)[0], 0)
                whole = proxy.passed
            for limit in (0, 1, whole // 3, whole - 1):
                with self.subTest(command, limit=limit), Proxy(self.page, limit) as proxy:
                    self.check(run(command, "--metrics", str(proxy.port), *words), command)

    def requests(self, port: int) -> Iterator[Tuple[str, Tuple[int, str, str]]]:
        """What each command gives if its server is at the port."""
        for command, words in self.words.items():
            yield command, run("--server", str(port), command, *words)

    def pages(self, port: int) -> Iterator[Tuple[str, Tuple[int, str, str]]]:
        """The same of those that read the page of metrics."""
        for command, words in PAGES.items():
            yield command, run(command, "--metrics", str(port), *words)

    def test_no_server(self) -> None:
        for command, found in (*self.requests(1), *self.pages(1)):
            self.check(found, command)
            self.assertIn("Connection refused", found[2])

    def test_another_server(self) -> None:
        """A page of metrics in the server's place, and the server in the page's."""
        for command, found in self.requests(self.page):
            self.check(found, command)
            self.assertIn("or is no tabd server", found[2])
        for command, found in self.pages(self.server.port):
            self.check(found, command)
            self.assertIn("is no page of metrics", found[2])

    def test_silent_server(self) -> None:
        with socket.create_server(("127.0.0.1", 0)) as silent, contextlib.ExitStack() as patches:
            for module, name in ((tabd.connection, "OPENING_SECONDS"), (tabd.cli.wire, "OPENING_SECONDS"), (tabd.cli.metrics, "SECONDS")):
                patches.enter_context(mock.patch.object(module, name, 0.1))
            port = silent.getsockname()[1]
            for command, found in (*self.requests(port), *self.pages(port)):
                self.check(found, command)
                self.assertRegex(found[2], "did not answer within 0.1 s|timed out")

    # Ctrl-C

    def started(self, *words: str, **more: Any) -> subprocess.Popen[str]:
        command = [sys.executable, "-m", "tabd", *words]
        pipes: Dict[str, Any] = {"stdout": subprocess.PIPE, "stderr": subprocess.PIPE, "preexec_fn": heed_interrupts, **more}
        return subprocess.Popen(command, cwd=os.path.join(HERE, ".."), text=True, start_new_session=True, **pipes)

    def interrupted(self, number: int, proxy: Proxy, *words: str) -> Tuple[int, str, str]:
        """What a command gives that gets a signal while it waits for a reply."""
        with self.started(*words) as process:
            self.assertTrue(proxy.reached.wait(SECONDS), words)
            time.sleep(0.02)
            # As the terminal does it: to all processes of the command.
            os.killpg(process.pid, number)
            try:
                out, err = process.communicate(timeout=SECONDS)
            finally:
                process.kill()
        return process.returncode, out, err

    def test_interrupt(self) -> None:
        for command, words in self.words.items():
            # A reply after the greeting's, and for those with many a later one.
            limit = {"all": 40_000, "restore": 120, "dump": 40_000, "watch": 40_000, "bench": 400}.get(command, GREETED)
            with self.subTest(command), Proxy(self.server.port, limit, stalls=True) as proxy:
                found = self.interrupted(signal.SIGINT, proxy, "--server", str(proxy.port), command, *words)
                self.client.one_shot().write(("t", 1, b"v" * 40)).run()
                self.check(found, command, 130)
                self.assertEqual(found[2], f"tabd-cli {command}: interrupted\n")
                # A creation and a deletion may have been done.
                self.assertEqual([name for name in self.tables() if name not in ("u", "gone")], ["t"])
                self.prepare()
        for command, words in PAGES.items():
            with self.subTest(command), Proxy(self.page, 100, stalls=True) as proxy:
                self.check(self.interrupted(signal.SIGINT, proxy, command, "--metrics", str(proxy.port), *words), command, 130)

    def test_terminated(self) -> None:
        """SIGTERM leaves no part of a file, and no table."""
        for command, limit in (("dump", 40_000), ("restore", 120), ("bench", 400)):
            with self.subTest(command), Proxy(self.server.port, limit, stalls=True) as proxy:
                found = self.interrupted(signal.SIGTERM, proxy, "--server", str(proxy.port), command, *self.words[command])
            self.assertEqual(found, (128 + signal.SIGTERM, "", ""))
            self.assertEqual(sorted(os.listdir(self.folder)), ["new", "whole"])
            self.assertEqual(self.tables(), ["gone", "t"])

    def test_keeper_waits_for_a_server(self) -> None:
        """It goes on without a server, until Ctrl-C."""
        with self.started("--server", "1", "keep", os.path.join(self.folder, "kept"), "t") as process:
            assert process.stderr is not None
            line = process.stderr.readline()
            self.assertEqual(line, "tabd-cli keep: no connection to 127.0.0.1:1: Connection refused; tries again\n")
            os.killpg(process.pid, signal.SIGINT)
            self.assertEqual(process.communicate(timeout=SECONDS), ("", "tabd-cli keep: interrupted\n"))
        self.assertEqual(process.returncode, 130)

    # Files and streams

    def test_dump_to_a_full_disk(self) -> None:
        for size in (0, 1, 100, 50_000):
            with self.subTest(size), smaller_files(size):
                found = run("--server", str(self.server.port), "dump", *self.words["dump"])
            self.check(found, "dump")
            self.assertIn(f"{self.new}: File too large", found[2])

    def test_keep_on_a_full_disk(self) -> None:
        """Nothing that was acknowledged is missing in what is restored from the folder."""
        folder = os.path.join(self.folder, "kept")
        port = str(self.server.port)
        self.client.create_table("k")
        for size in (0, 20, 150, 1000, 20_000):
            with self.subTest(size), smaller_files(size), Writing(self.server.port) as writing:
                status, out, err = run("--server", port, "keep", folder, "k")
            self.assertEqual((status, err.count("\n")), (1, 1), err)
            self.assertRegex(err, f"^tabd-cli keep: {folder}/.*: File too large\n")
            acknowledged = max([int(line.split()[1]) for line in out.splitlines()], default=0)
            self.assertEqual(acknowledged > 0, size >= 1000, out)
            if acknowledged:
                self.assertEqual(self.restored(folder), writing.last(self.restored_commit))
                self.assertGreaterEqual(self.restored_commit, acknowledged)
            shutil.rmtree(folder)
            # The next folder's keeper has the same name.
            with contextlib.suppress(tabd.NoExists):
                self.client.delete_table("tabd_kept")

    def restored(self, folder: str) -> int:
        """The number in the table that a keeper of the folder restores to another server."""
        with Server("--forever", "--batches") as other, self.started("--server", str(other.port), "keep", folder, "k") as process:
            assert process.stdout is not None
            self.restored_commit = int(process.stdout.readline().split()[1])
            process.kill()
            with tabd.Client(other.port) as client:
                [found] = client.one_shot().read("k", 0).run()
        return int(found[0][2]) if found else 0

    def test_folder_that_cannot_be_written(self) -> None:
        closed = os.path.join(self.folder, "closed")
        os.mkdir(closed)
        os.chmod(closed, 0o555)
        secret = os.path.join(self.folder, "secret")
        with open(secret, "wb"):
            os.chmod(secret, 0)
        cases = (("dump", os.path.join(closed, "x"), "t"), ("keep", closed, "t"), ("keep", os.path.join(closed, "k"), "t"), ("restore", secret))
        for words in cases:
            with self.subTest(words), another_user():
                status, _, err = run("--server", str(self.server.port), *words)
            self.assertEqual((status, err.count("\n")), (1, 1), err)
            self.assertRegex(err, f"^tabd-cli {words[0]}: {words[1]}.*: Permission denied\n")

    def test_names_of_files(self) -> None:
        """Names that are a folder or a device, or in no folder."""
        nowhere = os.path.join(self.folder, "none", "x")
        cases = (
            (("dump", self.folder, "t"), f"dump: {self.folder} is no regular file"),
            (("dump", "/dev/null", "t"), "dump: /dev/null is no regular file"),
            (("keep", self.folder, "t"), f"keep: {self.folder} has other files, and no keeper's: take an empty folder"),
            (("dump", nowhere, "t"), f"dump: {nowhere}: No such file or directory"),
            (("restore", self.folder), f"restore: {self.folder}: Is a directory"),
            (("restore", nowhere), f"restore: {nowhere}: No such file or directory"),
            (("keep", self.new, "t"), f"keep: {self.new}: File exists"),
            (("keep", "", "t"), "keep: '': No such file or directory"),
        )
        for words, wanted in cases:
            found = run("--server", str(self.server.port), *words)
            self.assertEqual(found, (1, "", f"tabd-cli {wanted}\n"))
        self.assertEqual(sorted(os.listdir(self.folder)), ["new", "whole"])

    def test_output_that_cannot_be_written(self) -> None:
        server = ("--server", str(self.server.port))
        page = ("--metrics", str(self.page))
        self.client.create_table("k")
        commands = (
            (*server, "all", "t"),
            (*server, "info", "t"),
            (*server, "watch", *self.words["watch"]),
            (*server, "keep", os.path.join(self.folder, "kept"), "k"),
            ("tables", *page),
        )
        for words in commands:
            command = words[0] if words[0] in PAGES else words[2]
            with self.subTest(command), open("/dev/full", "wb") as full, self.started(*words, stdout=full) as process:
                _, err = process.communicate(timeout=SECONDS)
                self.assertEqual((process.returncode, err), (1, f"tabd-cli {command}: standard output: No space left on device\n"))
        with self.started(*server, "info", "t", preexec_fn=lambda: os.close(1)) as process:
            _, err = process.communicate(timeout=SECONDS)
            self.assertEqual((process.returncode, err), (1, "tabd-cli info: standard output is closed\n"))
        with self.started(*server, "all", "t") as process:
            assert process.stdout is not None
            process.stdout.readline()
            process.stdout.close()
            self.assertEqual(process.stderr and process.stderr.read(), "")
        self.assertEqual(process.returncode, 1)


class Writing(threading.Thread):
    """Adds one to a number in the table `k`, one commit each, until the block ends."""

    def __init__(self, port: int) -> None:
        super().__init__(daemon=True)
        self.client, self.stopping = tabd.Client(port), threading.Event()
        self.values: List[Tuple[int, int]] = []

    def __enter__(self) -> Writing:
        self.start()
        return self

    def __exit__(self, *_: object) -> None:
        self.stopping.set()
        self.join()
        self.client.close()

    def run(self) -> None:
        while not self.stopping.is_set():
            transaction = self.client.run(self.change)
            assert transaction.commit is not None
            self.values.append((transaction.commit, len(self.values) + 1))
            time.sleep(0.001)

    def change(self, t: tabd.Transaction) -> tabd.Transaction:
        t.write(("k", 0, len(self.values) + 1))
        return t

    def last(self, commit: int) -> int:
        """The number as of this commit."""
        return max([value for number, value in self.values if number <= commit], default=0)


@contextlib.contextmanager
def smaller_files(size: int) -> Iterator[None]:
    """No file can have more bytes, as on a disk with no more room. Python ignores the signal of it."""
    soft, hard = resource.getrlimit(resource.RLIMIT_FSIZE)
    resource.setrlimit(resource.RLIMIT_FSIZE, (size, hard))
    try:
        yield
    finally:
        resource.setrlimit(resource.RLIMIT_FSIZE, (soft, hard))


@contextlib.contextmanager
def another_user() -> Iterator[None]:
    """A user without root's rights."""
    user = os.geteuid()
    if user == 0:
        os.seteuid(65534)
    try:
        yield
    finally:
        os.seteuid(user)


if __name__ == "__main__":
    unittest.main()
