# SPDX-License-Identifier: Apache-2.0
"""`tabd-cli dump` and `restore`: with concurrent writers, with files that were cut or changed, and with tables that are hard to write again.

TABD_LONG=1 takes 100 dumps, and measures a million records."""

from __future__ import annotations

import contextlib
import io
import json
import os
import pty
import random
import shutil
import subprocess
import sys
import tempfile
import threading
import time
import unittest
from typing import Any, Dict, List, Tuple
from unittest import mock

from servers import HERE, PROGRAM, Server, read  # isort: skip (it makes `tabd` known)

from patience import Patient

import tabd
import tabd.cli.dump
from tabd.cli import main

LONG = bool(os.environ.get("TABD_LONG"))
DUMPS = 100 if LONG else 5
WRITERS, ACCOUNTS, EACH = 8, 100, 100
# So long a writer that nothing holds up may take.
PATIENCE = 1.0


def run(*words: str) -> Tuple[int, str, str]:
    """The status and both outputs."""
    out, err = io.StringIO(), io.StringIO()
    with contextlib.redirect_stdout(out), contextlib.redirect_stderr(err):
        status = main(list(words))
    return status, out.getvalue(), err.getvalue()


def frames_of(path: str) -> List[Any]:
    """The terms of a file of frames, read by the examples' own reader."""
    found = []
    with open(path, "rb") as file:
        while True:
            length = file.read(4)
            if not length:
                return found
            payload = io.BytesIO(file.read(int.from_bytes(length, "big")))
            assert payload.read(1) == b"\x83"
            found.append(read(payload))


class Writer(threading.Thread):
    """Moves money between two tables, and counts in both; notes the number of each commit and its count."""

    def __init__(self, port: int, number: int, stopping: threading.Event) -> None:
        super().__init__(daemon=True)
        self.client = tabd.Client(port, connections=1)
        self.number, self.stopping, self.chance = number, stopping, random.Random(number)
        self.commits: List[Tuple[int, int]] = []

    def run(self) -> None:
        with self.client:
            while not self.stopping.is_set():
                transaction = self.client.run(self.change)
                assert transaction.commit is not None
                self.commits.append((transaction.commit, len(self.commits) + 1))

    def change(self, t: tabd.Transaction) -> tabd.Transaction:
        one, other = self.chance.randrange(ACCOUNTS), self.chance.randrange(ACCOUNTS)
        [(_, _, money)] = t.wread("a", one)
        t.write(("a", one, money - 1))
        [(_, _, money)] = t.wread("b", ("k", other))
        t.delete_object(("b", ("k", other), money))
        t.write(("b", ("k", other), money + 1))
        t.write(("count", self.number, len(self.commits) + 1))
        return t


@unittest.skipUnless(PROGRAM, "TABD names no program")
class Dumped(Patient):
    words: Tuple[str, ...] = ("--forever",)

    def setUp(self) -> None:
        self.folder = tempfile.mkdtemp()
        self.addCleanup(shutil.rmtree, self.folder)
        self.path = os.path.join(self.folder, "x.tabd")
        self.server = self.start(*self.words)

    def start(self, *words: str) -> Server:
        server = Server(*words, connections=32)
        self.addCleanup(server.kill)
        variables = mock.patch.dict(os.environ, {"TABD_SERVER": str(server.port)})
        variables.start()
        self.addCleanup(variables.stop)
        return server

    def client(self, server: Server) -> tabd.Client:
        client = tabd.Client(server.port)
        self.addCleanup(client.close)
        return client

    def good(self, *words: str) -> str:
        status, out, err = run(*words)
        self.assertEqual((status, err), (0, ""))
        return out


def bank(client: tabd.Client) -> None:
    client.create_table("a")
    client.create_table("b", type="bag", index=["val"])
    client.create_table("count")
    shot = client.one_shot()
    for number in range(ACCOUNTS):
        shot.write(("a", number, EACH)).write(("b", ("k", number), EACH))
    for number in range(WRITERS):
        shot.write(("count", number, 0))
    shot.run()


class Beside(Dumped):
    def check(self, writers: List[Writer], commit: int) -> None:
        """The file has the tables as of this commit."""
        found = frames_of(self.path)
        tables: Dict[str, List[Any]] = {frame[1]: frame[3] for frame in found if frame[0] == "mnesia_table_begin"}
        self.assertEqual(found[-2], ("commit", commit))
        self.assertEqual([len(tables[name]) for name in ("a", "b", "count")], [ACCOUNTS, ACCOUNTS, WRITERS])
        self.assertEqual(sum(record[2] for record in tables["a"] + tables["b"]), 2 * ACCOUNTS * EACH)
        for _, number, count in tables["count"]:
            for made, value in list(writers[number].commits):
                self.assertEqual(made <= commit, value <= count)

    def beside(self, times: int) -> None:
        bank(self.client(self.server))
        stopping = threading.Event()
        writers = [Writer(self.server.port, number, stopping) for number in range(WRITERS)]
        for writer in writers:
            writer.start()
        begun = time.monotonic()
        try:
            for _ in range(times):
                made = json.loads(self.good("dump", self.path, "a", "b", "count", "--json"))
                self.assertEqual(made["records"], 2 * ACCOUNTS + WRITERS)
                self.check(writers, made["commit"])
            seconds = time.monotonic() - begun
        finally:
            stopping.set()
            for writer in writers:
                writer.join()
        self.check(writers, made["commit"])
        commits = sum(len(writer.commits) for writer in writers)
        self.assertGreater(commits, 0)
        if LONG:
            print(f"\n{times} dumps with {WRITERS} writers: {seconds / times:.3f} s each, {commits / seconds:.0f} commits a second")

    def test_beside_writers(self) -> None:
        self.beside(DUMPS)


class BesideNarrow(Beside):
    """If the outbox has room for one marker, the tables are subscribed to one by one."""

    words = ("--forever", "--outbox", "1")

    def test_beside_writers(self) -> None:
        self.beside(DUMPS // 5)

    def test_no_commit_between_two_tables(self) -> None:
        """A writer that comes between the first table and the second has to wait for the dump's end."""
        client = self.client(self.server)
        bank(client)
        threads: List[threading.Thread] = []

        def move(t: tabd.Transaction) -> None:
            t.write(("a", 0, EACH - 1))
            t.delete("b", ("k", 0))
            t.write(("b", ("k", 0), EACH + 1))

        def request(name: str) -> Any:
            if name == "b" and not threads:
                threads.append(threading.Thread(target=client.run, args=(move,)))
                threads[0].start()
                threads[0].join(PATIENCE)
            return ("subscribe", ("table", name, "simple"), "dump")

        with mock.patch.object(tabd.cli.dump.Taking, "_together", tabd.cli.dump.Taking._singly):
            with mock.patch.object(tabd.cli.dump.Taking, "_request", staticmethod(request)):
                self.good("dump", self.path, "a", "b")
        threads[0].join()
        records = [record for frame in frames_of(self.path) if frame[0] == "mnesia_table_begin" for record in frame[3]]
        self.assertEqual(len(records), 2 * ACCOUNTS)
        self.assertEqual(sum(record[2] for record in records), 2 * ACCOUNTS * EACH)
        # It was done after the dump.
        self.assertEqual(client.one_shot().read("a", 0).read("b", ("k", 0)).run(), [[("a", 0, EACH - 1)], [("b", ("k", 0), EACH + 1)]])


def deep(levels: int) -> Any:
    """A term of so many levels."""
    term: Any = 1
    for _ in range(levels - 1):
        term = [term]
    return term


# A record has one level more than its deepest element; 63 is what `write` takes by itself, and a one-shot takes 61.
HARD = [("hard", 1, deep(62)), ("hard", 2, deep(60)), ("hard", 3, b"x" * 1_048_500), ("hard", 4, {"a": [tabd.Pairs((([1], {}),))]})]


class Restored(Dumped):
    def fill(self, client: tabd.Client) -> None:
        client.create_table("empty")
        client.create_table("bag", ["k", "v", "w"], "bag", index=["w", "v"])
        client.create_table("hard")
        client.create_table("many")
        shot = client.one_shot()
        for number in range(300):
            shot.write(("bag", number % 3, 1000 - number, b"v"))
        shot.run()
        with client.transaction() as t:
            # Of one key, the longest between two short ones: the first is sent with others.
            for value in (b"before", b"x" * 1_048_450, b"behind"):
                t.write(("bag", 1, value, b"v"))
            for record in HARD:
                t.write(record)
        # So many that requests are under way when the next table is made.
        for first in range(0, 4000, 500):
            shot = client.one_shot()
            for number in range(first, first + 500):
                shot.write(("many", number, b"v" * 100))
            shot.run()

    def contents(self, client: tabd.Client) -> Any:
        names = ("empty", "bag", "many", "hard")
        found: Dict[str, Any] = {}
        for name in names:
            with client.events(name, dump=True) as events:
                found[name] = events.next()
        return [(found[name], [client.table_info(name, item) for item in ("type", "attributes", "index", "size")]) for name in names]

    def test_all_is_restored(self) -> None:
        client = self.client(self.server)
        self.fill(client)
        before = self.contents(client)
        self.good("dump", self.path, "empty", "bag", "many", "hard")
        status, _, err = run("restore", self.path)
        self.assertEqual(status, 1)
        self.assertIn("already", err)
        other = self.start("--forever")
        self.good("restore", self.path)
        self.assertEqual(self.contents(self.client(other)), before)
        self.client(other).one_shot().delete("bag", 0).write(("hard", 9, 9)).run()
        self.good("restore", self.path, "--replace")
        self.assertEqual(self.contents(self.client(other)), before)

    def test_dump_is_whole_or_not_there(self) -> None:
        self.client(self.server).create_table("t")
        status, _, err = run("dump", self.path, "t", "missing")
        self.assertEqual((status, os.listdir(self.folder)), (1, []))
        self.assertIn("{no_exists,missing}", err)
        with open(self.path, "wb") as file:
            file.write(b"as it was")
        self.assertEqual(run("dump", self.path, "t", "missing")[0], 1)
        with open(self.path, "rb") as file:
            self.assertEqual(file.read(), b"as it was")
        self.assertEqual(os.listdir(self.folder), ["x.tabd"])

    def test_damage_is_refused(self) -> None:
        """Cut at 200 offsets and with one byte changed at 200 offsets, among them those at the ends of frames."""
        client = self.client(self.server)
        client.create_table("t")
        shot = client.one_shot()
        for number in range(100):
            shot.write(("t", number, b"v" * 20))
        shot.run()
        self.good("dump", self.path, "t")
        with open(self.path, "rb") as file:
            whole = file.read()
        client.delete_table("t")
        chance = random.Random(5)
        places = {*range(60), *range(len(whole) - 70, len(whole)), *chance.sample(range(len(whole)), 90)}
        damaged = [whole[:at] for at in places] + [whole + b"\0", whole + whole]
        damaged += [whole[:at] + bytes([whole[at] ^ (1 << chance.randrange(8))]) + whole[at + 1 :] for at in places]
        self.assertGreaterEqual(len(damaged), 400)
        for data in damaged:
            with open(self.path, "wb") as file:
                file.write(data)
            status, _, err = run("restore", self.path, "--replace")
            self.assertEqual((status, err.count("\n")), (1, 1), err)
            self.assertIn("cut or altered", err)
        with self.assertRaises(tabd.NoExists):
            client.table_info("t", "size")
        client.create_table("t")
        self.assertEqual(client.table_info("t", "size"), 0)

    def shown(self, *words: str) -> str:
        """What a command writes to a terminal on standard error."""
        terminal, end = pty.openpty()
        with subprocess.Popen([sys.executable, "-m", "tabd", *words], cwd=os.path.join(HERE, ".."), stdout=subprocess.DEVNULL, stderr=end):
            os.close(end)
            text = b""
            # The terminal's last reader gets an error.
            with contextlib.suppress(OSError):
                while True:
                    text += os.read(terminal, 1 << 16)
        os.close(terminal)
        return text.decode()

    def test_progress(self) -> None:
        """On a terminal; the line is cleared in the end."""
        client = self.client(self.server)
        self.fill(client)
        shown = self.shown("dump", self.path, "many", "bag")
        self.assertIn("\rmany: 100 % of 4000 records\x1b[K", shown)
        self.assertTrue(shown.endswith("\r\x1b[K"), shown)
        for name in ("many", "bag"):
            client.delete_table(name)
        shown = self.shown("restore", self.path)
        self.assertIn("\r4303 of 4303 records\x1b[K", shown)
        self.assertTrue(shown.endswith("\r\x1b[K"), shown)

    def test_failed_restore_leaves_nothing(self) -> None:
        """The second table can't be created if the server has 256."""
        client = self.client(self.server)
        for name in ("one", "two"):
            client.create_table(name)
            client.one_shot().write((name, 1, 1)).run()
        self.good("dump", self.path, "one", "two")
        client.delete_table("one")
        client.delete_table("two")
        for number in range(255):
            client.create_table(f"t{number}")
        status, _, err = run("restore", self.path)
        self.assertEqual(status, 1)
        self.assertIn("system_limit", err)
        for name in ("one", "two"):
            with self.assertRaises(tabd.NoExists):
                client.table_info(name, "size")


@unittest.skipUnless(LONG, "TABD_LONG is not set")
class Million(Dumped):
    def measured(self, *words: str) -> Tuple[float, float]:
        """The seconds and the MB of a command."""
        program = "import resource, sys, tabd.cli\nsys.exit(tabd.cli.main() or print(resource.getrusage(resource.RUSAGE_SELF).ru_maxrss))"
        command = [sys.executable, "-c", program]
        begun = time.monotonic()
        done = subprocess.run([*command, *words], cwd=os.path.join(HERE, ".."), stdout=subprocess.PIPE, text=True, check=True)
        return time.monotonic() - begun, int(done.stdout.split()[-1]) / 1024

    def test_memory(self) -> None:
        client = self.client(self.server)
        client.create_table("t")
        for first in range(0, 1_000_000, 900):
            shot = client.one_shot()
            for number in range(first, min(first + 900, 1_000_000)):
                shot.write(("t", number, b"v" * 40))
            shot.run()
        dumped = self.measured("dump", self.path, "t")
        client.delete_table("t")
        restored = self.measured("restore", self.path)
        self.assertEqual(client.table_info("t", "size"), 1_000_000)
        self.assertLess(max(dumped[1], restored[1]), 200)
        print("\na million records: dump %.1f s, %.0f MB; restore %.1f s, %.0f MB" % (*dumped, *restored))


if __name__ == "__main__":
    unittest.main()
