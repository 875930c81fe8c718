# SPDX-License-Identifier: Apache-2.0
"""`tabd-cli keep` with concurrent writers, while the server and the keeper are killed and started again.

Each test kills 5 times, or so often as the variable TABD_KILLS says, and TABD_LONG=1 prints figures: `TABD_LONG=1 TABD_KILLS=50`."""

from __future__ import annotations

import contextlib
import io
import os
import random
import shutil
import subprocess
import sys
import tempfile
import threading
import time
import unittest
from typing import Any, Callable, Dict, Iterator, List, Optional, Tuple
from unittest import mock

from servers import HERE, PROGRAM, Server  # isort: skip (it makes `tabd` known)

from patience import SECONDS, Patient

import tabd
import tabd.cli.keep
from tabd.cli.common import Failure
from tabd.cli.dump import Taking
from tabd.cli.keep import Keeper, Settings
from tabd.cli.store import Store
from tabd.cli.wire import Batch, Wire, frame

LONG = bool(os.environ.get("TABD_LONG"))
KILLS = int(os.environ.get("TABD_KILLS", "5"))
WRITERS, ACCOUNTS, EACH = 4, 200, 100
# So little a log may have that new dumps are taken all the time, and a kill may come within one.
COMPACT = ("--compact-at", "0.02")


class Keeping:
    """A keeper as a process, and the lines that all keepers of a test have written."""

    def __init__(self, port: int, folder: str, lines: List[str], *words: str) -> None:
        self.lines = lines
        command = [sys.executable, "-m", "tabd", "--server", str(port), "keep", folder, "a", "b", "bank", *words]
        self.process = subprocess.Popen(
            command, cwd=os.path.join(HERE, ".."), stdout=subprocess.PIPE, stderr=subprocess.PIPE, text=True
        )
        self.reader = threading.Thread(target=self._read)
        self.reader.start()

    def _read(self) -> None:
        assert self.process.stdout is not None
        for line in self.process.stdout:
            self.lines.append(line)

    def kill(self) -> str:
        """What it wrote on standard error."""
        self.process.kill()
        assert self.process.stderr is not None and self.process.stdout is not None
        text = self.process.stderr.read()
        self.process.wait()
        self.reader.join()
        self.process.stderr.close()
        self.process.stdout.close()
        return text


class Writer(threading.Thread):
    """Adds one to a number, in two tables at once, and moves money; notes the number of each commit. `value` is the tables' number as of the
    last commit that had a reply, and `unknown` whether a commit was under way when the connection ended."""

    def __init__(self, test: "Kept", number: int, seed: int) -> None:
        super().__init__(daemon=True)
        self.test, self.number, self.chance = test, number, random.Random(seed)
        self.commits: List[Tuple[int, int]] = []

    def run(self) -> None:
        while not self.test.stopping.is_set():
            self.test.may_write.wait()
            with contextlib.suppress(tabd.Closed, tabd.NoExists):
                with tabd.Client(self.test.port, connections=1) as client:
                    while self.test.may_write.is_set() and not self.test.stopping.is_set():
                        self.change(client)
            time.sleep(0.01)

    def change(self, client: tabd.Client) -> None:
        done: List[Tuple[tabd.Transaction, int]] = []

        def whole(t: tabd.Transaction) -> None:
            done.clear()
            [(_, _, value)] = t.wread("a", self.number)
            t.write(("a", self.number, value + 1))
            t.delete_object(("b", self.number, value))
            t.write(("b", self.number, value + 1))
            one, other = self.chance.sample(range(ACCOUNTS), 2)
            for account, by in ((one, -1), (other, 1)):
                [(_, _, money)] = t.wread("bank", account)
                t.write(("bank", account, money + by))
            done.append((t, value + 1))

        client.run(whole)
        [(transaction, value)] = done
        assert transaction.commit is not None
        self.commits.append((transaction.commit, value))


@unittest.skipUnless(PROGRAM, "TABD names no program")
class Kept(Patient):
    def setUp(self) -> None:
        self.folder = tempfile.mkdtemp()
        self.lines: List[str] = []
        self.stopping, self.may_write = threading.Event(), threading.Event()
        self.server = Server("--forever", "--batches", "--outbox", "65536", connections=16)
        self.port = self.server.port
        self.keeper: Optional[Keeping] = None
        self.words: Tuple[str, ...] = ()
        with tabd.Client(self.port) as client:
            client.create_table("a")
            client.create_table("b", type="bag", index=["val"])
            client.create_table("bank")
            shot = client.one_shot()
            for number in range(WRITERS):
                shot.write(("a", number, 0)).write(("b", number, 0))
            for account in range(ACCOUNTS):
                shot.write(("bank", account, EACH))
            shot.run()

    def tearDown(self) -> None:
        self.stopping.set()
        self.may_write.set()
        self.server.kill()
        if self.keeper is not None:
            self.keeper.kill()
        shutil.rmtree(self.folder)

    def keep(self) -> None:
        self.keeper = Keeping(self.port, self.folder, self.lines, *self.words)

    def restart_keeper(self) -> None:
        assert self.keeper is not None
        self.keeper.kill()
        self.keep()

    def wait_live(self, port: int, keeper: Optional[Keeping]) -> None:
        """Until the keeper has marked the server."""
        assert keeper is not None
        deadline = time.monotonic() + SECONDS
        while time.monotonic() < deadline:
            with contextlib.suppress(tabd.Closed, tabd.NoExists), tabd.Client(port, connections=1) as client:
                [marks] = client.one_shot().read("tabd_kept", "keep").run()
                if marks and marks[0][2][0] == "live":
                    return
            self.assertIsNone(keeper.process.poll(), "the keeper has ended")
            time.sleep(0.02)
        self.fail(f"the server is not marked live; the keeper wrote {keeper.lines[-5:]}")

    @staticmethod
    def contents(port: int) -> Dict[str, List[tabd.Record]]:
        with tabd.Client(port, connections=1) as client:
            return client.run(lambda t: {name: t.match_object((name, "_", "_")) for name in ("a", "b", "bank")})

    def check(self, found: Dict[str, List[tabd.Record]], writers: List[Writer], commit: int) -> None:
        """The tables are those of the commit with this number, of the run in which the writers' commits were."""
        self.assertEqual(sum(record[2] for record in found["bank"]), ACCOUNTS * EACH)
        self.assertEqual([record[1:] for record in found["a"]], [record[1:] for record in found["b"]])
        for writer, (_, _, value) in zip(writers, found["a"]):
            for number, wrote in list(writer.commits):
                self.assertEqual(number <= commit, wrote <= value, f"commit {number} wrote {wrote}, and {value} is there behind commit {commit}")

    def kill_and_start(self, chance: random.Random, kill_keeper: bool) -> None:
        """Kills the server, and starts it again; then the keeper too, while the server is down or while it is restored."""
        assert self.keeper is not None
        while_down = kill_keeper and chance.random() < 0.5
        if kill_keeper and chance.random() < 0.3:
            self.restart_keeper()
            time.sleep(chance.random() * 0.4)
        self.server.kill()
        self.may_write.clear()
        if while_down:
            self.restart_keeper()
        self.server = Server("--forever", "--batches", "--outbox", "65536", connections=16, port=self.port)
        if kill_keeper and not while_down:
            time.sleep(chance.random() * 0.5)
            self.restart_keeper()
        self.wait_live(self.port, self.keeper)

    def wait_for(self, writers: List[Writer], commits: int) -> None:
        """Until they have made so many commits in all."""
        deadline = time.monotonic() + SECONDS
        while sum(len(writer.commits) for writer in writers) < commits:
            self.assertLess(time.monotonic(), deadline, "the writers make no commits")
            time.sleep(0.001)

    def started(self, seed: int) -> List[Writer]:
        """A keeper and the writers."""
        self.keep()
        self.wait_live(self.port, self.keeper)
        writers = [Writer(self, number, seed + number) for number in range(WRITERS)]
        for writer in writers:
            writer.start()
        return writers

    def rounds(self, seed: int, kill_keeper: bool) -> None:
        chance = random.Random(seed)
        writers = self.started(seed)
        acknowledged = lost = 0
        for kill in range(1, KILLS + 1):
            before = len(self.lines)
            self.may_write.set()
            self.wait_for(writers, chance.randrange(20, 200))
            self.kill_and_start(chance, kill_keeper)
            restored = next(at for at in range(before, len(self.lines)) if self.lines[at].startswith("restored"))
            # The lines of this run come after the previous restore.
            since = max([at for at in range(restored) if self.lines[at].startswith("restored")], default=-1) + 1
            kept = [int(line.split()[1]) for line in self.lines[since:restored]]
            commit = int(self.lines[restored].split()[1])
            self.assertGreaterEqual(commit, max(kept))
            self.check(self.contents(self.port), writers, commit)
            acknowledged += sum(number <= commit for writer in writers for number, _ in writer.commits)
            lost += sum(number > commit for writer in writers for number, _ in writer.commits)
            for writer in writers:
                writer.commits.clear()
            if LONG:
                print(kill, end=" ", flush=True)
        if LONG:
            print(f"\n{KILLS} kills{' of server and keeper' if kill_keeper else ''}: {acknowledged} commits restored, {lost} answered and lost")
        self.assertGreater(acknowledged, 0)

    def test_server_is_killed(self) -> None:
        self.rounds(1, False)

    def test_keeper_is_killed_too(self) -> None:
        self.words = COMPACT
        self.rounds(2, True)

    def test_keeper_is_killed(self) -> None:
        """The server goes on. After each kill the folder is restored to another server."""
        chance = random.Random(3)
        self.words = COMPACT
        writers = self.started(3)
        self.may_write.set()
        restored = 0
        for kill in range(1, KILLS + 1):
            if chance.random() < 0.3:
                # While it starts, or takes its first dump.
                time.sleep(chance.random() * 0.5)
            else:
                self.wait_for_lines(len(self.lines) + chance.randrange(1, 40))
                time.sleep(chance.random() * 0.1)
            assert self.keeper is not None
            self.keeper.kill()
            kept = self.last_kept()
            commit, found = self.elsewhere()
            self.assertGreaterEqual(commit, max(kept, restored))
            self.check(found, writers, commit)
            restored = commit
            # Every other keeper gathers commits.
            self.words = COMPACT + (("--every", "20") if kill % 2 else ())
            self.keep()
            if LONG:
                print(kill, end=" ", flush=True)
        # Later commits follow.
        last = max(number for writer in writers for number, _ in writer.commits)
        while self.last_kept() <= last:
            self.wait_for_lines(len(self.lines) + 1)
        if LONG:
            print(f"\n{KILLS} kills of the keeper: {len(self.lines)} lines of what was kept, up to commit {self.last_kept()}")

    def wait_for_lines(self, count: int) -> None:
        """Until the keepers have written so many lines in all."""
        deadline = time.monotonic() + SECONDS
        while len(self.lines) < count:
            self.assertLess(time.monotonic(), deadline, "nothing more is kept")
            time.sleep(0.001)

    def last_kept(self) -> int:
        return max(int(line.split()[1]) for line in self.lines if line.startswith("kept "))

    def elsewhere(self) -> Tuple[int, Dict[str, List[tabd.Record]]]:
        """The commit and the tables that a copy of the folder restores to another server."""
        lines: List[str] = []
        with tempfile.TemporaryDirectory() as room, Server("--forever", "--batches", connections=16) as other:
            keeper = Keeping(other.port, shutil.copytree(self.folder, os.path.join(room, "copy")), lines)
            try:
                self.wait_live(other.port, keeper)
                return int(lines[0].split()[1]), self.contents(other.port)
            finally:
                keeper.kill()


def batch(number: int, *changes: Tuple[Any, ...]) -> bytes:
    """A frame of a commit's events, as the server writes it."""
    events = [("mnesia_table_event", (*change, ("tid", number + 7))) for change in changes]
    return frame(("batch", number, events))


BATCHES = [batch(300 + number, ("write", ("a", number, b"v" * 20)), ("delete", ("b", number))) for number in range(5)]


class Folder(unittest.TestCase):
    """The log of a folder that no server is needed for."""

    def setUp(self) -> None:
        self.folder = tempfile.mkdtemp()
        self.addCleanup(shutil.rmtree, self.folder)
        store = Store(self.folder)
        with open(store.begin(), "wb"):
            pass
        store.begun()
        for each in BATCHES:
            store.append(each)
        self.path = store.log_path(1)
        self.close(store)

    def close(self, store: Store) -> None:
        store.close()
        store.locked.close()

    def changes(self) -> List[Any]:
        store = Store(self.folder)
        try:
            return [tabd.decode(b"\x83" + operation) for operation in store.changes()]
        finally:
            self.close(store)

    @staticmethod
    def wanted(commits: int) -> List[Any]:
        return [change for number in range(commits) for change in (("write", ("a", number, b"v" * 20)), ("delete", ("b", number)))]

    def test_cut_log(self) -> None:
        """Wherever it is cut, the whole commits before the cut are there."""
        with open(self.path, "rb") as file:
            whole = file.read()
        ends = [0]
        for each in BATCHES:
            ends.append(ends[-1] + 8 + len(each))
        self.assertEqual(ends[-1], len(whole))
        for at in range(len(whole) + 1):
            with open(self.path, "wb") as file:
                file.write(whole[:at])
            self.assertEqual(self.changes(), self.wanted(sum(end <= at for end in ends) - 1))

    def test_changed_log(self) -> None:
        """A changed byte in the last chunk is a write that did not end; before it, it is damage."""
        with open(self.path, "rb") as file:
            whole = file.read()
        last = len(whole) - 8 - len(BATCHES[-1])
        for at in range(8, len(whole), 7):
            with open(self.path, "wb") as file:
                file.write(whole[:at] + bytes([whole[at] ^ 16]) + whole[at + 1 :])
            if at >= last:
                self.assertEqual(self.changes(), self.wanted(4))
            else:
                try:
                    found = self.changes()
                except Failure as failure:
                    self.assertIn("damaged", str(failure))
                else:
                    # A length that is greater than the rest of the file looks like a write that did not end.
                    self.assertEqual(found, self.wanted(len(found) // 2))

    def test_two_keepers(self) -> None:
        store = Store(self.folder)
        with self.assertRaisesRegex(Failure, "already"):
            Store(self.folder)
        self.close(store)

    def test_generations(self) -> None:
        """The older files are there until the newer dump is, and files of others stay."""
        with open(os.path.join(self.folder, ".other.part"), "wb"):
            pass
        store = Store(self.folder)
        path = store.begin()
        self.assertEqual(sorted(os.listdir(self.folder)), [".other.part", "1.dump", "1.log", "2.log", "lock", "token"])
        with open(path, "wb"):
            pass
        store.begun()
        self.assertEqual(sorted(os.listdir(self.folder)), [".other.part", "2.dump", "2.log", "lock", "token"])
        self.close(store)


@unittest.skipUnless(PROGRAM, "TABD names no program")
class Foreign(Patient):
    """Servers that a keeper doesn't restore by itself."""

    def setUp(self) -> None:
        self.folder = tempfile.mkdtemp()
        self.addCleanup(shutil.rmtree, self.folder)
        with self.started("--batches") as (server, client):
            client.create_table("t", index=["val"])
            client.one_shot().write(("t", 1, b"kept")).run()
            self.keep_for(server, lambda: True)

    @contextlib.contextmanager
    def started(self, *words: str) -> Iterator[Tuple[Server, tabd.Client]]:
        with Server("--forever", *words) as server, tabd.Client(server.port) as client:
            yield server, client

    def keep_for(self, server: Server, until: Callable[[], bool], foreign: str = "", quiet: bool = True) -> None:
        """Runs a keeper in this process until it has taken a dump, and then the condition holds."""

        class Enough(Exception):
            pass

        def look(keeper: Keeper, side: Any) -> None:
            if until():
                raise Enough

        store = Store(self.folder)
        settings = Settings(["t"], "keep", 0.0, 1 << 30, foreign, quiet, False)
        quick = mock.patch.object(tabd.cli.keep, "LOOK_SECONDS", 0.01)
        try:
            with quick, mock.patch.object(Keeper, "_look", look), contextlib.suppress(Enough):
                Keeper((server.port, "127.0.0.1"), store, settings).run()
        finally:
            store.close()
            store.locked.close()

    def records(self, client: tabd.Client) -> List[tabd.Record]:
        [found] = client.one_shot().match_object(("t", "_", "_")).run()
        return list(found)

    def test_no_line_before_it_is_on_the_disk(self) -> None:
        """Nothing is acknowledged if the disk is full."""
        full = mock.patch("tabd.cli.store.os.fdatasync", side_effect=OSError(28, "No space left on device"))
        with self.started("--batches") as (server, client):
            client.create_table("t", index=["val"])
            self.keep_for(server, lambda: True)
            said = io.StringIO()
            with full, contextlib.redirect_stdout(said), self.assertRaisesRegex(OSError, "No space"):
                self.keep_for(server, lambda: bool(client.one_shot().write(("t", 2, b"lost")).run()) and False, quiet=False)
            self.assertEqual([line.split()[0] for line in said.getvalue().splitlines()], ["kept"])
            self.assertIn("records=1", said.getvalue())

    def test_empty_tables_are_filled(self) -> None:
        with self.started("--batches") as (server, client):
            client.create_table("t", index=["val"])
            self.keep_for(server, lambda: True)
            self.assertEqual(self.records(client), [("t", 1, b"kept")])

    def test_tables_that_were_written(self) -> None:
        """It changes neither side without `--take`."""
        for foreign, wanted in (("server", b"new"), ("folder", b"kept")):
            with self.subTest(foreign), self.started("--batches") as (server, client):
                client.create_table("t", index=["val"])
                client.one_shot().write(("t", 1, b"new")).run()
                with self.assertRaisesRegex(Failure, "--take"):
                    self.keep_for(server, lambda: True)
                self.assertEqual(self.records(client), [("t", 1, b"new")])
                self.keep_for(server, lambda: True, foreign)
                self.assertEqual(self.records(client), [("t", 1, wanted)])
            if foreign == "server":
                self.assertTrue(any(name.startswith("aside-") for name in os.listdir(self.folder)))
                # What was there is kept now.
                with self.started("--batches") as (server, client):
                    self.keep_for(server, lambda: True)
                    self.assertEqual(self.records(client), [("t", 1, b"new")])
                    client.one_shot().write(("t", 1, b"kept")).run()
                    self.keep_for(server, lambda: True)

    def test_another_definition(self) -> None:
        with self.started("--batches") as (server, client):
            client.create_table("t", type="bag")
            with self.assertRaisesRegex(Failure, "--take"):
                self.keep_for(server, lambda: True)
            self.assertEqual(client.table_info("t", "type"), "bag")

    def test_no_batches(self) -> None:
        with self.started() as (server, client):
            with self.assertRaisesRegex(Failure, "--batches"):
                self.keep_for(server, lambda: True)

    def test_half_a_restore_is_done_again(self) -> None:
        """A keeper that was ended while it restored."""
        store = Store(self.folder)
        token = store.token
        store.locked.close()
        with self.started("--batches") as (server, client):
            client.create_table("t", index=["val"])
            client.one_shot().write(("t", 5, b"a part")).run()
            client.create_table("tabd_kept")
            client.one_shot().write(("tabd_kept", "keep", ("restoring", token))).run()
            self.keep_for(server, lambda: True)
            self.assertEqual(self.records(client), [("t", 1, b"kept")])
            self.assertEqual(client.one_shot().read("tabd_kept", "keep").run(), [[("tabd_kept", "keep", ("live", token))]])

    def test_server_that_changes_between_two_connections(self) -> None:
        """The second connection comes to another server, in which other clients have made the table again."""
        with self.started("--batches") as (first, client), self.started("--batches") as (second, other):
            client.create_table("t", index=["val"])
            self.keep_for(first, lambda: True)
            other.create_table("t", index=["val"])
            connections = iter([first.port])

            def connect(keeper: Keeper) -> Wire:
                port = next(connections, 0)
                if port == 0:
                    first.process.kill()
                    first.process.wait()
                return Wire(port or second.port, "127.0.0.1")

            with mock.patch.object(Keeper, "connect", connect):
                self.keep_for(second, lambda: True)
            self.assertEqual(self.records(other), [("t", 1, b"kept")])

    def test_second_attempt_at_a_dump(self) -> None:
        """The events of the first attempt are older than the second's dump."""

        def together(taking: Taking) -> int:
            taking.wire.send(frame(("subscribe", ("table", "t", "simple"), "dump")) + frame("commit"))
            for _ in range(2):
                taking.wire.reply(taking.told)
            client.one_shot().write(("t", 1, b"stale")).run()
            while True:
                item = taking.wire.next()
                taking.told(item)
                if isinstance(item, Batch):
                    break
            client.one_shot().write(("t", 1, b"new")).run()
            raise tabd.OutboxFull("outbox_full")

        with self.started("--batches") as (server, client), mock.patch.object(Taking, "_together", together):
            client.create_table("t", index=["val"])
            self.keep_for(server, lambda: True)
        with self.started("--batches") as (server, client):
            self.keep_for(server, lambda: True)
            self.assertEqual(self.records(client), [("t", 1, b"new")])

    def test_table_that_is_not_named(self) -> None:
        """It would not be in the next dump."""
        with self.started("--batches") as (server, client):
            client.create_table("u")
            with Store(self.folder) as store, self.assertRaisesRegex(Failure, "the folder has table t too"):
                Keeper((server.port, "127.0.0.1"), store, Settings(["u"], "keep", 0.0, 1 << 30, "", True, False)).run()
            self.keep_for(server, lambda: True)
            self.assertEqual(self.records(client), [("t", 1, b"kept")])

    def test_another_folder(self) -> None:
        with self.started("--batches") as (server, client):
            client.create_table("tabd_kept")
            client.one_shot().write(("tabd_kept", "keep", ("live", b"another"))).run()
            with self.assertRaisesRegex(Failure, "--name"):
                self.keep_for(server, lambda: True)


if __name__ == "__main__":
    unittest.main()
