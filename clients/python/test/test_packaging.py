# SPDX-License-Identifier: Apache-2.0
"""What packaging/ has: the completions, the units, and with TABD_LONG=1 the packages, which are also installed in a new Debian by mmdebstrap."""

from __future__ import annotations

import contextlib
import io
import os
import re
import shutil
import subprocess
import sys
import tempfile
import unittest
from typing import IO, Iterator, List, Set

from servers import HERE, PROGRAM  # isort: skip (it makes `tabd` known)

from tabd.cli import main

PACKAGING = os.path.join(HERE, "..", "..", "..", "packaging")
UNITS = ("tabd.service", "tabd-socket.service", "tabd-keep.service")
# Files of both packages, of which each is there after the installation.
WANTED = ["usr/bin/tabd", "usr/bin/tabd-cli", "usr/share/man/man1/tabd.1.gz", "usr/share/man/man1/tabd-cli.1.gz"]
WANTED += [f"usr/share/bash-completion/completions/{name}" for name in ("tabd", "tabd-cli")]
WANTED += [f"usr/lib/systemd/system/{name}" for name in UNITS]
WANTED += [f"usr/share/doc/{name}/copyright" for name in ("tabd", "python3-tabd")]
NOBODY = 65534
# What `systemd-analyze security` may rate a unit, times ten.
MOST = 20


def said(*words: str) -> str:
    return subprocess.run(words, check=True, stdout=subprocess.PIPE, text=True).stdout


def is_program() -> bool:
    """Whether TABD is the program itself, and no script that starts it."""
    if not PROGRAM or not os.path.isfile(PROGRAM):
        return False
    with open(PROGRAM, "rb") as file:
        return file.read(4) == b"\x7fELF"


needs_debian = unittest.skipUnless(
    os.environ.get("TABD_LONG") and shutil.which("mmdebstrap") and os.geteuid() == 0 and is_program(), "no TABD_LONG, or no mmdebstrap"
)

# What is run under systemd. A command is tried again until its server is there, or its reply is.
UNIT = "[Service]\nExecStart=/bin/bash /root/try\nStandardOutput=file:/root/said\n[Install]\nWantedBy=multi-user.target\n"
TRY = """
until_it() { for _ in $(seq 100); do "$@" 2> /dev/null && return; sleep 0.2; done; echo "never: $*"; }
cli() { tabd-cli --server 4000 "$@"; }
live() { cli read tabd_kept keep | grep -q live; }
until_it cli create route
cli write route alice 7
until_it grep -qr alice /var/lib/private/tabd-keep
systemctl kill --signal=KILL tabd
until_it live
cli all route
until_it test -S /run/tabd/socket
useradd --groups tabd-clients member
useradd other
setpriv --reuid=member --init-groups tabd-cli --server /run/tabd/socket create members 2>&1
setpriv --reuid=other --init-groups tabd-cli --server /run/tabd/socket info members 2>&1
grep -h -E "NoNewPrivs|Seccomp:|CapBnd" /proc/$(systemctl show --property=MainPID --value tabd)/status
dpkg --purge tabd python3-tabd > /dev/null 2>&1
systemctl is-active tabd tabd-socket tabd-keep
find / -xdev -name "*tabd*" -not -path "/proc/*" -not -path "/var/lib/private/*" -not -path "/var/lib/tabd-keep" -not -path "/var/log/*" -not -path "/tmp/*"
systemctl poweroff --force
"""
BOOTED = """{route,alice,7}
tabd-cli info: no connection to /run/tabd/socket: Permission denied
CapBnd:\t0000000000000000
NoNewPrivs:\t1
Seccomp:\t2
inactive
inactive
inactive
/etc/default/tabd-keep
"""


@unittest.skipUnless(os.path.isdir(PACKAGING), "the client was copied without the repository")
class Packaging(unittest.TestCase):
    @classmethod
    def setUpClass(cls) -> None:
        sys.path.insert(0, PACKAGING)
        cls.addClassCleanup(sys.path.remove, PACKAGING)

    def completed(self, *words: str, text: str = "") -> List[str]:
        """The completions that bash offers for the last argument, by the text of the completion, or that of tabd-cli."""
        text = text or f". {PACKAGING}/tabd-cli.bash"
        function = "_" + words[0].replace("-", "_")
        script = f"{text}\nCOMP_WORDS=(\"$@\"); COMP_CWORD=$(($# - 1)); {function}; printf '%s\\n' \"${{COMPREPLY[@]}}\""
        return said("bash", "-c", script, "bash", *words).split()

    def test_completion(self) -> None:
        import manual

        with open(os.path.join(PACKAGING, "tabd-cli.bash"), encoding="utf-8") as file:
            self.assertEqual(file.read(), manual.completion_of_client(), "packaging/manual.py writes it again")
        self.assertEqual(self.completed("tabd-cli", "re"), ["read", "restore"])
        self.assertEqual(self.completed("tabd-cli", "--server", "4000", "dr"), ["drop"])
        self.assertEqual(self.completed("tabd-cli", "watch", "--d"), ["--dump", "--detailed"])
        self.assertEqual(self.completed("tabd-cli", "create", "t", "--type", ""), ["set", "bag"])
        self.assertIn("tabd-cli.bash", self.completed("tabd-cli", "restore", f"{PACKAGING}/tabd-c")[0])

    def test_completion_has_all_words(self) -> None:
        """As the help of tabd-cli, and of each command, has them."""
        commands = [words.partition("  ")[0] for words in re.findall(r"^    (\w+  .*)", self.help(), re.M)]
        self.assertGreater(len(commands), 10)
        self.assertEqual(self.completed("tabd-cli", ""), [*commands, *self.options(self.help())])
        for command in commands:
            self.assertIn(command, self.completed("tabd-cli", command[:2]))
            self.assertEqual(self.completed("tabd-cli", command, "--"), self.options(self.help(command)))

    @staticmethod
    def help(*words: str) -> str:
        out = io.StringIO()
        with contextlib.redirect_stdout(out), contextlib.suppress(SystemExit):
            main([*words, "--help"])
        return out.getvalue()

    @staticmethod
    def options(text: str) -> List[str]:
        """The options that a help page has a line for."""
        return re.findall(r"^  (?:-\w, )?(--[a-z-]+)", text, re.M)

    @unittest.skipUnless(PROGRAM, "TABD names no program")
    def test_completion_of_the_server(self) -> None:
        import manual

        text = manual.completion_of_server(PROGRAM)
        self.assertEqual(self.completed("tabd", "s", text=text), ["serve"])
        for command in ("serve", "replay"):
            wanted = re.findall(r"^ +(?:-\w, )?(--[a-z-]+)", said(PROGRAM, command, "--help"), re.M)
            self.assertIn("--outbox", wanted)
            self.assertEqual(sorted(self.completed("tabd", command, "--", text=text)), sorted(wanted))

    @unittest.skipUnless(shutil.which("systemd-analyze"), "there is no systemd-analyze")
    def test_units(self) -> None:
        for unit in UNITS:
            path = os.path.join(PACKAGING, unit)
            with self.subTest(unit):
                said("systemd-analyze", "security", "--offline=true", "--no-pager", f"--threshold={MOST}", path)

    @unittest.skipUnless(os.environ.get("TABD_LONG") and shutil.which("dpkg-deb") and is_program(), "no TABD_LONG, or no package can be built")
    def test_packages(self) -> None:
        with tempfile.TemporaryDirectory() as folder:
            paths = said(sys.executable, os.path.join(PACKAGING, "deb"), PROGRAM, folder).split()
            root = os.path.join(folder, "root")
            for path in paths:
                said("dpkg-deb", "-x", path, root)
            version = said(PROGRAM, "--version").split()[1]
            self.assertEqual(said(os.path.join(root, "usr/bin/tabd"), "--version"), f"tabd {version}\n")
            modules = os.path.join(root, "usr/lib/python3/dist-packages")
            words = [sys.executable, os.path.join(root, "usr/bin/tabd-cli"), "--version"]
            done = subprocess.run(words, env={**os.environ, "PYTHONPATH": modules}, cwd="/", stdout=subprocess.PIPE, text=True, check=True)
            self.assertTrue(done.stdout.startswith("tabd-cli "))
            for name in ("tabd", "tabd-cli"):
                page = subprocess.run(["man", "-l", f"{root}/usr/share/man/man1/{name}.1.gz"], stdout=subprocess.PIPE, text=True, check=True).stdout
                self.assertIn("EXIT STATUS", page)

    def debian(self, root: str, packages: str) -> List[str]:
        """Makes a new Debian in a folder; gives the words that install both packages."""
        said("mmdebstrap", "--quiet", "--variant=minbase", f"--include={packages}", "bookworm", root)
        paths = said(sys.executable, os.path.join(PACKAGING, "deb"), PROGRAM, os.path.join(root, "tmp", "debs")).split()
        return ["chroot", root, "dpkg", "-i", *[f"/tmp/debs/{os.path.basename(path)}" for path in paths]]

    @needs_debian
    def test_new_debian(self) -> None:
        """Both packages in a new Debian: installed, started as the unit does it, served, and removed."""
        with tempfile.TemporaryDirectory() as folder:
            root = os.path.join(folder, "root")
            install = self.debian(root, "python3")
            before = files_of(root)
            said(*install)
            added = files_of(root) - before
            for name in WANTED:
                self.assertIn(name, added)
            self.serves(root)
            said("chroot", root, "dpkg", "--purge", "tabd", "python3-tabd")
            left = {name for name in files_of(root) - before if not name.startswith(("var/lib/dpkg", "var/log", "var/cache"))}
            self.assertEqual(left, set())

    def serves(self, root: str) -> None:
        """With the unit's options, by a user without rights; and keeps a table over the server's end."""
        with open(os.path.join(root, "usr/lib/systemd/system/tabd.service")) as file:
            [options] = re.findall(r'^Environment="TABD_OPTIONS=--port 4000 (.*)"$', file.read(), re.M)
        kept = os.path.join(root, "var/lib/tabd-keep")
        os.mkdir(kept)
        os.chown(kept, NOBODY, NOBODY)
        for event in ("kept", "restored"):
            with started(root, "tabd", "serve", "--port", "0", *options.split()) as serving:
                port = next(serving).rsplit(":", 1)[1].strip()
                if event == "kept":
                    for words in (("create", "route"), ("write", "route", "alice", "7")):
                        said("chroot", root, "tabd-cli", "--server", port, *words)
                with started(root, "tabd-cli", "--server", port, "keep", "/var/lib/tabd-keep", "route") as keeping:
                    self.assertEqual(next(keeping).split()[0], event)
                    self.assertEqual(said("chroot", root, "tabd-cli", "--server", port, "read", "route", "alice"), "{route,alice,7}\n")
        shutil.rmtree(kept)


    @needs_debian
    @unittest.skipUnless(shutil.which("systemd-nspawn"), "there is no systemd-nspawn")
    def test_under_systemd(self) -> None:
        """The units under systemd, in a container that a script turns off: TRY, whose output is BOOTED."""
        with tempfile.TemporaryDirectory() as folder:
            root = os.path.join(folder, "root")
            said(*self.debian(root, "python3,systemd-sysv"))
            for path, text in (("root/try", TRY), ("etc/systemd/system/try.service", UNIT), ("etc/default/tabd-keep", "TABD_TABLES=route\n")):
                with open(os.path.join(root, path), "w") as file:
                    file.write(text)
            said("chroot", root, "systemctl", "enable", "try", "tabd", "tabd-socket", "tabd-keep")
            words = ["systemd-nspawn", "-D", root, "--register=no", "--keep-unit", "--private-network", "--boot"]
            subprocess.run(words, stdin=subprocess.DEVNULL, stdout=subprocess.DEVNULL, stderr=subprocess.DEVNULL, timeout=300)
            with open(os.path.join(root, "root/said")) as said_inside:
                self.assertEqual(said_inside.read(), BOOTED)


@contextlib.contextmanager
def started(root: str, *words: str) -> Iterator[IO[str]]:
    """The output of a program of the folder, run by a user without rights; it is killed after the block."""
    command = ["chroot", f"--userspec={NOBODY}:{NOBODY}", root, *words]
    environment = {"PATH": "/usr/sbin:/usr/bin", "PYTHONDONTWRITEBYTECODE": "1"}
    with subprocess.Popen(command, stdout=subprocess.PIPE, text=True, env=environment) as process:
        assert process.stdout is not None
        try:
            yield process.stdout
        finally:
            process.kill()


def files_of(root: str) -> Set[str]:
    """The paths of all files in a folder."""
    return {os.path.relpath(os.path.join(folder, name), root) for folder, _, names in os.walk(root) for name in names}


if __name__ == "__main__":
    unittest.main()
