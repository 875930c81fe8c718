#!/usr/bin/env python3
"""`tabd serve` compared with Mnesia and Redis: the same loads on each in turn, on this machine, as rows of a table.

    beside.py PROGRAM                     as beside.py crates/tabd/out/tabd
    beside.py PROGRAM --into README.md    puts the table into the document, between the lines that name this program

Needs Debian's erlang-base, erlang-mnesia, redis-server and gcc with libc6-dev: run `apt-get update`, then `apt-get install` them. Mnesia
runs in a server of the same frames (beside.escript); Redis keeps nothing on the disk. All have 10,000 records with values of 32
bytes, and each connection asks and waits for the reply (beside.c). A figure is tabd's rate divided by the other's: the median of
five rounds, in each of which every server is measured once, and the least and the greatest. Other work on the machine moves them: a
document gets only figures of an idle machine. LOAD_MS is the milliseconds of a run, 1,500 if it is not set, and ROUNDS the rounds.
"""

import os
import re
import socket
import statistics
import subprocess
import sys
import tempfile
import time
from typing import Dict, Iterator, List, Sequence, Tuple, Union

HERE = os.path.dirname(os.path.abspath(__file__))
sys.path.insert(0, os.path.join(HERE, ".."))
from tests.lib.wire import Term, frame, spell, take  # noqa: E402

MILLISECONDS = int(os.environ.get("LOAD_MS", "1500"))
ROUNDS = int(os.environ.get("ROUNDS", "5"))
# At most so many other processes may run if figures go into a document.
IDLE = 0.5
KEYS, VALUE = 10_000, bytes(range(97, 123)) + b"abcdef"
# A key that no request has by chance: its places are those of the keys.
KEY, DIGITS = 0x7A7B7C7D, b"77777777"
MANY = 100
# The bytes of a reply's payload before the reply itself.
BEFORE = len(b"\x83" + spell(("reply", 0))) - 2

LOADS = [
    ("one request that writes a record", "one-shot of a write", "`SET`"),
    ("begin, write, commit: three round trips", "begin, write, commit", "`MULTI`, `SET`, `EXEC`"),
    ("one request that reads a record", "one-shot of a read", "`GET`"),
    ("begin, read, commit: three round trips", "begin, read, commit", "`MULTI`, `GET`, `EXEC`"),
    ("one transaction of 100 writes in one send", "one-shot of 100 writes", "`MULTI`, 100 `SET`, `EXEC`"),
]
CONNECTIONS = (1, 16)


def places(data: bytes, key: bytes) -> List[int]:
    return [found.start() for found in re.finditer(re.escape(key), data)]


def frame_steps(load: str) -> List[Tuple[Term, Term]]:
    """Requests with the beginnings of their replies, as terms of which the last part may differ."""
    write, found = ("write", ("t", KEY, VALUE)), ("read", "t", KEY)
    begin, commit = ("begin", ("tid", 1)), ("commit", ("atomic", 1))
    steps: Dict[str, List[Tuple[Term, Term]]] = {
        "one-shot of a write": [(("transaction", [write], 1_000), ("atomic", ["ok"]))],
        "begin, write, commit": [begin, (write, "ok"), commit],
        "one-shot of a read": [(("transaction", [found], 1_000), ("atomic", [[]]))],
        "begin, read, commit": [begin, (found, [("t", 0, VALUE)]), commit],
        "one-shot of 100 writes": [(("transaction", [write] * MANY, 1_000), ("atomic", ["ok"] * MANY))],
    }
    return steps[load]


def frame_plan(load: str) -> str:
    lines = []
    for request, reply in frame_steps(load):
        data, whole = frame(request), b"\x83" + spell(("reply", reply))
        # Of a reply it is compared that it is of its kind: ages, numbers and records differ.
        sizes: Dict[type, int] = {list: BEFORE + 1, tuple: BEFORE + 2 + len(spell(reply[0])), str: len(whole)}
        wanted = whole[: sizes[type(reply)]]
        lines.append(" ".join(["1", wanted.hex(), data.hex(), *map(str, places(data, KEY.to_bytes(4, "big")))]))
    return "\n".join(lines) + "\n"


def command(*words: bytes) -> bytes:
    return b"".join([b"*%d\r\n" % len(words), *(b"$%d\r\n%s\r\n" % (len(word), word) for word in words)])


def redis_plan(load: str) -> str:
    multi, execute = command(b"MULTI"), command(b"EXEC")
    put, get = command(b"SET", DIGITS, VALUE), command(b"GET", DIGITS)
    steps = {
        "one-shot of a write": [(1, b"+OK", put)],
        "begin, write, commit": [(1, b"+OK", multi), (1, b"+QUEUED", put), (1, b"*1\r\n+OK", execute)],
        "one-shot of a read": [(1, b"$32", get)],
        "begin, read, commit": [(1, b"+OK", multi), (1, b"+QUEUED", get), (1, b"*1\r\n$32", execute)],
        "one-shot of 100 writes": [(MANY + 2, b"*100\r\n+OK", multi + put * MANY + execute)],
    }[load]
    lines = [" ".join([str(replies), wanted.hex(), data.hex(), *map(str, places(data, DIGITS))]) for replies, wanted, data in steps]
    return "\n".join(lines) + "\n"


def ask(connection: socket.socket, data: bytes) -> bytes:
    """The reply to one request of frames."""
    connection.sendall(data)
    stream = connection.makefile("rb")
    return take(stream, int.from_bytes(take(stream, 4), "big"))


class Framed:
    """A server of tabd's frames, which says its port."""

    kind, plan = "frames", staticmethod(frame_plan)

    def __init__(self, *words: str) -> None:
        self.process = subprocess.Popen(words, stdout=subprocess.PIPE, stderr=subprocess.DEVNULL)
        assert self.process.stdout
        self.port = int(self.process.stdout.readline().rsplit(b":", 1)[1])
        with socket.create_connection(("127.0.0.1", self.port)) as connection:
            ask(connection, frame(("create_table", "t", [])))
            for start in range(0, KEYS, 500):
                writes = [("write", ("t", key, VALUE)) for key in range(start, start + 500)]
                if b"atomic" not in ask(connection, frame(("transaction", writes, 0))):
                    raise ValueError("the records were not written")


class Redis:
    kind, plan = "redis", staticmethod(redis_plan)

    def __init__(self) -> None:
        with socket.socket() as free:
            free.bind(("127.0.0.1", 0))
            self.port = free.getsockname()[1]
        words = ["redis-server", "--port", str(self.port), "--bind", "127.0.0.1", "--save", "", "--appendonly", "no"]
        self.process = subprocess.Popen(words, stdout=subprocess.DEVNULL)
        with self.connected() as connection:
            for key in range(KEYS):
                connection.sendall(command(b"SET", b"%08d" % key, VALUE))
                connection.recv(100)

    def connected(self) -> socket.socket:
        for _ in range(100):
            try:
                return socket.create_connection(("127.0.0.1", self.port))
            except OSError:
                time.sleep(0.05)
        raise ValueError("redis-server does not listen")


# A server under a load.
Server = Union[Framed, Redis]


def rate(load_program: str, server: Server, load: str, connections: int) -> Tuple[float, float]:
    """Rounds a second. A reply that no load wants is an error."""
    words = [load_program, server.kind, str(server.port), str(connections), str(MILLISECONDS)]
    told = subprocess.run(words, input=server.plan(load), capture_output=True, text=True, check=True).stdout
    rounds, restarts, wrong, _ = map(float, told.split())
    if wrong or not rounds:
        raise ValueError(f"{load}: {wrong:.0f} replies differ, {rounds} rounds")
    return rounds, restarts


def figure(ratios: Sequence[float]) -> str:
    return f"{statistics.median(ratios):.2f} ({min(ratios):.2f} to {max(ratios):.2f})"


def rows(load_program: str, servers: Dict[str, Server]) -> Iterator[str]:
    """A row for each load, whose cells have a figure for each number of connections."""
    for text, load, of_redis in LOADS:
        cells = []
        for connections in CONNECTIONS:
            rounds = [{name: rate(load_program, it, load, connections)[0] for name, it in servers.items()} for _ in range(ROUNDS)]
            tabd = statistics.median(it["tabd"] for it in rounds)
            cells.append([f"{tabd:,.0f}", *(figure([it["tabd"] / it[name] for it in rounds]) for name in ("Mnesia", "Redis"))])
        yield f"| {text} ({of_redis}) | {' | '.join('; '.join(it) for it in zip(*cells))} |"


def version(*words: str) -> str:
    return subprocess.run(words, capture_output=True, text=True, check=True).stdout.strip()


def head() -> List[str]:
    """The servers' versions, the machine, and the head of the table."""
    vsn = 'application:load(mnesia), {ok, V} = application:get_key(mnesia, vsn), io:format("~s", [V]), halt().'
    mnesia = version("erl", "-noshell", "-eval", vsn)
    [redis] = re.findall(r"v=(\S+)", version("redis-server", "--version"))
    with open("/proc/cpuinfo", encoding="utf-8") as file:
        found = re.search(r"model name\s*: (.*)", file.read())
    processor = found[1] if found else os.uname().machine
    return [
        f"Each figure is tabd's rate divided by that of Mnesia {mnesia}, through a server of the same frames, or of Redis {redis}, on the same machine.",
        f"The median of {ROUNDS} measurements is followed by the least and the greatest (`bench/beside.py`, {time.strftime('%Y-%m-%d')}).",
        f"All use sockets on one machine of {os.cpu_count()} hardware threads ({processor}), and {KEYS:,} records with values of {len(VALUE)} bytes.",
        "",
        f"| Load (and Redis's commands) | tabd, rounds a second, with {CONNECTIONS[0]} and {CONNECTIONS[1]} connections"
        " | times Mnesia's rate | times Redis's rate |",
        "|---|---|---|---|",
    ]


def put_into(path: str, lines: List[str]) -> None:
    """Between the two lines of the document that name this program."""
    with open(path, encoding="utf-8") as file:
        text = file.read()
    mark = r"(<!-- bench/beside\.py -->\n).*?(<!-- end -->\n)"
    table = "\n".join([*lines, ""])
    text, count = re.subn(mark, lambda found: str(found[1]) + table + str(found[2]), text, flags=re.S)
    if count != 1:
        sys.exit(f"{path}: no lines that name this program")
    with open(path, "w", encoding="utf-8") as file:
        file.write(text)


def main() -> None:
    words = sys.argv[1:]
    if len(words) not in (1, 3) or len(words) == 3 and words[1] != "--into":
        sys.exit(__doc__)
    busy = os.getloadavg()[0]
    if busy > IDLE:
        print(f"other work is on this machine (load {busy:.1f}): these figures are for no document", file=sys.stderr)
        if len(words) == 3:
            sys.exit(1)
    servers: Dict[str, Server] = {}
    lines = head()
    with tempfile.TemporaryDirectory() as folder:
        load_program = os.path.join(folder, "beside")
        subprocess.run(["cc", "-O2", "-pthread", "-o", load_program, os.path.join(HERE, "beside.c")], check=True)
        try:
            # A connection that was closed may still be counted for a moment.
            servers["tabd"] = Framed(words[0], "serve", "--port", "0", "--connections", "64", "--forever")
            servers["Mnesia"] = Framed("escript", os.path.join(HERE, "beside.escript"))
            servers["Redis"] = Redis()
            for row in rows(load_program, servers):
                print(row, flush=True)
                lines.append(row)
        finally:
            for server in servers.values():
                server.process.kill()
                server.process.wait()
    if len(words) == 3:
        put_into(words[2], lines)
    else:
        print("\n" + "\n".join(lines))


if __name__ == "__main__":
    main()
