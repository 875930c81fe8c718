#!/usr/bin/env python3
"""What a load of many records takes of `tabd serve`, Mnesia and Redis: each in turn, on this machine.

    load.py PROGRAM              as load.py crates/tabd/out/tabd
    load.py PROGRAM COUNT        so many records, a million if it is not given

Needs what beside.py needs. One connection sends transactions of 900 writes, each after the reply to the one before, once with the keys in
their order and once in a random one. A row has a server of its own: the processor time of the server for each record, in microseconds, and the
memory that it holds for each, in bytes. A record has an integer key and 40 bytes; Redis keeps them under a text of ten digits.
"""

import os
import random
import socket
import sys
from typing import Callable, Dict, Iterator, List, Union

from beside import Framed, Redis, ask, command, places

HERE = os.path.dirname(os.path.abspath(__file__))
sys.path.insert(0, os.path.join(HERE, ".."))
from tests.lib.wire import frame  # noqa: E402

TICKS = os.sysconf("SC_CLK_TCK")
WRITES, VALUE = 900, bytes(40)
# A key that no request has by chance: its places are those of the keys.
KEY, DIGITS = 0x7A7B7C7D, b"7777777777"
SEED = 7

# A server, and a transaction of so many writes to these keys.
Server = Union[Framed, Redis]
Write = Callable[[socket.socket, List[int]], None]


def spent(server: Server) -> float:
    """The processor time of a server in microseconds."""
    with open(f"/proc/{server.process.pid}/stat", encoding="ascii") as file:
        fields = file.read().rsplit(")", 1)[1].split()
    return (int(fields[11]) + int(fields[12])) / TICKS * 1e6


def held(server: Server) -> int:
    """The memory of a server in bytes."""
    with open(f"/proc/{server.process.pid}/status", encoding="ascii") as file:
        [line] = [it for it in file if it.startswith("VmRSS:")]
    return int(line.split()[1]) * 1024


def filled(template: bytes, places_of_keys: List[int], keys: List[bytes]) -> bytes:
    """The request with these keys in the places of its own."""
    request = bytearray(template)
    for place, key in zip(places_of_keys, keys):
        request[place : place + len(key)] = key
    return bytes(request)


def write_frames() -> Write:
    templates: Dict[int, bytes] = {}

    def write(connection: socket.socket, keys: List[int]) -> None:
        template = templates.setdefault(len(keys), frame(("transaction", [("write", ("t", KEY, VALUE))] * len(keys), 1_000)))
        request = filled(template, places(template, KEY.to_bytes(4, "big")), [key.to_bytes(4, "big") for key in keys])
        if b"atomic" not in ask(connection, request)[:40]:
            raise ValueError("the records were not written")

    return write


def write_redis(connection: socket.socket, keys: List[int]) -> None:
    template = command(b"MULTI") + command(b"SET", DIGITS, VALUE) * len(keys) + command(b"EXEC")
    connection.sendall(filled(template, places(template, DIGITS), [b"%010d" % key for key in keys]))
    end, told = b"*%d\r\n" % len(keys) + b"+OK\r\n" * len(keys), b""
    while not told.endswith(end):
        more = connection.recv(1 << 20)
        if not more:
            raise ValueError("redis-server has closed the connection")
        told += more


def load(server: Server, write: Write, keys: List[int]) -> str:
    with socket.create_connection(("127.0.0.1", server.port)) as connection:
        time, memory = spent(server), held(server)
        for start in range(0, len(keys), WRITES):
            write(connection, keys[start : start + WRITES])
        time, memory = spent(server) - time, held(server) - memory
    return f"{time / len(keys):.1f} | {memory / len(keys):.0f}"


def rows(program: str, count: int) -> Iterator[str]:
    """Keys above those that a server has when it starts."""
    ordered = list(range(1 << 24, (1 << 24) + count))
    mixed = random.Random(SEED).sample(ordered, count)
    starts: Dict[str, Callable[[], Server]] = {
        "tabd": lambda: Framed(program, "serve", "--port", "0", "--connections", "4", "--forever"),
        "Mnesia": lambda: Framed("escript", os.path.join(HERE, "beside.escript")),
        "Redis": Redis,
    }
    for order, keys in (("in their order", ordered), ("in random order", mixed)):
        for name, start in starts.items():
            server = start()
            try:
                yield f"{name}, {count} keys {order} | {load(server, write_redis if name == 'Redis' else write_frames(), keys)}"
            finally:
                server.process.kill()
                server.process.wait()


def main() -> None:
    if len(sys.argv) not in (2, 3):
        sys.exit(__doc__)
    print("what | microseconds a record | bytes a record")
    for row in rows(os.path.abspath(sys.argv[1]), int(sys.argv[2]) if len(sys.argv) > 2 else 1_000_000):
        print(row, flush=True)


if __name__ == "__main__":
    main()
