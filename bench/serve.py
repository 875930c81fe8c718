#!/usr/bin/env python3
"""What a round costs `tabd serve`, over loopback, with Python's standard library alone.

    serve.py PROGRAM             as serve.py crates/tabd/out/tabd
    serve.py PROGRAM ROUNDS      so many rounds in all, 20,000 where it is not given; of reads at most 1,024, of long writes a tenth

Each row is a server with a table of so many records, `{t, Key, Key}`, or of 40 that have half a megabyte each, and so many connections
that make rounds side by side: each sends a request and waits for its reply before it sends the next. A line has the processor time of the
server for a round in microseconds, of its threads and of the system for it, and the memory that it holds before and after the rounds. Its journal
holds 1,024 entries. The wall time of a round would be mostly that of the clients here. The last line has what 64 connections take that
have asked for nothing but one commit.
"""

import os
import socket
import subprocess
import sys
import threading
from typing import Dict, List, Tuple

HERE = os.path.dirname(os.path.abspath(__file__))
sys.path.insert(0, os.path.join(HERE, ".."))
from tests.lib.wire import Term, frame  # noqa: E402

TICKS = os.sysconf("SC_CLK_TCK")
RECORDS = 100_000
# Records of so many bytes, which one reply tells: 20 MB.
LONG, BYTES = 40, 500_000
MANY = "one-shot of 100 writes"

# What a round is, how many make it side by side, and the records.
ROWS = [
    ("one-shot of a write", 1, 0),
    ("one-shot of a write", 4, 0),
    ("one-shot of a write", 16, 0),
    (MANY, 1, 0),
    (MANY, 16, 0),
    ("begin, write, commit", 1, 0),
    ("begin, write, commit", 4, 0),
    ("begin, write, commit", 16, 0),
    ("one read", 1, RECORDS),
    ("a thousand reads", 1, RECORDS),
    ("all keys", 1, RECORDS),
    ("a reply of 20 MB", 12, LONG),
]


def requests(what: str, client: int) -> List[bytes]:
    """The frames of a round. Each client writes a record of its own."""
    write = ("write", ("t", client, client))
    reads = [("read", "t", key) for key in range(1_000)]
    rounds: Dict[str, List[Term]] = {
        "one-shot of a write": [("transaction", [write], 1_000)],
        MANY: [("transaction", [("write", ("t", 100 * client + key, key)) for key in range(100)], 1_000)],
        "begin, write, commit": ["begin", write, "commit"],
        "one read": ["begin", reads[0], "commit"],
        "a thousand reads": ["begin", *reads, "commit"],
        "all keys": ["begin", ("all_keys", "t"), "commit"],
        # An abort, since the journal keeps the replies of a commit.
        "a reply of 20 MB": ["begin", ("match_object", ("t", "_", "_")), ("abort", "read")],
    }
    return [frame(request) for request in rounds[what]]


class Client:
    def __init__(self, port: int) -> None:
        self.socket = socket.create_connection(("127.0.0.1", port))
        self.socket.setsockopt(socket.IPPROTO_TCP, socket.TCP_NODELAY, 1)
        self.stream = self.socket.makefile("rb")

    def make(self, frames: List[bytes], rounds: int) -> None:
        """So many rounds. Of a reply it is looked at only that it is no refusal."""
        for _ in range(rounds):
            for asked in frames:
                self.socket.sendall(asked)
                reply = self.stream.read(int.from_bytes(self.stream.read(4), "big"))
                if not reply or b"abort" not in asked and (b"error" in reply[:40] or b"aborted" in reply[:40]):
                    raise ValueError(f"a request is refused: {reply!r}")

    def close(self) -> None:
        self.stream.close()
        self.socket.close()


def used(process: "subprocess.Popen[str]") -> Tuple[float, float]:
    """The processor seconds of the server, and the megabytes that it holds."""
    with open(f"/proc/{process.pid}/stat") as stat:
        fields = stat.read().rsplit(")", 1)[1].split()
    with open(f"/proc/{process.pid}/status") as status:
        held = next(int(line.split()[1]) for line in status if line.startswith("VmRSS"))
    return (int(fields[11]) + int(fields[12])) / TICKS, held / 1000


def started(program: str, *words: str) -> Tuple["subprocess.Popen[str]", int]:
    """A server, and its port."""
    process = subprocess.Popen([program, "serve", "--port", "0", *words], stdout=subprocess.PIPE, text=True)
    assert process.stdout
    return process, int(process.stdout.readline().rsplit(":", 1)[1])


def measured(program: str, what: str, connections: int, records: int, rounds: int) -> Tuple[float, float, float]:
    """The microseconds of a round, and the memory before and after."""
    process, port = started(program, "--connections", str(connections))
    clients = [Client(port) for _ in range(connections)]
    clients[0].make([frame(("create_table", "t", []))], 1)
    each = 1 if records == LONG else 1_000
    for start in range(0, records, each):
        value = bytes(BYTES) if records == LONG else None
        writes = [("write", ("t", key, value or key)) for key in range(start, start + each)]
        clients[0].make([frame(("transaction", writes, 0))], 1)
    shares = [(requests(what, at), rounds // connections) for at in range(connections)]
    threads = [threading.Thread(target=client.make, args=share) for client, share in zip(clients, shares)]
    before, held = used(process)
    for thread in threads:
        thread.start()
    for thread in threads:
        thread.join()
    after, holds = used(process)
    for client in clients:
        client.close()
    process.wait()
    return (after - before) / (rounds // connections * connections) * 1e6, held, holds


def standing(program: str, count: int = 64) -> str:
    """What a server holds with so many connections: threads, descriptors, megabytes of addresses and of memory."""
    process, port = started(program, "--connections", str(count), "--forever")
    clients = [Client(port) for _ in range(count)]
    for client in clients:
        client.make([frame("begin"), frame("commit")], 1)
    with open(f"/proc/{process.pid}/status") as status:
        found = dict(line.split(":", 1) for line in status)
    descriptors = len(os.listdir(f"/proc/{process.pid}/fd"))
    process.kill()
    process.wait()
    addresses, held = (int(found[name].split()[0]) / 1000 for name in ("VmSize", "VmRSS"))
    return f"{int(found['Threads'])} threads, {descriptors} descriptors, {addresses:.0f} MB of addresses, {held:.1f} MB held"


def rounds_of(what: str, connections: int, records: int, asked: int) -> int:
    """Fewer are made of rounds that take long."""
    if records == LONG:
        return min(asked, connections)
    if records:
        return min(asked, 1_024)
    return asked // 10 if what == MANY else asked


def main() -> None:
    if len(sys.argv) < 2:
        sys.exit(__doc__)
    asked = int(sys.argv[2]) if len(sys.argv) > 2 else 20_000
    for what, connections, records in ROWS:
        micros, held, holds = measured(sys.argv[1], what, connections, records, rounds_of(what, connections, records, asked))
        behind = f", {records} records" if records else ""
        print(f"{what}{behind}, {connections} connections: {micros:.1f} us a round, {held:.1f} MB before, {holds:.1f} MB after", flush=True)
    print(f"64 connections: {standing(sys.argv[1])}")


if __name__ == "__main__":
    main()
