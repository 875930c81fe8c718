# SPDX-License-Identifier: Apache-2.0
"""The folder of `keep`: a dump, and a log of the commits after it.

    token            which folder this is: the server is marked with it
    lock             is locked while a keeper runs
    G.dump           the tables as of one commit, as `tabd-cli dump` writes them; of several the one with the greatest G counts
    G.log            the commits after it: chunks of a length and a CRC-32 (4 bytes each, the highest first) and so many bytes, which are
                     whole frames `{batch, N, Events}` as the server sent them

A chunk is what is written and synchronized (fdatasync) at once, so a crash leaves at most one truncated chunk, at the end. It was not
acknowledged, and is skipped. A chunk with a wrong sum that is not the last one is damage, and is refused.

A generation begins with an empty log; then its dump is renamed to its name, and then the older generation is removed. So at each moment the
newest dump and its log are the tables as of the last commit that was acknowledged, or of a later one.

Why files of its own and not sqlite3. The log takes the frames as they come, undecoded, and the server's own dump is the compacted state. Commits of
one write of 40 bytes took 1.2 microseconds of processor time each in the log, in chunks of 256 kB, and 17 microseconds as rows of sqlite3 (WAL,
synchronous=FULL, 2,000 commits a transaction); with each commit synchronized by itself 205 and 276 microseconds (2026-11-29, 20,000 commits,
Intel(R) Xeon(R) Processor). A server commits up to 200,000 times a second (README.md), so a keeper that decodes would be overflowed."""

from __future__ import annotations

import contextlib
import fcntl
import os
import re
import secrets
import struct
import zlib
from typing import IO, Iterator, Optional

from .common import Failure, naming
from .dump import fsync_folder, opened
from .wire import commit_of, operations

CHUNK = struct.Struct(">II")
# What a folder may have before it is a keeper's: what a keeper made that was killed at once, and what a file system has.
EMPTY = {"lock", "token.part", "lost+found"}


class Store:
    """A folder, for one keeper at a time."""

    def __init__(self, folder: str) -> None:
        self.folder = folder
        os.makedirs(folder, exist_ok=True)
        names = set(os.listdir(folder))
        if "token" not in names and not names <= EMPTY:
            raise Failure(f"{folder} has other files, and no keeper's: take an empty folder")
        self.locked = open(self.path("lock"), "w")
        self.log: Optional[IO[bytes]] = None
        self.log_size = 0
        try:
            self._lock()
            self.token = self._token()
            self.generation = self._newest()
        except BaseException:
            self.locked.close()
            raise

    def __enter__(self) -> Store:
        return self

    def __exit__(self, *_: object) -> None:
        with contextlib.suppress(OSError):
            self.close()
        self.locked.close()

    def _lock(self) -> None:
        try:
            fcntl.flock(self.locked, fcntl.LOCK_EX | fcntl.LOCK_NB)
        except BlockingIOError as error:
            raise Failure(f"a keeper runs in {self.folder} already") from error

    def path(self, name: str) -> str:
        return os.path.join(os.path.abspath(self.folder), name)

    def dump_path(self, generation: int) -> str:
        return self.path(f"{generation}.dump")

    def log_path(self, generation: int) -> str:
        return self.path(f"{generation}.log")

    def _token(self) -> bytes:
        """Says which folder this is; it is made whole, or not at all."""
        path = self.path("token")
        with contextlib.suppress(FileNotFoundError), open(path, "rb") as file:
            return file.read()
        token = secrets.token_hex(8).encode()
        with naming(path):
            with open(path + ".part", "wb") as file:
                file.write(token)
                file.flush()
                os.fsync(file.fileno())
            os.rename(path + ".part", path)
            fsync_folder(path)
        return token

    def _newest(self) -> int:
        """The newest generation, 0 if there is none."""
        found = [re.fullmatch(r"(\d+)\.dump", name) for name in os.listdir(self.folder)]
        return max([int(match.group(1)) for match in found if match is not None], default=0)

    @property
    def is_empty(self) -> bool:
        return self.generation == 0

    def begin(self) -> str:
        """Begins the next generation's log, and gives the path to which its dump is to be renamed."""
        self.close()
        path = self.log_path(self.generation + 1)
        with naming(path):
            self.log, self.log_size = open(path, "wb"), 0
            os.fsync(self.log.fileno())
            fsync_folder(path)
        return self.dump_path(self.generation + 1)

    def begun(self) -> None:
        """The next generation's dump is there: the older ones aren't wanted any more."""
        self.generation += 1
        for name in os.listdir(self.folder):
            match = re.fullmatch(r"(\d+)\.(?:dump|log)|\.\d+\.dump\.\d+\.part", name)
            if match is not None and match.group(1) != str(self.generation):
                os.remove(self.path(name))

    def append(self, frames: bytes) -> None:
        """Writes whole batches, and returns when they are on the disk."""
        assert self.log is not None
        with naming(self.log.name):
            self.log.write(CHUNK.pack(len(frames), zlib.crc32(frames)) + frames)
            self.log.flush()
            os.fdatasync(self.log.fileno())
        self.log_size += CHUNK.size + len(frames)

    def set_aside(self) -> None:
        """Renames the generation's files, so that they are neither read nor removed."""
        for path in (self.dump_path(self.generation), self.log_path(self.generation)):
            with contextlib.suppress(FileNotFoundError):
                os.rename(path, os.path.join(os.path.dirname(path), "aside-" + os.path.basename(path)))

    def batches(self) -> Iterator[bytes]:
        """The payloads of the log's batches."""
        path = self.log_path(self.generation)
        with open(path, "rb") as file:
            size = os.fstat(file.fileno()).st_size
            while True:
                at, head = file.tell(), file.read(CHUNK.size)
                if len(head) < CHUNK.size:
                    return
                length, total = CHUNK.unpack(head)
                frames = file.read(length) if at + CHUNK.size + length <= size else b""
                if len(frames) < length:
                    return
                if zlib.crc32(frames) != total:
                    if file.tell() < size:
                        raise Failure(f"{path} is damaged at byte {at}")
                    return
                yield from _payloads(frames)

    def last_commit(self) -> int:
        """The number of the last commit that is kept, of the run of the server that it was of."""
        with opened(self.dump_path(self.generation)) as source:
            last = source.commit
        for payload in self.batches():
            last = commit_of(payload, 0)
        return last

    def changes(self) -> Iterator[bytes]:
        """The log's changes, as operations."""
        for payload in self.batches():
            yield from operations(payload)

    def close(self) -> None:
        if self.log is not None:
            self.log.close()
            self.log = None


def _payloads(frames: bytes) -> Iterator[bytes]:
    at = 0
    while at < len(frames):
        after = at + 4 + int.from_bytes(frames[at : at + 4], "big")
        yield frames[at + 4 : after]
        at = after
