# SPDX-License-Identifier: Apache-2.0
"""The address of a server: a port of a host, or a socket file."""

from __future__ import annotations

import os
import re
import stat
from dataclasses import dataclass
from typing import Any, Optional, Tuple, Union
from urllib.parse import unquote, urlsplit

# The port of the documents' examples.
PORT = 4000
HOST = "127.0.0.1"

Where = Union[int, str, "os.PathLike[str]"]

_HOST_AND_PORT = re.compile(r"(\[[^\]/]*\]|[^/:]+):(\d+)")


@dataclass(frozen=True)
class Address:
    """A host and a port, or a path. A bare name has both: it is the path if a socket file of that name is there."""

    host: str = ""
    port: int = PORT
    path: str = ""

    def __post_init__(self) -> None:
        if not 0 <= self.port <= 65535:
            raise ValueError(f"a port is from 0 to 65535: {self.port}")

    def __str__(self) -> str:
        return self.file() or f"{self.host}:{self.port}"

    def file(self) -> Optional[str]:
        """The path, if the server listens at a file."""
        if self.path and self.host and not _is_socket(self.path):
            return None
        return self.path or None

    def pair(self) -> Tuple[str, int]:
        return self.host, self.port


def _is_socket(path: str) -> bool:
    try:
        return stat.S_ISSOCK(os.stat(path).st_mode)
    except (OSError, ValueError):
        return False


def address(where: Where, host: Any = HOST) -> Address:
    """The address that `Client` was given: a port and perhaps a host, in either order, a path, or a text as `Client` says."""
    if isinstance(where, bool):
        raise TypeError("a port is no bool")
    if isinstance(where, int):
        return Address(host=host, port=where)
    text = os.fspath(where)
    if isinstance(host, int):
        return Address(host=text, port=host)
    if "://" in text:
        return _of_url(text)
    if "/" in text or not isinstance(where, str):
        return Address(path=text)
    found = _HOST_AND_PORT.fullmatch(text)
    if found:
        return Address(host=found[1].strip("[]"), port=int(found[2]))
    if not text:
        raise ValueError("an address is empty")
    return Address(host=text, path=text)


def _of_url(text: str) -> Address:
    if text.startswith("unix://"):
        return Address(path=unquote(text[len("unix://") :]))
    parts = urlsplit(text)
    if parts.scheme != "tabd" or not parts.hostname or parts.path not in ("", "/") or parts.query or "@" in parts.netloc:
        raise ValueError(f"an address is tabd://HOST:PORT or unix:///PATH: {text}")
    return Address(host=parts.hostname, port=PORT if parts.port is None else parts.port)
