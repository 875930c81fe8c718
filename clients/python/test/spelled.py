# SPDX-License-Identifier: Apache-2.0
"""A second encoder and decoder of frames and terms, for the scripts of the tests, so that the client's is not compared with itself."""

from __future__ import annotations

import struct
from typing import Any, BinaryIO


def spell(term: Any) -> bytes:
    """An integer of 32 bits, an atom of up to 255 bytes, bytes, a tuple of up to 255 elements or a list."""
    if type(term) is int:
        return b"b" + struct.pack(">i", term)
    if isinstance(term, str):
        text = term.encode()
        return b"w" + struct.pack(">B", len(text)) + text
    if isinstance(term, bytes):
        return b"m" + struct.pack(">I", len(term)) + term
    if isinstance(term, tuple):
        return b"h" + struct.pack(">B", len(term)) + b"".join(map(spell, term))
    if isinstance(term, list):
        return b"l" + struct.pack(">I", len(term)) + b"".join(map(spell, term)) + b"j"
    raise ValueError(f"{term!r} is in no script")


def frame(term: Any) -> bytes:
    payload = b"\x83" + spell(term)
    return struct.pack(">I", len(payload)) + payload


def take(stream: BinaryIO, count: int) -> bytes:
    data = stream.read(count)
    if len(data) < count:
        raise ValueError("it ends too early")
    return data


def number(stream: BinaryIO, size: int) -> int:
    return int.from_bytes(take(stream, size), "big")


def read(stream: BinaryIO) -> Any:
    """Decodes a term as tabd encodes it, except for a map, a large integer and a long atom or tuple."""
    tag = take(stream, 1)
    if tag == b"a":
        return number(stream, 1)
    if tag == b"b":
        return int.from_bytes(take(stream, 4), "big", signed=True)
    if tag == b"w":
        return take(stream, number(stream, 1)).decode()
    if tag == b"h":
        return tuple([read(stream) for _ in range(number(stream, 1))])
    if tag == b"j":
        return []
    if tag == b"k":
        return list(take(stream, number(stream, 2)))
    if tag == b"l":
        terms = [read(stream) for _ in range(number(stream, 4))]
        take(stream, 1)
        return terms
    if tag == b"m":
        return take(stream, number(stream, 4))
    raise ValueError(f"tag {tag!r} is not read here")
