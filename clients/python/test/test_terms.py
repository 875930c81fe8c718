# SPDX-License-Identifier: Apache-2.0
"""Terms as bytes. What is expected stands in docs/PROTOCOL.md, "Bytes" and "Terms"."""

from __future__ import annotations

import unittest
from typing import Any, List, Tuple

import servers  # noqa: F401  (for the path)

import tabd

SPELLED: List[Tuple[Any, str]] = [
    (0, "61 00"),
    (255, "61 FF"),
    (2147483647, "62 7F FF FF FF"),
    (-2147483648, "62 80 00 00 00"),
    ([97, 98], "6B 00 02 61 62"),
    (b"ab", "6D 00 00 00 02 61 62"),
    (-1, "62 FF FF FF FF"),
    (256, "62 00 00 01 00"),
    (2147483648, "6E 04 00 00 00 00 80"),
    (-2147483649, "6E 04 01 01 00 00 80"),
    (["a"], "6C 00 00 00 01 77 01 61 6A"),
    ((), "68 00"),
    ([], "6A"),
    ("begin", "77 05 62 65 67 69 6E"),
    (("read", "t", 1), "68 03 77 04 72 65 61 64 77 01 74 61 01"),
    ({2: "b", 1: "a"}, "74 00 00 00 02 61 01 77 01 61 61 02 77 01 62"),
    ("é" * 128, "76 01 00" + " C3 A9" * 128),
    (tuple([0] * 256), "69 00 00 01 00" + " 61 00" * 256),
    (tabd.Pairs((([1], 2),)), "74 00 00 00 01 6B 00 01 01 61 02"),
]


def nested(levels: int) -> Any:
    term: Any = 0
    for _ in range(levels - 1):
        term = (term,)
    return term


class Terms(unittest.TestCase):
    def test_spellings(self) -> None:
        for term, digits in SPELLED:
            with self.subTest(digits=digits[:40]):
                payload = b"\x83" + bytes.fromhex(digits)
                self.assertEqual(tabd.encode(term), payload)
                self.assertEqual(tabd.decode(payload), term)

    def test_equal_maps_are_spelled_the_same(self) -> None:
        self.assertEqual(tabd.encode({1: 2, 3: 4}), tabd.encode(tabd.Pairs(((3, 4), (1, 2)))))

    def test_what_has_no_term(self) -> None:
        for value in (1.5, True, None, 2**127, -(2**127) - 1, "x" * 256, nested(65), object(), {1, 2}):
            with self.subTest(value=repr(value)[:40]), self.assertRaises(tabd.BadTerm):
                tabd.encode(value)  # type: ignore[arg-type]

    def test_the_greatest(self) -> None:
        for value in (2**127 - 1, -(2**127), "x" * 255, nested(64)):
            self.assertEqual(tabd.decode(tabd.encode(value)), value)


if __name__ == "__main__":
    unittest.main()
