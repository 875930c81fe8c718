# SPDX-License-Identifier: Apache-2.0
"""What a client takes as an address, and how it and the others show themselves."""

from __future__ import annotations

import os
import pathlib
import socket
import tempfile
import unittest
from typing import Any, Tuple

import servers  # noqa: F401  (for the path)

import tabd
import tabd.aio
from tabd.address import address


class Addresses(unittest.TestCase):
    def test_ports_and_hosts(self) -> None:
        wanted = {
            (): ("127.0.0.1", 4000),
            (4100,): ("127.0.0.1", 4100),
            (4100, "example.org"): ("example.org", 4100),
            ("example.org",): ("example.org", 4000),
            ("example.org", 4100): ("example.org", 4100),
            ("example.org:4100",): ("example.org", 4100),
            ("[::1]:4100",): ("::1", 4100),
            ("tabd://example.org",): ("example.org", 4000),
            ("tabd://example.org/",): ("example.org", 4000),
            ("tabd://example.org:4100",): ("example.org", 4100),
            ("tabd://[::1]:4100",): ("::1", 4100),
        }
        for given, pair in wanted.items():
            with self.subTest(given=given):
                found = tabd.Client(*given)._address  # type: ignore[arg-type]
                self.assertEqual((found.pair(), found.file()), (pair, None))
                self.assertEqual(tabd.aio.Client(*given)._address, found)  # type: ignore[arg-type]

    def test_paths(self) -> None:
        for given in ("/run/tabd.socket", "unix:///run/tabd.socket", pathlib.Path("/run/tabd.socket")):
            self.assertEqual(address(given).file(), "/run/tabd.socket")
        self.assertEqual(address("./tabd.socket").file(), "./tabd.socket")
        self.assertEqual(address("unix:///run/a%20b").file(), "/run/a b")

    def test_a_bare_name_is_a_socket_file_if_it_is_there(self) -> None:
        before = os.getcwd()
        with tempfile.TemporaryDirectory() as folder, socket.socket(socket.AF_UNIX) as held:
            os.chdir(folder)
            try:
                client = tabd.Client("name")
                self.assertIsNone(client._address.file())
                held.bind("name")
                self.assertEqual(client._address.file(), "name")
            finally:
                os.chdir(before)

    def test_what_is_no_address(self) -> None:
        faults: Tuple[Any, ...] = (65536, -1, "", "host:65536", "redis://host", "tabd://", "tabd://host/path", "tabd://u:p@host", "tabd://host:x")
        for given in faults:
            with self.subTest(given=given), self.assertRaises(ValueError):
                tabd.Client(given)
        for given in (True, None, 1.5, b"host"):
            with self.subTest(given=given), self.assertRaises(TypeError):
                tabd.Client(given)
        with self.assertRaises(ValueError):
            tabd.Client(4000, connections=0)

    def test_what_they_show(self) -> None:
        for module, name in ((tabd, "tabd"), (tabd.aio, "tabd.aio")):
            client = module.Client("host:4100", connections=3)
            self.assertEqual(repr(client), f"<{name}.Client of host:4100, 0 of 3 connections>")
            self.assertEqual(repr(client.table("t")), f"<{name}.Table 't' of host:4100>")
        self.assertEqual(repr(tabd.OneShot().read("t", 1).write(("t", 1, 1))), "<tabd.OneShot of 2 operations>")


if __name__ == "__main__":
    unittest.main()
