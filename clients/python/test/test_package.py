# SPDX-License-Identifier: Apache-2.0
"""What is published: its metadata, its README and its licence."""

from __future__ import annotations

import contextlib
import io
import os
import re
import unittest

from servers import Server, needs_program

import tabd

PLACE = os.path.join(os.path.dirname(os.path.abspath(__file__)), "..")


def text_of(*path: str) -> str:
    with open(os.path.join(PLACE, *path), encoding="utf-8") as file:
        return file.read()


class Package(unittest.TestCase):
    def test_metadata(self) -> None:
        text = text_of("pyproject.toml")
        self.assertIn(f'version = "{tabd.__version__}"', text)
        for line in ('authors = [{ name = "The tabd authors" }]', "dependencies = []"):
            self.assertIn(line, text)

    def test_each_package_is_named(self) -> None:
        found = [folder for folder, _, names in os.walk(os.path.join(PLACE, "tabd")) if "__init__.py" in names]
        names = sorted(os.path.relpath(folder, PLACE).replace(os.sep, ".") for folder in found)
        self.assertIn(f"packages = {names}".replace("'", '"'), text_of("pyproject.toml"))

    def test_links(self) -> None:
        """A reader of the package has what they lead to."""
        links = re.findall(r"\]\(([^)]+)\)", text_of("README.md"))
        self.assertIn("LICENSE", links)
        for link in links:
            self.assertTrue(link.startswith("https://") or ".." not in link and os.path.exists(os.path.join(PLACE, link)), link)

    def test_the_licence_is_the_repositorys(self) -> None:
        if not os.path.exists(os.path.join(PLACE, "..", "..", "crates.txt")):
            self.skipTest("this is not the repository")
        self.assertEqual(text_of("LICENSE"), text_of("..", "..", "LICENSE"))

    @needs_program
    def test_the_readme_runs(self) -> None:
        """It prints what the comments of its lines say."""
        blocks = re.findall(r"^```python\n(.*?)^```", text_of("README.md"), re.M | re.S)
        printed, names = io.StringIO(), {"__name__": "readme"}
        with Server() as server, contextlib.redirect_stdout(printed):
            for block in blocks:
                exec(block.replace("4000", str(server.port)), names)  # noqa: S102
        wanted = ["too young", "[('person', 'alice', 31)] 1", "[[('person', 'alice', 31)], ['alice']]"]
        wanted += ["Begin(table='person', records=[('person', 'alice', 31)])", "[('person', 'alice', 31)]", "[('person', 'alice', 32)]"]
        wanted += ["Begin(table='person', records=[('person', 'alice', 32)])", "[('person', 'alice', 32)]"]
        self.assertEqual(printed.getvalue().splitlines(), wanted)
        for line in wanted:
            self.assertIn(line, text_of("README.md"))


if __name__ == "__main__":
    unittest.main()
