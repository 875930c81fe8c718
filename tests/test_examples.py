"""The programs of examples/ that end by themselves: a mirror of a replay's tables, and writers and a mirror of a server."""

import os
import subprocess
import sys
from typing import Any

import pytest

EXAMPLES = os.path.join(os.path.dirname(__file__), "..", "examples")


@pytest.mark.parametrize("example", ["mirror.py", "served.py"])
def test_example(tabd: str, example: Any) -> None:
    done = subprocess.run([sys.executable, os.path.join(EXAMPLES, example), tabd], capture_output=True, text=True, timeout=200, check=False)
    assert done.returncode == 0, done.stdout + done.stderr
