"""What conftest.py makes of a command line."""

import argparse
from typing import Any

import pytest

from tests import conftest


class Config:
    """So much of a pytest.Config as the hook looks at."""

    def __init__(self, **options: Any) -> None:
        chosen = {"keyword": "", "markexpr": "", "lf": False, "collectonly": False}
        how = {"numprocesses": None, "usepdb": False, "capture": "fd", "dist": "no"}
        self.args, self.option = ["tests"], argparse.Namespace(**{**chosen, **how, **options})


@pytest.mark.parametrize(
    "options, is_worker, wanted",
    [({}, False, "auto"), ({}, True, None), ({"keyword": "a"}, False, None), ({"numprocesses": 2}, False, 2)],
    ids=["a whole run", "a worker", "one that chooses", "one with a number"],
)
def test_processes(options: Any, is_worker: bool, wanted: object) -> None:
    """A whole run takes all processors; its workers, which see the same arguments, start none."""
    config: Any = Config(**options)
    if is_worker:
        config.workerinput = {}
    conftest.pytest_cmdline_main(config)
    assert config.option.numprocesses == wanted
