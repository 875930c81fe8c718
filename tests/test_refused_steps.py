"""A script of a book's calls with one allocation refused, each in turn: the test `refused` of tab_book_tests, as the gate built it.

The script joins, makes steps of which some fold the journal, takes what a mailbox holds and audits; each call that found no memory is made
again, and then all replies have to be the script's. The test program next to the tested one (tab_book_tests/out) is run once for each of its
allocations, until a run meets no refusal. A refusal of the book itself ends a run, since a book is made once. The same test before any proof,
with one refusal: `rt try --test --fail-alloc N -- refused` in crates/tab_book_tests.
"""

import itertools
import os
import subprocess
from typing import Any, Callable, List, Tuple

import pytest

TEST = "refused::a_refused_step_is_made_again"
NO_BOOK = b"no book"
# The script makes far more allocations than this: if it seems to make fewer, none was refused.
FEWEST = 100


def run(tests: Any, library: str, nth: int, report: Any) -> Tuple[Any, ...]:
    """The test's status, its output, and whether its nth allocation was refused, which the library writes to the report."""
    report.truncate(0)
    env = {"LD_PRELOAD": library, "NTH": str(nth), "REPORT": str(report.fileno())}
    done = subprocess.run(
        [tests, TEST], env=env, pass_fds=[report.fileno()], stdout=subprocess.PIPE, stderr=subprocess.STDOUT, timeout=60, check=False
    )
    return done.returncode, done.stdout, os.fstat(report.fileno()).st_size > 0


def test_refused_steps(tabd: str, library: Callable[[str], str], tmp_path: Any) -> None:
    tests = os.path.join(os.path.dirname(tabd), "../../tab_book_tests/out/tab_book_tests_tests")
    if not os.path.exists(tests):
        pytest.skip(f"{tests} is not built: rt test in crates/tab_book_tests builds it")
    faults: List[str] = []
    with open(tmp_path / "report", "w+b") as report:
        for nth in itertools.count(1):
            status, said, is_refused = run(tests, library("refusing_replay"), nth, report)
            if status and not (is_refused and NO_BOOK in said):
                faults.append(f"allocation {nth}: status {status}, {said[-200:]!r}")
            if not is_refused:
                break
    assert not faults
    assert nth >= FEWEST, "so few allocations"
