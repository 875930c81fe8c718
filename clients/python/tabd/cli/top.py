# SPDX-License-Identifier: Apache-2.0
"""`top`: the server's metrics and sessions, refreshed."""

from __future__ import annotations

import argparse
import json
import sys
import time
from typing import Callable, Dict, List, Tuple

from .common import flush, fraction, number, say_line
from .metrics import add_metrics, by_table, page_of, sessions_of

# The rates, by the counter that each is made of, and what is shown as it is.
RATES = (
    ("commits", "tabd_commits_total"),
    ("aborts", "tabd_aborts_total"),
    ("restarts", "tabd_restarts_total"),
    ("waits", "tabd_waits_total"),
    ("given up", "tabd_given_up_total"),
    ("items sent", "tabd_items_sent_total"),
    ("overflows", "tabd_overflows_total"),
    ("bytes read", "tabd_read_bytes_total"),
    ("bytes written", "tabd_written_bytes_total"),
)
LEVELS = (
    ("sessions", "tabd_sessions"),
    ("open transactions", "tabd_open_transactions"),
    ("oldest transaction, s", "tabd_oldest_transaction_seconds"),
    ("tables", "tabd_tables"),
    ("records", "tabd_records"),
    ("journal entries", "tabd_journal_entries"),
)


def lines_of(page: Dict[str, float], before: Dict[str, float], seconds: float) -> List[str]:
    """The lines to show: totals with their rates since the previous page, then the other metrics."""
    lines = [f"{'':24}{'a second':>14}{'in all':>18}"]
    for name, metric in RATES:
        if metric in page:
            rate = (page[metric] - before.get(metric, page[metric])) / seconds if seconds else 0.0
            lines.append(f"{name:24}{max(rate, 0):>14,.0f}{page[metric]:>18,.0f}")
    lines.append("")
    for name, metric in LEVELS:
        if metric in page:
            lines.append(f"{name:24}{page[metric]:>14,.6g}")
    tables = by_table(page, "tabd_table_records") or {}
    for name in sorted(tables, key=lambda name: -tables[name])[:20]:
        lines.append(f"  records of {name:20.20}{tables[name]:>14,.0f}")
    return lines


def lines_of_sessions(sessions: List[Dict[str, str]]) -> List[str]:
    """A heading and a line for each session: those with a transaction first, by the time that it is open."""
    if not sessions:
        return []
    rows = [list(sessions[0])] + [list(one.values()) for one in sorted(sessions, key=_busy)]
    widths = [max(len(row[column]) for row in rows) for column in range(len(rows[0]))]
    return [""] + ["  ".join(text.ljust(width) for text, width in zip(row, widths)).rstrip() for row in rows]


def _busy(session: Dict[str, str]) -> Tuple[int, int, int]:
    return session["state"] == "idle", -int(session["seconds"]), int(session["session"])


def top(words: argparse.Namespace) -> int:
    before: Dict[str, float] = {}
    then, left = 0.0, words.count
    while True:
        page, sessions, now = page_of(words), sessions_of(words), time.monotonic()
        if words.json:
            say_line(json.dumps({**page, "sessions": sessions}))
        else:
            clear = "\x1b[H\x1b[J" if sys.stdout.isatty() else ""
            say_line(clear + "\n".join(lines_of(page, before, now - then if before else 0.0) + lines_of_sessions(sessions)))
        flush()
        before, then = page, now
        left -= 1
        if left == 0:
            return 0
        time.sleep(words.every)


def add(command: Callable[..., argparse.ArgumentParser]) -> None:
    added = command("top", top, "the server's metrics and sessions, refreshed")
    add_metrics(added)
    added.add_argument("--every", type=fraction(0.05), default=1.0, metavar="SECONDS", help="how often; 1 without it")
    added.add_argument("--count", type=number(0), default=0, metavar="TIMES", help="ends after so many pages; 0 is never")
