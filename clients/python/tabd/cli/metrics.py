# SPDX-License-Identifier: Apache-2.0
"""The server's page of metrics (`tabd serve --metrics`)."""

from __future__ import annotations

import argparse
import http.client
import os
import re
from typing import Dict, List, Optional

from .common import Failure, Usage, address

SECONDS = 5.0
LINE = re.compile(r'([a-zA-Z_:][\w:]*)(\{(?:[^"}]|"(?:[^"\\]|\\.)*")*\})?\s+(\S+)')
LABEL = re.compile(r'table="((?:[^"\\]|\\.)*)"')


def add_metrics(parser: argparse.ArgumentParser) -> None:
    parser.add_argument("--metrics", metavar="PORT", help="the server's --metrics, PORT or HOST:PORT; without it the variable TABD_METRICS")


def page_of(words: argparse.Namespace) -> Dict[str, float]:
    """The page's samples: a value for each name, its labels included."""
    body = _body(words, "/metrics")
    assert body is not None
    return samples(body)


def sessions_of(words: argparse.Namespace) -> List[Dict[str, str]]:
    """The lines of the page of sessions, each by the names of its columns. None of a server that has no such page."""
    lines = (_body(words, "/sessions", missing=True) or "").splitlines()
    names = lines[0].split() if lines else []
    return [dict(zip(names, line.split())) for line in lines[1:]]


def _body(words: argparse.Namespace, path: str, missing: bool = False) -> Optional[str]:
    """The page's text, or None if there is none and it may be missing."""
    text: Optional[str] = words.metrics or os.environ.get("TABD_METRICS")
    if not text:
        raise Usage("which page of metrics? say --metrics PORT or HOST:PORT, or set TABD_METRICS")
    port, host = address(text)
    if isinstance(port, str):
        raise Usage(f"{text}: metrics are at a port")
    page = http.client.HTTPConnection(host, port, timeout=SECONDS)
    try:
        page.request("GET", path)
        answer = page.getresponse()
        body = answer.read().decode("utf-8", "replace")
        if missing and answer.status == 404:
            return None
        if answer.status != 200:
            raise Failure(f"{text} answers GET {path} with status {answer.status}")
    except OSError as error:
        raise Failure(f"no metrics at {text}: {error}") from error
    except http.client.HTTPException as error:
        raise Failure(f"{text} is no page of metrics: {type(error).__name__}") from error
    finally:
        page.close()
    return body


def samples(body: str) -> Dict[str, float]:
    """The samples of a page in the text that Prometheus reads."""
    found: Dict[str, float] = {}
    # A table's name may have any other line end in it.
    for line in body.split("\n"):
        match = LINE.match(line)
        if match is not None and not line.startswith("#"):
            found[match.group(1) + (match.group(2) or "")] = float(match.group(3))
    return found


def by_table(page: Dict[str, float], metric: str) -> Optional[Dict[str, float]]:
    """The metric's value for each table, or None if the page has no table."""
    found: Dict[str, float] = {}
    for name, value in page.items():
        label = LABEL.search(name) if name.startswith(metric + "{") else None
        if label is not None:
            found[re.sub(r"\\(.)", lambda escape: "\n" if escape.group(1) == "n" else escape.group(1), label.group(1))] = value
    return found or (None if page.get("tabd_tables", 1) else {})
