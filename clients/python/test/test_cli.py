# SPDX-License-Identifier: Apache-2.0
"""`python3 -m tabd`: the syntax of terms, and the commands against the program."""

from __future__ import annotations

import contextlib
import http.server
import io
import json
import os
import subprocess
import sys
import threading
import unittest
from typing import Any, List, Tuple
from unittest import mock

from servers import HERE, PROGRAM, Server  # isort: skip (it makes `tabd` known)

from patience import Patient

import tabd
from tabd.cli import main
from tabd.cli.metrics import by_table, samples
from tabd.cli.text import Fault, parse, plain, show
from tabd.cli.wire import Records

# A text, the term as Erlang has it, and how it is shown; from the Erlang reference manual's "Data types" and "Bit syntax".
TERMS: List[Tuple[str, Any, str]] = [
    ("abc", "abc", "abc"),
    ("a_B@1", "a_B@1", "a_B@1"),
    ("'Any text'", "Any text", "'Any text'"),
    ("'it\\'s\\n'", "it's\n", "'it\\'s\\n'"),
    ("''", "", "''"),
    ("'end'", "end", "'end'"),
    ("_", "_", "'_'"),
    ("'_'", "_", "'_'"),
    ("ärger", "ärger", "'ärger'"),
    ("0", 0, "0"),
    ("-7", -7, "-7"),
    ("+7", 7, "7"),
    ("1_000", 1000, "1000"),
    ("16#fF", 255, "255"),
    ("-2#101", -5, "-5"),
    ("$a", 97, "97"),
    ("$\\n", 10, "10"),
    ("$ ", 32, "32"),
    ("170141183460469231731687303715884105727", 2**127 - 1, str(2**127 - 1)),
    ("{}", (), "{}"),
    ("{ a , {1} }", ("a", (1,)), "{a,{1}}"),
    ("[]", [], "[]"),
    ("[1,[a]]", [1, ["a"]], "[1,[a]]"),
    ('"ab"', [97, 98], "[97,98]"),
    ('"\\x{e9}"', [233], "[233]"),
    ("<<>>", b"", "<<>>"),
    ("<<1,2>>", b"\x01\x02", "<<1,2>>"),
    ('<<"text">>', b"text", '<<"text">>'),
    ('<<"a",0,"b">>', b"a\0b", "<<97,0,98>>"),
    ('<<"é"/utf8>>', "é".encode(), '<<"é"/utf8>>'),
    ('<<"say \\"x\\"">>', b'say "x"', '<<"say \\"x\\"">>'),
    ("<<255>>", b"\xff", "<<255>>"),
    ("#{}", {}, "#{}"),
    ("#{a => 1, <<1>> => [b]}", {"a": 1, b"\x01": ["b"]}, "#{a => 1,<<1>> => [b]}"),
    ("#{[1] => #{}}", tabd.Pairs((([1], {}),)), "#{[1] => #{}}"),
    (" % a comment\n a ", "a", "a"),
]

FAULTS = ("", "Alice", "_x", "1.5", "-1.0", "{a", "[a|b]", "[a,]", "<<256>>", '<<"é">>', "a b", "'abc", "#{a => 1, a => 2}")
FAULTS += ("1#0", "37#0", "2#3", "end", "<<a>>", "{,}", "\\")

PLAIN: List[Tuple[Any, Any]] = [
    (("t", 1), {"tuple": ["t", 1]}),
    ([1, "a"], [1, "a"]),
    (b"text", {"binary": "text"}),
    (b"\xff", {"base64": "/w=="}),
    ({"a": (1,)}, {"map": [["a", {"tuple": [1]}]]}),
]

PAGE = """# HELP tabd_commits_total Transactions.
# TYPE tabd_commits_total counter
tabd_commits_total 12
tabd_tables 2
tabd_table_records{table="route"} 3
tabd_table_records{table="a \\"b\\""} 4
"""


class Text(unittest.TestCase):
    def test_terms(self) -> None:
        for text, term, shown in TERMS:
            with self.subTest(text):
                self.assertEqual(parse(text), term)
                self.assertIs(type(parse(text)), type(term))
                self.assertEqual(show(term), shown)
                self.assertEqual(parse(shown), term)

    def test_faults(self) -> None:
        for text in FAULTS:
            with self.subTest(text), self.assertRaises(Fault):
                parse(text)

    def test_json(self) -> None:
        for term, wanted in PLAIN:
            self.assertEqual(json.loads(json.dumps(plain(term))), wanted)

    def test_metrics(self) -> None:
        page = samples(PAGE)
        self.assertEqual(page["tabd_commits_total"], 12)
        self.assertEqual(by_table(page, "tabd_table_records"), {"route": 3, 'a "b"': 4})
        self.assertEqual(by_table(samples('tabd_table_records{table="a}\r \\"b"} 5\n'), "tabd_table_records"), {'a}\r "b': 5})
        self.assertIsNone(by_table(samples("tabd_tables 2\n"), "tabd_table_records"))
        self.assertEqual(by_table(samples("tabd_tables 0\n"), "tabd_table_records"), {})

    def test_pieces_of_records(self) -> None:
        terms = [("t", "é" * 200, b"x" * 300, [1, 2], [1, "a"], {1: 2, "a": [{}]}, -5, 10**20, [], (), tuple(range(300)), b"")] * 3
        data = b"".join(tabd.encode(term)[1:] for term in terms)
        for size in (1, 2, 3, 7, 100, len(data)):
            records, found = Records(), []
            for at in range(0, len(data), size):
                found += records.feed(data[at : at + size])
            self.assertEqual([tabd.decode(b"\x83" + record) for record in found], terms)
            self.assertEqual(records.rest, b"")


def run(*words: str) -> Tuple[int, List[str], List[str]]:
    """The status, and the lines of both outputs."""
    out, err = io.StringIO(), io.StringIO()
    with contextlib.redirect_stdout(out), contextlib.redirect_stderr(err):
        try:
            status = main(list(words))
        except SystemExit as end:
            status = int(end.code or 0)
    return status, out.getvalue().splitlines(), err.getvalue().splitlines()


@unittest.skipUnless(PROGRAM, "TABD names no program")
class Commands(Patient):
    def setUp(self) -> None:
        self.server = Server("--forever", "--batches")
        self.addCleanup(self.server.kill)
        variables = mock.patch.dict(os.environ, {"TABD_SERVER": f"127.0.0.1:{self.server.port}", "TABD_METRICS": ""})
        variables.start()
        self.addCleanup(variables.stop)

    def good(self, *words: str) -> List[str]:
        status, out, err = run(*words)
        self.assertEqual((status, err), (0, []), words)
        return out

    def bad(self, status: int, *words: str) -> str:
        found, out, err = run(*words)
        self.assertEqual((found, out), (status, []), words)
        self.assertTrue(err)
        if status == 1:
            self.assertEqual(len(err), 1, err)
        return err[-1]

    def test_records(self) -> None:
        self.assertEqual(self.good("create", "route", "--attributes", "name,hop", "--index", "hop"), [])
        self.assertEqual(self.good("write", "route", "alice", "7"), [])
        self.assertEqual(self.good("write", "route", '<<"bob">>', "{-1, [x]}"), [])
        self.assertEqual(self.good("read", "route", "alice"), ["{route,alice,7}"])
        self.assertEqual(self.good("read", "route", "nobody"), [])
        # Binaries are before atoms, by the tags 109 and 119.
        self.assertEqual(self.good("all", "route"), ['{route,<<"bob">>,{-1,[x]}}', "{route,alice,7}"])
        self.assertEqual(self.good("all", "route", "--keys"), ['<<"bob">>', "alice"])
        self.assertEqual(self.good("match", "route", "_", "7"), ["{route,alice,7}"])
        self.assertEqual(self.good("match", "route", "{route, _, {-1, _}}"), ['{route,<<"bob">>,{-1,[x]}}'])
        defined = {"type": "set", "attributes": ["name", "hop"], "index": ["hop"], "size": 2}
        self.assertEqual(json.loads(self.good("info", "route", "--json")[0]), defined)
        self.assertEqual(json.loads(self.good("read", "route", "alice", "--json")[0]), {"tuple": ["route", "alice", 7]})
        self.assertEqual(self.good("delete", "route", "alice", "--json"), ['"ok"'])
        self.assertEqual(self.good("all", "route", "--keys"), ['<<"bob">>'])
        self.assertEqual(self.good("drop", "route"), [])
        self.assertIn("{no_exists,route}", self.bad(1, "read", "route", "1"))

    def test_bags_and_errors(self) -> None:
        self.good("create", "call", "--type", "bag")
        for value in ("1", "2", "1"):
            self.good("write", "call", "k", value)
        self.assertEqual(self.good("read", "call", "k"), ["{call,k,1}", "{call,k,2}"])
        self.assertIn("already_exists", self.bad(1, "create", "call"))
        self.assertIn("bad_type", self.bad(1, "write", "call", "k", "1", "2"))
        self.bad(2, "write", "call", "k")
        self.bad(2, "write", "call", "K", "1")
        self.bad(2, "read", "call")
        self.bad(2, "match", "call", "{other, _, _}")
        self.bad(2, "no_such_command")
        self.bad(2, "bench", "--connections", "0")
        self.assertIn("no connection", self.bad(1, "--server", "1", "read", "call", "k"))
        self.assertIn("no connection", self.bad(1, "read", "--server", "/nowhere/socket", "call", "k"))
        self.bad(2, "--server", "127.0.0.1:70000", "read", "call", "k")
        with mock.patch.dict(os.environ, {"TABD_SERVER": ""}):
            self.bad(2, "read", "call", "k")

    def test_watch(self) -> None:
        self.good("create", "t")
        self.good("write", "t", "0", "a")
        words = [sys.executable, "-m", "tabd", "watch", "--dump", "--detailed", "--count", "4", "t"]
        with subprocess.Popen(words, cwd=os.path.join(HERE, ".."), stdout=subprocess.PIPE, text=True) as watcher:
            assert watcher.stdout is not None
            self.assertEqual(watcher.stdout.readline(), "begin table=t\n")
            self.assertEqual(watcher.stdout.readline(), "  {t,0,a}\n")
            self.good("write", "t", "0", "b")
            self.good("delete", "t", "0")
            self.good("drop", "t")
            lines = watcher.stdout.read().splitlines()
            self.assertEqual(watcher.wait(), 0)
        self.assertEqual(lines[0], "write record={t,0,b} age=2 commit=2 old=[{t,0,a}]")
        self.assertEqual(lines[1], "delete table=t key=0 age=3 commit=3 old=[{t,0,b}]")
        self.assertEqual(lines[2], "end table=t reason=deleted")

    def test_bench(self) -> None:
        found = json.loads(self.good("bench", "--json", "--seconds", "0.3", "--connections", "2", "--load", "mixed")[0])
        self.assertGreater(found["requests"], 0)
        self.assertLessEqual(found["p50_microseconds"], found["p999_microseconds"])

    def test_metrics(self) -> None:
        self.bad(2, "top")
        with Server("--forever", "--metrics", "0") as server:
            assert server.process.stdout is not None
            port = server.process.stdout.readline().rsplit(":", 1)[1].strip()
            page = json.loads(self.good("top", "--metrics", port, "--count", "1", "--json")[0])
            self.assertEqual(page["tabd_tables"], 0)
            self.assertEqual(page["sessions"], [])
            with tabd.Client(server.port) as client:
                client.create_table("t")
                sessions = json.loads(self.good("top", "--metrics", port, "--count", "1", "--json")[0])["sessions"]
                self.assertEqual([(one["session"], one["state"], one["waits_for"]) for one in sessions], [("1", "idle", "-")])
                lines = self.good("top", "--metrics", port, "--count", "1")
            self.assertTrue(any("commits" in line for line in lines))
            self.assertEqual([line.split()[:2] for line in lines[-2:]], [["session", "state"], ["1", "idle"]])
        with page_of("tabd_tables 2\n") as port:
            self.assertIn("tabd_table_records", self.bad(1, "tables", "--metrics", port))
        with page_of(PAGE) as port:
            self.assertEqual(self.good("tables", "--metrics", port), ['a "b"\t4', "route\t3"])
            self.assertEqual(json.loads(self.good("tables", "--json", "--metrics", port)[1]), {"table": "route", "records": 3})
        self.assertIn("no metrics", self.bad(1, "tables", "--metrics", "1"))


@contextlib.contextmanager
def page_of(text: str) -> Any:
    """A server of one page; gives its port."""

    class Handler(http.server.BaseHTTPRequestHandler):
        def do_GET(self) -> None:
            self.send_response(200)
            self.end_headers()
            self.wfile.write(text.encode())

        def log_message(self, *_: object) -> None:
            pass

    server = http.server.HTTPServer(("127.0.0.1", 0), Handler)
    thread = threading.Thread(target=server.serve_forever, args=(0.02,), daemon=True)
    thread.start()
    try:
        yield str(server.server_port)
    finally:
        server.shutdown()
        thread.join()
        server.server_close()


if __name__ == "__main__":
    unittest.main()
