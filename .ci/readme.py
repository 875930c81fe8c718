#!/usr/bin/env python3
"""Runs the sessions of README.md and of docs/TUTORIAL.md, in their order, and compares their output with the document; and README's pipe, of
which a reader takes one line. Each document's `$` lines start the servers of the built program that it needs, and each server gets a free port.

    readme.py PROGRAM

Erlang's sessions are skipped if `erl` is not installed, and a line says so. The last line is `N passed, M failed`, and the status is 1 if one
failed.
"""

import doctest
import os
import re
import shutil
import subprocess
import sys
import tempfile
from typing import Any, Dict, Iterator, List, Optional, Tuple, Union

TOP = os.path.join(os.path.dirname(os.path.abspath(__file__)), "..")
SESSION = re.compile(r"^```(pycon|erlang)\n(.*?)^```", re.M | re.S)
# The program that writes frames, and the one that shows them.
PIPE = re.compile(r"`(\S+ ask) \| \(cd crates/tabd && rt run -- replay\) \| (\S+ show)`")
DOCUMENTS = ("README.md", "docs/TUTORIAL.md")
# A line that starts a server, with its port.
SERVER = re.compile(r"^    \$ .*\bserve --port (\d+) (.*)$", re.M)
# The shell's prompt and an expression, and what it printed.
PROMPT = re.compile(r"^\d+> (.*)\n((?:(?!\d+> ).*\n)*)", re.M)


def serve(program: str, options: str) -> Tuple["subprocess.Popen[str]", str]:
    server = subprocess.Popen([program, "serve", "--port", "0", *options.split()], stdout=subprocess.PIPE, text=True)
    assert server.stdout
    return server, server.stdout.readline().strip().rsplit(":", 1)[1]


class Python:
    """One session, whose names stay from block to block."""

    def __init__(self, path: str) -> None:
        sys.path.insert(0, f"{TOP}/clients/python")
        self.path = path
        self.names: Dict[str, Any] = {}

    def differs(self, text: str) -> str:
        test = doctest.DocTestParser().get_doctest(text, self.names, self.path, self.path, 0)
        told: List[str] = []
        doctest.DocTestRunner().run(test, out=told.append, clear_globs=False)
        self.names = test.globs
        return "".join(told)


class Erlang:
    """A node of its own for each block, in the folder of the client's modules."""

    def __init__(self, room: str) -> None:
        self.room = room
        sources = [f"{TOP}/clients/erlang/tabd/src/{it}" for it in sorted(os.listdir(f"{TOP}/clients/erlang/tabd/src")) if it.endswith(".erl")]
        subprocess.run(["erlc", "-o", room, *sources], check=True)

    def differs(self, text: str) -> str:
        asked = PROMPT.findall(text)
        steps = ",".join(f'"{expression}"' for expression, _ in asked)
        code = (
            "Step = fun(Text, Names) -> {ok, Tokens, _} = erl_scan:string(Text), {ok, Parsed} = erl_parse:parse_exprs(Tokens),"
            ' {value, Value, Next} = erl_eval:exprs(Parsed, Names), io:format("~p~n", [Value]), Next end,'
            f" lists:foldl(Step, [], [{steps}]), halt()."
        )
        words = ["erl", "-noshell", "-pa", self.room, "-eval", code]
        told = subprocess.run(words, stdout=subprocess.PIPE, stderr=subprocess.STDOUT, text=True, timeout=60, check=False).stdout
        wanted = "".join(printed for _, printed in asked)
        return "" if told == wanted else f"printed {told!r}, wanted {wanted!r}\n"


def pipe_differs(text: str, program: str) -> str:
    """A replay between two programs that write and show frames; the reader ends after a line, and none of them prints an error."""
    found = PIPE.search(text)
    words = f"{found[1]} | {program} replay | {found[2]} | head -n 1" if found else "echo 'the document has no pipe'"
    ran = subprocess.run(words, shell=True, cwd=TOP, capture_output=True, text=True, timeout=60, check=False)
    told = ran.stdout, ran.stderr
    return "" if told == ("(1, 'ok')\n", "") else f"{words}: {told}\n"


def differences(path: str, program: str, erlang: Optional[Erlang]) -> Iterator[str]:
    """The difference of each session that is run."""
    with open(f"{TOP}/{path}", encoding="utf-8") as file:
        text = file.read()
    shells: Dict[str, Union[Python, Erlang, None]] = {"pycon": Python(path), "erlang": erlang}
    servers = {port: serve(program, options) for port, options in SERVER.findall(text)}
    try:
        for kind, session in SESSION.findall(text):
            shell = shells[kind]
            if not shell:
                print("no erlc: Erlang's session was skipped, and those after it")
                return
            for port, (_, free) in servers.items():
                session = re.sub(rf"\b{port}\b", free, session)
            yield shell.differs(session)
    finally:
        for server, _ in servers.values():
            server.kill()
            server.wait()


def main() -> None:
    if len(sys.argv) != 2:
        sys.exit(__doc__)
    program = os.path.abspath(sys.argv[1])
    with open(f"{TOP}/README.md", encoding="utf-8") as file:
        differ = [pipe_differs(file.read(), program)]
    with tempfile.TemporaryDirectory() as room:
        erlang = Erlang(room) if shutil.which("erlc") else None
        for path in DOCUMENTS:
            found = list(differences(path, program, erlang))
            differ += found or [f"{path}: no session was run\n"]
    print("".join(differ), end="")
    failed = sum(map(bool, differ))
    print(f"{len(differ) - failed} passed, {failed} failed")
    sys.exit(1 if failed else 0)


if __name__ == "__main__":
    main()
