"""Plays the scripts of played.txt on connections to one server."""

import time
from typing import Callable, Dict, List

from tests.lib.checks import at_last, differs, waits
from tests.lib.notation import Step, parts_of, rows_of
from tests.lib.wire import Connection, Term, frame

SCRIPTS: Dict[str, List[Step]] = {name: rows_of(terms) for name, *terms in parts_of("played.txt")}


def played(client: Connection, request: Term, wanted: Term) -> Term:
    """What comes of a step on its connection."""
    if request in ("close", "break_off", "half_close"):
        getattr(client, request)()
        return wanted
    if request == "take":
        return wanted if wanted == "empty" else client.event()
    if request[0] == "at_last":
        return at_last(client, request[1])
    if request[0] == "in_bytes":
        for byte in frame(request[1]):
            client.socket.sendall(bytes([byte]))
            time.sleep(0.01)
    elif request != "retry":
        client.send(*request if isinstance(request, list) else [request])
    return answered(client, request, wanted)


def answered(client: Connection, request: Term, wanted: Term) -> Term:
    """The reply, or the wanted word if it is so."""
    if wanted == "waiting":
        waits(client)
    if wanted in ("waiting", "sent"):
        return wanted
    if wanted == "closed":
        return client.stream.read() or wanted
    return [client.reply() for _ in wanted] if isinstance(request, list) else client.reply()


def play(clients: List[Connection], name: str) -> None:
    """The script of this name, whose connections are numbered from 1."""
    __tracebackhide__ = True
    for line, (number, request, wanted) in enumerate(SCRIPTS[name], 1):
        found = played(clients[number - 1], request, wanted)
        assert found == wanted, differs(f"step {line}, connection {number}, {request!r:.200}", found, wanted)
    assert not any(client.events for client in clients), "an event that was not taken"


def scripted(name: str) -> Callable[[List[Connection]], None]:
    """A case that plays the script of this name."""

    def case(clients: List[Connection]) -> None:
        play(clients, name)

    return case
