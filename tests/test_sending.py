"""The thread that sends the events of all connections.

It never waits: a connection that takes no more is left to a thread of its own. No contract covers that: so it is tried here with clients that
read slowly, close or leave their events unread, beside others that read. Each event comes once, whole and in order.
"""

import os
import time
from typing import Callable, List

import pytest

from tests.lib.checks import ATOMIC, CREATE, END, HERE_OK, OK, QUIET, UNWATCH, change, event, follow, holds, one_shot, script, side_by_side, write
from tests.lib.sending import Sent, both_ways, commit_all, items, reads, served, watched
from tests.lib.servers import Server
from tests.lib.wire import Closed, Connection, Term

# An event comes after so many seconds at most, also on a busy machine.
DELAY = 5.0
# Items over 64 KB are long; a socket with small buffers has no room for 30 of 4,000 bytes.
LONG, MIDDLE, SHORT = bytes(100_000), bytes(4_000), b"s"


@both_ways("of events", "of batches", 3, "--outbox", "1024", small=True)
def test_a_slow_reader_delays_no_one(clients: List[Connection], sent: Sent) -> None:
    """One reads nothing: another's events come at once, and its own come whole and in order as soon as it reads."""
    idle, writer, reader = clients
    watched(writer, idle, reader)
    # More than the buffers of any socket hold.
    values = [LONG if number % 20 == 0 else MIDDLE for number in range(1, 301)]
    wanted = items(values, sent)
    for number, value in enumerate(values, 1):
        begun = time.monotonic()
        change(writer, write(number, value))
        holds("the one that reads", reader.event() == wanted[number - 1])
        assert time.monotonic() - begun < DELAY, "it comes late"
    idle.widen()
    reads(idle, wanted)


@served(12, "--outbox", "4096")
def test_eight_subscribers(clients: List[Connection]) -> None:
    """Of four writers' commits each of eight gets each event once, in the same order, in which each writer's are in its own."""
    writers, readers = clients[:4], clients[4:]
    each = 100
    watched(writers[0], *readers)
    logs: List[List[Term]] = [[] for _ in readers]

    def commit_keys(writer: Connection, first: int) -> None:
        for key in range(first, first + each):
            assert writer.ask(one_shot(write(key, SHORT), retries=1000)) == ("atomic", [OK]), "a commit"

    def follow(reader: Connection, log: List[Term]) -> None:
        for _ in range(each * len(writers)):
            log.append(reader.event())

    follows = [(follow, (reader, log)) for reader, log in zip(readers, logs)]
    side_by_side([*follows, *((commit_keys, (writer, 1000 * number)) for number, writer in enumerate(writers))])
    keys = [told[1][1][1] for told in logs[0]]
    assert sorted(keys) == [1000 * number + key for number in range(len(writers)) for key in range(each)], "each once"
    for number in range(len(writers)):
        assert [key for key in keys if key // 1000 == number] == [1000 * number + key for key in range(each)], "a writer's order"
    assert all(log == logs[0] for log in logs), "the same for all"


@served(5, "--outbox", "1024")
def test_subscribers_that_close(clients: List[Connection]) -> None:
    """Two close while events are on their way, one of them with events unread: the others get all."""
    reader, writer, quits, breaks, late = clients
    watched(writer, reader, quits, breaks)
    wanted = items([MIDDLE] * 200)
    for number in range(1, len(wanted) + 1):
        change(writer, write(number, MIDDLE))
        if number == 50:
            quits.close()
        if number == 100:
            breaks.break_off()
            follow(late)
    reads(reader, wanted)
    reads(late, wanted[100:])


@both_ways("of events", "of batches", 3, "--outbox", "1024")
def test_long_and_short_items(clients: List[Connection], sent: Sent) -> None:
    """Long items are in order with short ones, for one that reads meanwhile and for one that reads later."""
    writer, reader, late = clients
    watched(writer, reader, late)
    values = [(SHORT, LONG, MIDDLE, LONG, SHORT)[number % 5] for number in range(100)]
    wanted = items(values, sent)
    side_by_side([(reads, (reader, wanted)), (commit_all, (writer, values))])
    reads(late, wanted)


@served(2, "--outbox", "1024", small=True)
def test_replies_between_unread_events(clients: List[Connection]) -> None:
    """Replies to a client that reads nothing do not come inside of an event that was begun, nor does an event come inside of them."""
    client, writer = clients
    count = 120
    script((writer, CREATE, ATOMIC))
    change(writer, write(0, LONG))
    follow(client)
    for number in range(2, count + 2):
        change(writer, write(number, MIDDLE))
        if number % 20 == 0:
            client.send(one_shot(("read", "t", 0)), one_shot(("read", "t", number)))
            time.sleep(QUIET)
    client.widen()
    for number in range(20, count + 1, 20):
        for record in ("t", 0, LONG), ("t", number, MIDDLE):
            holds(f"reply of {number}", client.reply() == ("atomic", [[record]]))
    holds("events", [client.event()[1][1][1] for _ in range(count)] == list(range(2, count + 2)))


@pytest.mark.usefixtures("plain")
@pytest.mark.parametrize("takes", ["part", "none"])
def test_sends_that_take_a_part(serve: Callable[..., Server], library: Callable[[str], str], takes: str) -> None:
    """Each send without a wait takes a part of the bytes, or none: what is left comes before all else."""
    server = serve("--connections", "3", "--outbox", "1024", env={**os.environ, "LD_PRELOAD": library("partial"), "TAKES": takes})
    writer, reader, late = server.clients(3)
    watched(writer, reader, late)
    values = [(SHORT, MIDDLE, MIDDLE, LONG)[number % 4] for number in range(200)]
    wanted = items(values)
    side_by_side([(reads, (reader, wanted)), (commit_all, (writer, values))])
    # A reply comes between two events.
    script((late, "commit", ("error", "no_transaction")))
    reads(late, wanted)


@pytest.mark.parametrize("value", [pytest.param(MIDDLE, id="short"), pytest.param(LONG, id="long")])
@served(2, "--outbox", "1024", small=True)
def test_unread_events_at_the_end(clients: List[Connection], value: bytes) -> None:
    """The stream of one that has read no event ends: its session leaves, and what was committed before comes still."""
    client, writer = clients
    watched(writer, client)
    values = [value] * 60
    commit_all(writer, values)
    client.half_close()
    time.sleep(QUIET)
    client.widen()
    reads(client, items(values))
    with pytest.raises(Closed):
        client.receive()


@served(2, "--outbox", "1024")
def test_subscribed_again(clients: List[Connection]) -> None:
    """One that subscribes, ends it and subscribes again gets the markers and the events between, each at once."""
    client, writer = clients
    script((writer, CREATE, ATOMIC))
    for number in range(1, 40, 2):
        follow(client)
        change(writer, write(number, SHORT))
        assert client.event() == event(number, SHORT, number), "an event"
        script((client, UNWATCH, HERE_OK))
        assert client.event() == END, "end marker"
        change(writer, write(number + 1, SHORT))
    assert not client.events, "no more"
