#!/usr/bin/env python3
"""A relay that is started closed: the clients are refused with 503, come back by themselves, and
are let in once an operator opens it.

Usage: tests/clients/closed.py   (GO_PLAYER, JAVA_PLAYER: as tests/clients/run has them)"""

import pathlib
import sys

sys.path.append(str(pathlib.Path(__file__).resolve().parents[1]))
from players import in_each_language
from support import asking
from support.patience import becomes
from support.play import main, shows
from support.ports import free_port
from support.relay import Relay
from support.room import Room

REFUSED = 'relay_handshakes_refused_total{status="503"}'
OPEN = "POST /open HTTP/1.1"


async def refused(admin):
    """The number of handshakes that were answered 503."""
    return asking.metric(admin, REFUSED)


@shows
async def clients_come_back_to_a_relay_that_was_closed():
    admin = free_port()
    with Relay("--closed", "--admin", admin) as relay:
        clients = await in_each_language(relay.url("late"), ["/n"])
        # Each has three connections at least, which are tried again and again.
        await becomes(lambda: refused(admin), lambda count: count >= 6 * len(clients))
        assert [(await client.look())["slots"] for client in clients] == [None] * len(clients)
        assert asking.ask(admin, asking.head(OPEN)).status == 204
        assert (await Room(relay, "late").set({"n": 7}))["rev"] == 1
        for client in clients:
            await becomes(client.look, lambda seen: seen["slots"] == [[7]])
            await client.leave()


main()
