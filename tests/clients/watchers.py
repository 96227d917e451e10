#!/usr/bin/env python3
"""Clients that only watch a room that nobody began: they take no room, wait, and are shown it once
somebody begins it.

Usage: tests/clients/watchers.py   (GO_PLAYER, JAVA_PLAYER: as tests/clients/run has them)"""

import pathlib
import sys

sys.path.append(str(pathlib.Path(__file__).resolve().parents[1]))
from players import WATCHES, in_each_language
from support import asking
from support.patience import becomes
from support.play import main, shows
from support.ports import free_port
from support.relay import Relay
from support.room import Room

REFUSED = 'relay_handshakes_refused_total{status="404"}'


async def refused(admin):
    """The number of handshakes that were answered 404."""
    return asking.metric(admin, REFUSED)


@shows
async def clients_that_only_watch_wait_for_their_room():
    admin = free_port()
    with Relay("--admin", admin) as relay:
        clients = await in_each_language(relay.url("late"), ["/n"], WATCHES)
        # Each has three connections at least, which are tried again and again.
        await becomes(lambda: refused(admin), lambda count: count >= 6 * len(clients))
        assert [(await client.look())["slots"] for client in clients] == [None] * len(clients)
        assert asking.metric(admin, "relay_rooms") == 0
        assert (await Room(relay, "late").set({"n": 7}))["rev"] == 1
        for client in clients:
            await becomes(client.look, lambda seen: seen["slots"] == [[7]])
            await client.leave()


main()
