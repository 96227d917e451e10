"""Older states, and what was set aside: which there are, and putting one back."""
from __future__ import annotations

import itertools
from typing import List

import relay_client

from .state import State, now
from .store import Store

TRIES = 20
"""The number of tries of a room that others edit."""


def listing(store: Store, room: str) -> List[str]:
    """A line for each state, the newest first: its time, its bytes, and whether it was set
    aside."""
    return [
        f"{it.time}  {it.bytes:>8} bytes{', set aside' if it.is_aside else ''}"
        for it in store.older(room)
    ]


def restore_kept(store: Store, room: str, time: str) -> str:
    """Makes a state the newest one. Needs the lease."""
    document = store.document(room, store.find(room, time))
    aside = store.set_aside(room)
    store.put(State(room, None, 0, document, now()))
    before = "it had none" if aside is None else f"what it had is set aside as {aside}"
    return f"{room}: the store has the state; {before}"


async def restore_room(url: str, store: Store, room: str, time: str) -> str:
    """Puts a state into the room, by an edit. A keeper that runs then writes it, as any other edit.
    Fails with `Refused`, as `stale`, if others edited in between each time."""
    document = store.document(room, store.find(room, time))
    async with relay_client.connect(f"{url}/rooms/{room}", view=[""]) as board:
        for tried in itertools.count(1):
            [[before]] = await board.watch([""])
            aside = store.write_aside(room, before)
            try:
                rev = await board.edit(
                    [{"op": "add", "path": "", "value": document}], base=board.rev
                )
                has = f"{room}: the room has the state, at revision {rev}"
                return f"{has}; what it had is set aside as {aside}"
            except relay_client.Refused as refused:
                if refused.fault != "stale" or tried == TRIES:
                    raise
                store.drop_aside(room, aside)
    raise AssertionError("the last try has ended it")
