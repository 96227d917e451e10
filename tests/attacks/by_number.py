"""Attacks by number: places that are taken and not used, and many that are told what each says."""

import functools

from attackers import ATTACKS, Harm, Wrong, attack
from support import wire

ROOMS = 64
EDITORS = 200
EDIT = wire.request("edit", patch=[{"op": "add", "path": "", "value": "x" * 7_000}])


@attack
def names_left(attackers):
    """64 rooms that are entered and left untouched."""
    opened = 0
    for room in range(ROOMS):
        opened += len(attackers.open_many([f"name{room}"]))
        attackers.leave()
    # The good client's room may take one of the places.
    if opened < ROOMS - 1:
        raise Wrong(f"only {opened} rooms are opened")


@attack
def watched_names(attackers):
    """63 sessions that only watch ask for rooms that nobody entered, each for one of its own. Then
    a client comes to write a new room: it has to be let in."""
    attackers.open_many([f"name{room}/watch" for room in range(ROOMS - 1)])
    try:
        reply = attackers.open("written").set("first")
    except wire.Ended as ended:
        raise Harm(f"a writer is {ended}") from None
    if reply["kind"] != "done":
        raise Harm(f"a writer is answered {reply}")


@attack
def editors(attackers, count=EDITORS):
    """So many clients of one room that watch it, read, and edit it for five seconds, 7 KB each
    time, as fast as they are read."""
    clients = attackers.open_many(["full"] * count)
    if len(clients) < count:
        raise Wrong(f"only {len(clients)} sessions are opened")
    for client in clients:
        client.watch([""])
    attackers.pour(clients, EDIT)


ATTACKS.update(
    {f"editors-{count}": functools.partial(editors, count=count) for count in (18, 60, 240)}
)
