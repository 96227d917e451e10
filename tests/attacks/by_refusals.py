"""Attacks by what is refused: texts of a hundred bytes for which the relay copies or moves much
before it refuses them."""

import functools

import heavy
from attackers import ATTACKS, Wrong, attack
from support import wire

EDITORS = 18
# A list of half of a document's weight: one copy of it fits beside it, and a second one does not.
HALF = {"a": [0] * 16_000}
COPY = {"op": "copy", "from": "/a", "path": "/b"}
TOO_HEAVY = wire.request("edit", patch=[COPY, {**COPY, "path": "/c"}])
# Sixteen copies to one place, each of which replaces the one before, and then one too many.
SIXTEEN = wire.request("edit", patch=[COPY] * 16 + [{**COPY, "path": "/c"}])
# A value of four levels that is moved to the 62nd.
TOO_DEEP = wire.request("edit", patch=[{"op": "move", "from": "/deep", "path": "/to" + "/a" * 61}])
# A list that doubles ten times; the last operation is refused.
DOUBLED = [{"op": "add", "path": "", "value": ["a" * 40]}]
DOUBLED += [{"op": "copy", "from": "", "path": "/-"}] * 10
DOUBLED += [{"op": "test", "path": "", "value": 0}]
SESSIONS = 240
EARNED = 60
CHEAP = 30


def refuse(attackers, count, document, text, seconds=5):
    """The same text from so many connections in one room, for so long, as fast as it is read."""
    clients = [attackers.open("refused") for _ in range(count)]
    heavy.set_document(clients[0], document)
    reply = clients[0].ask(text)
    if reply["kind"] != "refused":
        raise Wrong(f"it is answered {reply}")
    attackers.pour(clients, text, seconds=seconds)


@attack
def refused_copies(attackers):
    """Copies that the document has no room for, from 18 connections for five seconds."""
    refuse(attackers, EDITORS, HALF, TOO_HEAVY)


@attack
def refused_moves(attackers):
    """Moves of a large list that end one level too deep, from 18 connections for five seconds."""
    to = 0
    for _ in range(62):
        to = {"a": to}
    refuse(attackers, EDITORS, {"to": to, "deep": [[[0] * 15_000]]}, TOO_DEEP)


def doubled(attackers, count):
    """A list that doubles again and again in a room that is `null`, and is then refused."""
    refuse(attackers, count, None, wire.request("edit", patch=DOUBLED))


ATTACKS.update({f"doubled-{n}": functools.partial(doubled, count=n) for n in (1, 4, 18)})


@attack
def wills_that_fail(attackers):
    """240 sessions whose wills double a list and are then refused. All close at once."""
    clients = attackers.open_many(["refused"] * SESSIONS)
    for client in clients:
        reply = client.ask(wire.request("will", patch=DOUBLED))
        if reply["kind"] != "willing":
            raise Wrong(f"a will is answered {reply}")
    attackers.leave()
    attackers.stay(3)


@attack
def earned(attackers):
    """60 connections that have earned credit by cheap texts send sixteen copies each, once."""
    clients = [attackers.open("refused") for _ in range(EARNED)]
    heavy.set_document(clients[0], HALF)
    cheap = wire.request("unwatch")
    for _ in range(CHEAP):
        for client in clients:
            client.send(cheap)
        for client in clients:
            client.message()
    for client in clients:
        client.send(SIXTEEN)
    for client in clients:
        reply = client.message()
        if reply["kind"] != "refused":
            raise Wrong(f"copies are answered {reply}")


def pour_short(attackers, count):
    """Texts of 14 bytes from so many connections in the good client's room."""
    clients = [attackers.open("good") for _ in range(count)]
    attackers.pour(clients, wire.frame(b'{"do":"watch"}'))


ATTACKS.update({f"short-{n}": functools.partial(pour_short, count=n) for n in (17, 40)})
