"""Attacks by what a container is made of: values that move again and again, and texts of nests."""

import heavy
from attackers import Wrong, attack
from by_length import LONGEST
from support import wire

MOVES = 40
NAMES = 19_000
# Of one document, by its weight, depth and the weight of a level of its nests.
WEIGHT, DEPTH, LEVEL = 255_000, 60, 9
ROOMS = 26


def nests():
    """So many nests of one-member objects as a document holds."""
    value = 0
    for _ in range(DEPTH):
        value = {"a": value}
    return [value] * (WEIGHT // (DEPTH * LEVEL + 8))


def move_about(attackers, value):
    """A value that moves to another member and back, from one connection."""
    client = attackers.open("moves")
    heavy.set_document(client, {"a": value})
    for _ in range(MOVES):
        for start, end in ("/a", "/b"), ("/b", "/a"):
            patch = [{"op": "move", "from": start, "path": end}]
            reply = client.ask(wire.request("edit", patch=patch))
            if reply["kind"] != "done":
                raise Wrong(f"a move is answered {reply}")


@attack
def moves_of_nests(attackers):
    """Nests of one-member objects move to and fro."""
    move_about(attackers, nests())


@attack
def moves_of_an_object(attackers):
    """One object of 19,000 members moves to and fro."""
    move_about(attackers, {f"{number}": 0 for number in range(NAMES)})


@attack
def moves_beside_an_object(attackers):
    """The first member of 19,000 moves to the end and back, 64 times an edit."""
    client = attackers.open("moves")
    heavy.set_document(client, {f"{number:05}": 0 for number in range(NAMES)})
    there = {"op": "move", "from": "/00000", "path": "/99999"}
    back = {"op": "move", "from": "/99999", "path": "/00000"}
    for _ in range(MOVES):
        reply = client.ask(wire.request("edit", patch=[there, back] * 32))
        if reply["kind"] != "done":
            raise Wrong(f"moves are answered {reply}")


@attack
def one_member_objects(attackers):
    """26 rooms of nests of one-member objects, which stay."""
    document = nests()
    for room in range(ROOMS):
        heavy.set_document(attackers.open(f"nests{room}"), document)


@attack
def nested_text(attackers):
    """Texts of 1 MB of nested one-member objects, one after another."""
    nest = b'{"":' * DEPTH + b"0" + b"}" * DEPTH
    head, end = b'{"do":"edit","id":1,"patch":[{"op":"add","path":"","value":[', b"]}]}"
    count = (LONGEST - len(head) - len(end) + 1) // (len(nest) + 1)
    client = attackers.open("nested")
    for _ in range(8):
        reply = client.ask(wire.frame(head + b",".join([nest] * count) + end))
        if reply.get("fault") != "too-heavy":
            raise Wrong(f"nests are answered {reply}")
