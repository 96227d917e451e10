"""Heavy edits: a few bytes that stand for much work. Either a list of 15,000 is copied to one
place, again and again, so that the document stays within its limit, and each copy is a change of
its own that carries all values. Or a member of a large object is removed and added again: the
changes weigh nothing, and each removal moves the members behind it. Or a long string is shown,
again and again, in each slot of a view."""

from attackers import Wrong
from support import wire

ITEMS = 15_000
OPERATIONS = 64
COPY = {"op": "copy", "from": "/a", "path": "/t/b"}
# The copies come from outside these slots, so each slot is told all values of each copy.
VIEW = ["/t"] * 16
AGAIN = [{"op": "remove", "path": "/m0"}, {"op": "add", "path": "/m0", "value": 0}]

EDIT_MEMBERS = wire.request("edit", patch=AGAIN * (OPERATIONS // 2))
WATCH_STRING = wire.request("watch", view=["/a"] * 16)
OBJECT = {f"m{number}": 0 for number in range(18_000)}
STRING = {"a": "x" * 250_000}


def edit(copies):
    return wire.request("edit", patch=[COPY] * copies)


def leave(client, copies):
    """So many copies are done once the client's session is closed."""
    reply = client.ask(wire.request("will", patch=[COPY] * copies))
    if reply["kind"] != "willing":
        raise Wrong(f"the will is answered {reply}")


def begin(client, items=ITEMS):
    """Makes the document; the list is in its room from here on."""
    set_document(client, {"a": [0] * items, "t": {}})


def set_document(client, document):
    reply = client.set(document)
    if reply["kind"] != "done":
        raise Wrong(f"the document is answered {reply}")


def edit_heaviest(client, most=OPERATIONS):
    """The heaviest edit that the relay accepts, of so many copies at most. How many they were."""
    for copies in range(most, 0, -1):
        reply = client.ask(edit(copies))
        if reply["kind"] == "done":
            return copies
        if reply["fault"] != "too-heavy":
            raise Wrong(f"{copies} copies are answered {reply}")
    raise Wrong("not even one copy is accepted")
