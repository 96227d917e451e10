"""A new connection to a new room, as somebody makes it who comes later: it is answered, edits, and
is told."""

from support import wire
from support.patience import Deadline, OutOfTime

REPLIES = [
    {"id": 1, "kind": "watching"},
    {"kind": "snapshot", "rev": 0, "view": [[None]]},
    {"id": 2, "kind": "done", "rev": 1},
    {"kind": "patch", "patch": [{"op": "replace", "path": "/0", "value": ["new"]}], "rev": 1},
]


def fault_of(port, room, seconds):
    """Tells why it is not served within that time, or None."""
    try:
        with wire.Client(port, room, Deadline(seconds)) as client:
            replies = replies_to(client)
    except wire.Ended as ended:
        return f"a new connection is {ended}"
    except OutOfTime:
        return f"a new connection is not served within {seconds:g} s"
    return None if replies == REPLIES else f"a new session is told {replies}"


def replies_to(client):
    client.send(wire.request("watch", 1, view=[""]))
    replies = [client.message(), client.message()]
    return [*replies, client.set("new", number=2), client.message()]
