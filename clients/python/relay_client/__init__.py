"""A client of the relay (docs/PROTOCOL.md): the slots of a view, which stay right when connections
are lost and the relay is restarted.

    async with relay_client.connect("ws://127.0.0.1:8080/rooms/board", view=["/cards"]) as board:
        await board.edit([{"op": "add", "path": "/cards/-", "value": "milk"}])
        async for change in board.changes():
            print(change.rev, change.slots)

It needs the package `websockets`.
"""
from .board import Board, connect
from .changes import Change
from .draft import DraftList, DraftObject
from .elements import Keyed
from .faults import Closed, HandshakeFailed, Refused, Superseded, Unknown
from .place import Place
from .pointers import pointer
from .transport import Link, LinkLost, OpenLink
from .values import Json, Operation, Patch, Slot, Slots, State, View

__all__ = [
    "Board",
    "Change",
    "Closed",
    "DraftList",
    "DraftObject",
    "HandshakeFailed",
    "Json",
    "Keyed",
    "Link",
    "LinkLost",
    "OpenLink",
    "Operation",
    "Patch",
    "Place",
    "Refused",
    "Slot",
    "Slots",
    "State",
    "Superseded",
    "Unknown",
    "View",
    "connect",
    "pointer",
]
