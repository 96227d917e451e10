"""Finds patches that surely touch a slot (docs/PROTOCOL.md, "What a change means to a slot"): of
those the relay tells a watcher."""
from __future__ import annotations

from dataclasses import dataclass
from typing import Iterable, List, Optional

from .known import ABSENT, Part, Parts, at, goes_on, is_value, may_be_list, step
from .patch import Draft
from .pointers import Path, index, shown_path, tokens
from .values import Operation, Shown, View


@dataclass(frozen=True)
class Place:
    path: Path
    """With the index that `-` names, if that is known."""
    in_list: Optional[bool]
    """True if it is a position in a list; None if that is not known."""
    exchanged: bool
    """True if another value was merely set there, or may have been."""


def place_of(document: Part, path: Path, exchanged: bool = False) -> Place:
    """The place that a path names in a document of which this is known."""
    if not path:
        return Place(path, False, exchanged)
    holder, token = at(document, path[:-1]), path[-1]
    if is_value(holder):
        in_list: Optional[bool] = isinstance(holder, list)
    else:
        parts = holder if isinstance(holder, Parts) else Parts()
        in_list = None if may_be_list(parts, token) else False
    if in_list and token == "-":
        return Place((*path[:-1], str(len(holder))), in_list, exchanged)
    return Place(path, in_list, exchanged)


def touches(document: Part, patch: Iterable[Operation], view: View) -> bool:
    """True if a patch surely touches a slot of a view. `DoesNotFit` if it is known to be
    refused."""
    draft, touched = Draft(), False
    for operation in patch:
        if touched:
            document = step(document, operation, draft)
            continue
        after = step(document, operation)
        touched = any(
            _touches(shown, place) for shown in view for place in _places(document, operation)
        )
        document = after
    return touched


def without_origin(document: Part, operation: Operation) -> Part:
    """The document to which an operation adds: a move has taken its value away by then."""
    if operation["op"] != "move":
        return document
    return step(document, {"op": "remove", "path": operation["from"]})


def _places(document: Part, operation: Operation) -> List[Place]:
    op, path = operation["op"], tokens(operation["path"])
    if op == "test" or (op == "move" and operation["from"] == operation["path"]):
        return []
    if op in ("remove", "replace"):
        return [place_of(document, path, exchanged=op == "replace")]
    to = _target(without_origin(document, operation), path)
    if op != "move":
        return [to]
    origin = place_of(document, tokens(operation["from"]))
    return [] if _may_stay(document, origin, to) else [origin, to]


def _may_stay(document: Part, origin: Place, to: Place) -> bool:
    """True if a move may lead to its own place, and so change nothing: the last element of a list
    to the end of it, which may not be known."""
    if origin.path == to.path:
        return True
    *holder, token = origin.path
    place, is_end = index(token), to.in_list is None and to.path == (*holder, "-")
    return is_end and place is not None and not goes_on(at(document, holder), place)


def _target(document: Part, path: Path) -> Place:
    place = place_of(document, path)
    may_be_there = place.in_list is not True and at(document, path) is not ABSENT
    return Place(place.path, place.in_list, exchanged=may_be_there)


def _touches(shown: Shown, place: Place) -> bool:
    slot, path = shown_path(shown), place.path
    if len(slot) < len(path) and path[: len(slot)] == slot:
        return isinstance(shown, str) or (len(path) == len(slot) + 1 and not place.exchanged)
    if place.in_list is False or (place.exchanged and path[-1] != "-"):
        return slot[: len(path)] == path
    if len(slot) < len(path) or slot[: len(path) - 1] != path[:-1]:
        return False
    came, looked_at = index(path[-1]), index(slot[len(path) - 1])
    if came is None or looked_at is None:
        return False
    return looked_at >= came if place.in_list else looked_at == came
