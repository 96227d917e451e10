"""Undo and redo of a client's own edits, by inverse patches.

The inverse of an edit is made of what the slots show at the revision before it. What it changes
back it first compares by a `test` with what the edit left there, so that it is refused if somebody
changed that since. No `test` can say that a member is absent, so an inverse that puts a member back
is sent with a `base`: a revision at which the slots show that it is.
"""
from __future__ import annotations

import asyncio
from dataclasses import dataclass, field
from typing import Iterable, List, Optional

from .known import ABSENT, UNKNOWN, Part, at, is_value, step
from .patch import DoesNotFit, Draft
from .pointers import Path, spelled, tokens
from .touch import place_of, without_origin
from .values import Json, Operation, Patch

KEPT = 100
"""The number of edits that can be undone at most."""
LONGEST = 64
"""Operations in an edit."""


class _NotShown(Exception):
    """The slots do not show all that an edit changed."""


@dataclass(frozen=True)
class Inverse:
    patch: Patch
    puts_back: bool
    """True if it puts a member back, and so overwrites what others may have put there."""


def inverse(document: Part, patch: Iterable[Operation]) -> Optional[Inverse]:
    """The inverse of a patch of a document of which this is known. None if that is too little, or
    there is nothing to undo."""
    backwards: List[Patch] = []
    try:
        for operation in patch:
            after = step(document, operation)
            backwards.append(_backwards(document, after, operation))
            document = after
    except (DoesNotFit, _NotShown):
        return None
    undoing = [operation for part in reversed(backwards) for operation in part]
    if not 0 < len(undoing) <= LONGEST or not fits(document, undoing):
        return None
    return Inverse(undoing, puts_back=_puts_back(document, undoing))


def fits(document: Part, patch: Patch) -> bool:
    """True if an inverse can be applied to a document of which this is known, and overwrites
    nothing that it did not compare."""
    draft = Draft()
    try:
        for operation in patch:
            if _comes_to_member(document, operation) and _target(document, operation) is not ABSENT:
                return False
            document = step(document, operation, draft)
    except DoesNotFit:
        return False
    return True


def _puts_back(document: Part, patch: Patch) -> bool:
    draft = Draft()
    for operation in patch:
        if _comes_to_member(document, operation):
            return True
        document = step(document, operation, draft)
    return False


def _comes_to_member(document: Part, operation: Operation) -> bool:
    """True if it adds something elsewhere than in a list."""
    if operation["op"] not in ("add", "move"):
        return False
    return not isinstance(
        at(without_origin(document, operation), tokens(operation["path"])[:-1]), list
    )


def _target(document: Part, operation: Operation) -> Part:
    return at(without_origin(document, operation), tokens(operation["path"]))


def _backwards(document: Part, after: Part, operation: Operation) -> Patch:
    """The patch that undoes one operation."""
    op = operation["op"]
    if op == "test" or (op == "move" and operation["from"] == operation["path"]):
        return []
    # With the index that `-` names.
    path = place_of(without_origin(document, operation), tokens(operation["path"])).path
    if op == "move" and tokens(operation["from"]) == path:
        return []
    if op == "remove":
        return _put_back(after, path, _known(at(document, path)))
    compared = _test(path, at(after, path))
    if op == "replace" or not path:
        return [compared, _replace(path, _known(at(document, path)))]
    before = without_origin(document, operation)
    replaced = [_known(at(before, path))] if _is_member(before, path) else []
    if op == "move":
        return [compared, *_moved_back(document, tokens(operation["from"]), path, replaced)]
    return [compared, _replace(path, replaced[0]) if replaced else _remove(path)]


def _moved_back(document: Part, origin: Path, path: Path, replaced: List[Json]) -> Patch:
    if origin[: len(path)] != path:
        if not replaced:
            return [{"op": "move", "from": spelled(path), "path": spelled(origin)}]
        # A move back first may shift the place of what was replaced.
        return [_replace(path, replaced[0]), _add(origin, _known(at(document, origin)))]
    if replaced:
        # It took the place of what it was taken from.
        return [_replace(path, _known(at(document, path)))]
    # It came in front of what it was taken from. A move back would be one into itself.
    return [_remove(path), _add(origin, _known(at(document, origin)))]


def _put_back(after: Part, path: Path, value: Json) -> Patch:
    """The patch that undoes a removal: the value comes between the elements that stood around it,
    or is a member again."""
    add, parent = _add(path, value), at(after, path[:-1])
    if not isinstance(parent, list):
        return [add]
    if not parent:
        return [_test(path[:-1], []), add]
    place = int(path[-1])
    around = [near for near in (place - 1, place) if 0 <= near < len(parent)]
    return [*(_test((*path[:-1], str(near)), parent[near]) for near in around), add]


def _is_member(document: Part, path: Path) -> bool:
    """True if an object has that member; false if the path is a place in a list."""
    in_list, part = place_of(document, path).in_list, at(document, path)
    if in_list is None or (not in_list and part is UNKNOWN):
        raise _NotShown()
    return not in_list and part is not ABSENT


def _known(part: Part) -> Json:
    if not is_value(part):
        raise _NotShown()
    return part


def _add(path: Path, value: Json) -> Operation:
    return {"op": "add", "path": spelled(path), "value": value}


def _remove(path: Path) -> Operation:
    return {"op": "remove", "path": spelled(path)}


def _replace(path: Path, value: Json) -> Operation:
    return {"op": "replace", "path": spelled(path), "value": value}


def _test(path: Path, value: Part) -> Operation:
    return {"op": "test", "path": spelled(path), "value": _known(value)}


class OwnEdit:
    """An edit of this client, from its asking on, and what undoes it once that is known."""

    def __init__(self, patch: Patch) -> None:
        self.patch = patch
        self.inverse: "asyncio.Future[Optional[Inverse]]" = (
            asyncio.get_running_loop().create_future()
        )
        """None if there is nothing that can be undone."""

    @property
    def is_known(self) -> bool:
        """True if what undoes it is known by now."""
        inverse = self.inverse
        return inverse.done() and not inverse.cancelled() and inverse.result() is not None

    def done_on(self, document: Part) -> None:
        """It was done on a document of which this is known."""
        self._settle(inverse(document, self.patch))

    def not_done(self) -> None:
        """It was not done, or on a document of which too little is known."""
        self._settle(None)

    def _settle(self, inverse: Optional[Inverse]) -> None:
        if not self.inverse.done():
            self.inverse.set_result(inverse)


@dataclass
class History:
    """Own edits, the newest last: those that can be undone, and those that can be redone."""

    undoing: List[OwnEdit] = field(default_factory=list)
    redoing: List[OwnEdit] = field(default_factory=list)

    def edited(self, edit: OwnEdit) -> None:
        self.keep(self.undoing, edit)
        self.redoing.clear()

    @staticmethod
    def keep(stack: List[OwnEdit], edit: OwnEdit) -> None:
        stack.append(edit)
        del stack[:-KEPT]

    @staticmethod
    async def take(stack: List[OwnEdit]) -> Optional[Inverse]:
        """The inverse of the newest edit that can be undone, which leaves the stack. None if there
        is none."""
        while stack:
            inverse = await asyncio.shield(stack.pop().inverse)
            if inverse is not None:
                return inverse
        return None

    @property
    def undoable(self) -> int:
        return sum(edit.is_known for edit in self.undoing)

    @property
    def redoable(self) -> int:
        return sum(edit.is_known for edit in self.redoing)

    def forget(self) -> None:
        self.undoing.clear()
        self.redoing.clear()
