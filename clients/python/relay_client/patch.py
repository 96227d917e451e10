"""Patches of JSON values (RFC 6902). No value that was handed out is written to: what a patch
leaves alone is shared with the value before, and each container that it changes is copied once,
however many operations change it.
"""
from __future__ import annotations

from typing import Any, Callable, Dict, Iterable

from .pointers import Path, index, tokens
from .values import Json, Operation, same


class DoesNotFit(Exception):
    """The relay refuses an operation on such a value."""


def applied(value: Json, patch: Iterable[Operation]) -> Json:
    """The value after a patch; `DoesNotFit` if it is refused."""
    draft = Draft()
    for operation in patch:
        value = _step(draft, value, operation)
    return value


def _step(draft: "Draft", value: Json, operation: Operation) -> Json:
    op, path = operation["op"], tokens(operation["path"])
    if op == "add":
        return draft.added(value, path, operation["value"])
    if op == "remove":
        return draft.removed(value, path)
    if op == "replace":
        return draft.replaced(value, path, operation["value"])
    if op == "test":
        return tested(value, path, operation["value"])
    origin = tokens(operation["from"])
    part = found(value, origin)
    if op == "move":
        check_move(origin, path)
        return draft.added(draft.removed(value, origin), path, part) if origin != path else value
    if op == "copy":
        draft.share(part)
        return draft.added(value, path, part)
    raise DoesNotFit(op)


def has(value: Json, token: str) -> bool:
    """True if something stands at a token."""
    if isinstance(value, dict):
        return token in value
    place = index(token)
    return isinstance(value, list) and place is not None and place < len(value)


def part(value: Json, token: str) -> Json:
    if not has(value, token):
        raise DoesNotFit("missing")
    return value[int(token)] if isinstance(value, list) else value[token]


def found(value: Json, path: Path) -> Json:
    for token in path:
        value = part(value, token)
    return value


def tested(value: Json, path: Path, wanted: Json) -> Json:
    if not same(found(value, path), wanted):
        raise DoesNotFit("test-failed")
    return value


def check_move(origin: Path, path: Path) -> None:
    if len(origin) < len(path) and path[: len(origin)] == origin:
        raise DoesNotFit("into-itself")


class Draft:
    """The containers that one patch has copied, which are its own: it writes to them, and to no
    others. One that is its own stands at one place, within others that are."""

    def __init__(self) -> None:
        # By id; held here, so that none is given the id of one that is gone.
        self._own: Dict[int, Json] = {}

    def share(self, part: Json) -> None:
        """It comes to stand at a second place: it is not to be written to any more, nor is anything
        within it."""
        if self._own.pop(id(part), None) is not None:
            for below in part.values() if isinstance(part, dict) else part:
                self.share(below)

    def added(self, value: Json, path: Path, new: Json) -> Json:
        def adding(holder: Json, token: str) -> Json:
            if isinstance(holder, dict):
                return self._put(holder, token, new)
            if not isinstance(holder, list):
                raise DoesNotFit("no-container")
            place = len(holder) if token == "-" else index(token)
            if place is None or place > len(holder):
                raise DoesNotFit("past-end")
            own = self._copied(holder)
            own.insert(place, new)
            return own

        return self._changed(value, path, adding) if path else new

    def removed(self, value: Json, path: Path) -> Json:
        def removing(holder: Json, token: str) -> Json:
            part(holder, token)
            own = self._copied(holder)
            del own[_key(own, token)]
            return own

        if not path:
            raise DoesNotFit("root")
        return self._changed(value, path, removing)

    def replaced(self, value: Json, path: Path, new: Json) -> Json:
        def replacing(holder: Json, token: str) -> Json:
            part(holder, token)
            return self._put(holder, token, new)

        return self._changed(value, path, replacing) if path else new

    def _changed(self, value: Json, path: Path, change: Callable[[Json, str], Json]) -> Json:
        """The value with another container in place of the one of which the last token is."""
        token, rest = path[0], path[1:]
        if not rest:
            return change(value, token)
        return self._put(value, token, self._changed(part(value, token), rest, change))

    def _put(self, holder: Json, token: str, new: Json) -> Json:
        own = self._copied(holder)
        own[_key(own, token)] = new
        return own

    def _copied(self, container: Json) -> Any:
        if id(container) in self._own:
            return container
        copy = container.copy()
        self._own[id(copy)] = copy
        return copy


def _key(container: Json, token: str) -> Any:
    return int(token) if isinstance(container, list) else token
