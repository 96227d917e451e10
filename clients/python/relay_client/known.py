"""A client's knowledge of a document by the slots of its view, and of the documents to which its
own patches lead.

A part of the document is a JSON value, which is known as a whole; `ABSENT`; `UNKNOWN`; or `Parts`,
a container of which some members or elements are known. What an operation means to a slot
(docs/PROTOCOL.md, "What a change means to a slot") follows: the operation is done to what is known,
and the slots are read again.
"""
from __future__ import annotations

from dataclasses import dataclass, field
from typing import Any, Callable, Dict, Iterable, Optional

from . import patch as values
from .patch import DoesNotFit, Draft, check_move
from .pointers import Path, index, shown_path, tokens
from .values import Json, Operation, Shown, Slots, View, same

Part = Any
"""A JSON value, `ABSENT`, `UNKNOWN`, or `Parts`."""


class _Mark:
    def __init__(self, name: str):
        self._name = name

    def __repr__(self) -> str:
        return self._name


ABSENT = _Mark("ABSENT")
"""Nothing stands there."""
UNKNOWN = _Mark("UNKNOWN")
"""Something stands there, or nothing."""


@dataclass(frozen=True)
class Parts:
    """A list or an object, if anything stands there; an object for sure if a member is there whose
    name is no index."""

    known: Dict[str, Part] = field(default_factory=dict)
    size: Optional[int] = None
    """The number of its parts, if that is known."""

    def is_object(self) -> bool:
        return any(index(token) is None and is_there(part) for token, part in self.known.items())

    def having(self, token: str, part: Part, size: Optional[int]) -> "Parts":
        return Parts({**self.known, token: part}, size)


def is_value(part: Part) -> bool:
    return not isinstance(part, (_Mark, Parts))


def is_there(part: Part) -> bool:
    """True if something stands there for sure."""
    if isinstance(part, Parts):
        return part.size is not None or any(map(is_there, part.known.values()))
    return is_value(part)


def goes_on(part: Part, place: int) -> bool:
    """True if there is more behind an index for sure, if that is a list."""
    if not isinstance(part, Parts):
        return False
    behind = (known for token, known in part.known.items() if (index(token) or 0) > place)
    return (part.size or 0) > place + 1 or any(map(is_there, behind))


def known_by(view: View, slots: Slots) -> Part:
    """Returns what the slots of a view tell of the document."""
    document: Part = UNKNOWN
    # Outer ones first, and values before sizes: what is within a known value tells nothing new.
    told = sorted(
        zip(view, slots), key=lambda one: (len(shown_path(one[0])), not isinstance(one[0], str))
    )
    for shown, slot in told:
        document = _told(document, shown_path(shown), _by_slot(shown, slot))
    return document


def _by_slot(shown: Shown, slot: Json) -> Callable[[Part], Part]:
    if isinstance(shown, str):
        return lambda before: slot[0] if slot else ABSENT
    if not slot:
        return lambda before: before  # a scalar, or nothing
    return lambda before: Parts(_parts(before).known, slot[0])


def _told(part: Part, path: Path, tell: Callable[[Part], Part]) -> Part:
    if part is ABSENT or is_value(part):
        return part
    if not path:
        return tell(part)
    below = _told(part_at(part, path[0]), path[1:], tell)
    return part if below is UNKNOWN else _parts(part).having(path[0], below, _parts(part).size)


def _parts(part: Part) -> Parts:
    return part if isinstance(part, Parts) else Parts()


def part_at(part: Part, token: str) -> Part:
    if isinstance(part, Parts):
        return part.known.get(token, UNKNOWN)
    if is_value(part):
        return values.part(part, token) if values.has(part, token) else ABSENT
    return part


def at(document: Part, path: Iterable[str]) -> Part:
    """Returns what is known of the value to which a path leads."""
    for token in path:
        document = part_at(document, token)
    return document


def after(document: Part, patch: Iterable[Operation]) -> Part:
    """Returns what is known after a patch; `DoesNotFit` if it is known to be refused."""
    draft = Draft()
    for operation in patch:
        document = step(document, operation, draft)
    return document


def step(document: Part, operation: Operation, draft: Optional[Draft] = None) -> Part:
    """Returns what is known after one operation of a patch: with the patch's draft what is known
    before is written to, as far as it is the draft's own."""
    try:
        return _step(draft or Draft(), document, operation)
    except (KeyError, TypeError, AttributeError, ValueError) as error:
        raise DoesNotFit("shape") from error  # it has not the form of an operation


def _step(draft: Draft, document: Part, operation: Operation) -> Part:
    op, path = operation["op"], tokens(operation["path"])
    if op == "add":
        return _added(draft, document, path, operation["value"])
    if op == "remove":
        return _removed(draft, document, path)
    if op == "replace":
        return _replaced(draft, document, path, operation["value"])
    if op == "test":
        part = _there(at(document, path))
        if is_value(part) and not same(part, operation["value"]):
            raise DoesNotFit("test-failed")
        return document
    origin = tokens(operation["from"])
    part = _there(at(document, origin))
    if op == "move":
        check_move(origin, path)
        if origin == path:
            return document
        return _added(draft, _removed(draft, document, origin), path, part)
    if op == "copy":
        _share(draft, part)
        return _added(draft, document, path, part)
    raise DoesNotFit(op)


def _share(draft: Draft, part: Part) -> None:
    if isinstance(part, Parts):
        for known in part.known.values():
            _share(draft, known)
    else:
        draft.share(part)


def _there(part: Part) -> Part:
    if part is ABSENT:
        raise DoesNotFit("missing")
    return part


def _added(draft: Draft, document: Part, path: Path, new: Part) -> Part:
    if not path:
        return new
    in_value = (
        (lambda value, rest: draft.added(value, rest, new))
        if is_value(new)
        else (lambda value, rest: UNKNOWN)
    )
    return _changed(document, path, in_value, lambda parts, token: _inserted(parts, token, new))


def _removed(draft: Draft, document: Part, path: Path) -> Part:
    if not path:
        raise DoesNotFit("root")
    return _changed(document, path, draft.removed, _dropped)


def _replaced(draft: Draft, document: Part, path: Path, new: Json) -> Part:
    def exchanged(parts: Parts, token: str) -> Parts:
        _there(part_at(parts, token))
        return parts.having(token, new, parts.size)

    if not path:
        return new
    return _changed(document, path, lambda value, rest: draft.replaced(value, rest, new), exchanged)


def _changed(
    part: Part,
    path: Path,
    in_value: Callable[[Json, Path], Part],
    in_parts: Callable[[Parts, str], Parts],
) -> Part:
    """Goes along a path to a value, or to the container of which the last token is, and changes
    that."""
    if is_value(_there(part)):
        return in_value(part, path)
    parts, token = _parts(part), path[0]
    if len(path) == 1:
        return in_parts(parts, token)
    return parts.having(
        token, _changed(part_at(parts, token), path[1:], in_value, in_parts), parts.size
    )


def may_be_list(parts: Parts, token: str) -> bool:
    """True if an element may come or go at a token."""
    return (index(token) is not None or token == "-") and not parts.is_object()


def _inserted(parts: Parts, token: str, new: Part) -> Parts:
    if may_be_list(parts, token):
        unmoved = _unmoved(parts, token)
        return Parts(unmoved if token == "-" else {**unmoved, token: new})
    before = part_at(parts, token)
    is_sure = before is ABSENT or is_there(before)
    size = parts.size + (before is ABSENT) if parts.size is not None and is_sure else None
    return parts.having(token, new, size)


def _dropped(parts: Parts, token: str) -> Parts:
    _there(part_at(parts, token))
    size = None if parts.size is None else parts.size - 1
    # No element is removed at `-`, so that is a member.
    if may_be_list(parts, token) and token != "-":
        return Parts(_unmoved(parts, token), size)
    return parts.having(token, ABSENT, size)


def _unmoved(parts: Parts, token: str) -> Dict[str, Part]:
    """The parts that stand where they stood, if that is a list in which an element came or went:
    those in front of it."""
    first = index(token)

    def stays(name: str, part: Part) -> bool:
        place = index(name)
        if place is None:
            return name != "-"
        return is_there(part) if first is None else place < first

    return {name: part for name, part in parts.known.items() if stays(name, part)}


def slots_of(document: Part, view: View, before: Slots) -> Slots:
    """The slots of a view, each as it was if it is not known what it shows."""
    return [
        _slot(shown, at(document, shown_path(shown)), slot) for shown, slot in zip(view, before)
    ]


def _slot(shown: Shown, part: Part, before: Json) -> Json:
    if part is ABSENT:
        return []
    if is_value(part):
        return [part] if isinstance(shown, str) else _size(part)
    if isinstance(part, Parts) and part.size is not None and not isinstance(shown, str):
        return [part.size]
    return before


def _size(value: Json) -> Json:
    return [len(value)] if isinstance(value, (list, dict)) else []


def overlaid(view: View, slots: Slots, patch: Iterable[Operation]) -> Slots:
    """Returns what the slots of a view show when a patch is laid over them, as far as they tell it;
    of the others each is as it was. `DoesNotFit` if it is known to be refused."""
    return slots_of(after(known_by(view, slots), patch), view, slots)
