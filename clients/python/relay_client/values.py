"""The JSON values that the relay takes, and the forms of patches, views and slots."""
from __future__ import annotations

import re
from typing import Any, Dict, List, Literal, Mapping, Sequence, Union

Json = Any
"""None, a bool, an int, a str, a list of them, or a dict of them by str."""
Operation = Dict[str, Json]
Patch = List[Operation]
Shown = Union[str, Dict[str, str]]
"""A pointer, for the value to which it leads; or {"size": pointer}, for how many elements or
members that has."""
View = List[Shown]
Slot = List[Json]
"""The slot that one pointer of a view shows: `[value]`, or `[]` if it leads to nothing."""
Slots = List[Slot]
"""One for each pointer of a view."""
State = Literal["connecting", "open", "waiting", "closed"]

DEEPEST = 124
"""The number of containers that a value may nest: a request nests three more around it, and the
relay reads 127."""

_HALF = re.compile("[\ud800-\udfff]")


def as_json(value: object, path: str = "", depth: int = 0) -> Json:
    """A copy, so that what is sent is what it was when it was asked for. Refuses what JSON cannot
    say (`TypeError`) and what the relay does not take (`ValueError`), by the path of the value."""
    if value is None or isinstance(value, bool):
        return value
    if isinstance(value, int):
        return _whole(int(value), path)
    if isinstance(value, str):
        return _text(str(value), path)
    if isinstance(value, float):
        raise ValueError(f"{path or 'the value'}: {value!r} {_instead(value)}")
    if depth >= DEEPEST:
        raise ValueError(f"{path or 'the value'}: nested too deep")
    if isinstance(value, Mapping):
        return {
            _name(name, path): as_json(part, f"{path}/{_token(name)}", depth + 1)
            for name, part in value.items()
        }
    if isinstance(value, Sequence) and not isinstance(value, (bytes, bytearray, memoryview)):
        return [as_json(part, f"{path}/{place}", depth + 1) for place, part in enumerate(value)]
    raise TypeError(f"{path or 'the value'}: {type(value).__name__} is no JSON")


def _instead(value: float) -> str:
    """The fault of a number with a point, and what to send."""
    if value.is_integer() and abs(value) < 2**53:
        return f"has a fraction: write {int(value)}"
    return "is no whole number; send a scaled whole number, or a text"


def _whole(value: int, path: str) -> int:
    if not -(2**63) <= value < 2**63:
        raise ValueError(f"{path or 'the value'}: {value} does not fit in 64 bits")
    return value


def _text(value: str, path: str) -> str:
    if _HALF.search(value):
        raise ValueError(f"{path or 'the value'}: a text with half of a surrogate pair")
    return value


def _name(name: object, path: str) -> str:
    if not isinstance(name, str):
        raise TypeError(f"{path or 'the value'}: a member is named by {name!r}, which is no text")
    return _text(str(name), path)


def _token(name: object) -> str:
    return str(name).replace("~", "~0").replace("/", "~1")


def same(one: Json, other: Json) -> bool:
    """Equality of JSON values, in which true is not 1."""
    if isinstance(one, dict) and isinstance(other, dict):
        return one.keys() == other.keys() and all(
            same(part, other[name]) for name, part in one.items()
        )
    if isinstance(one, list) and isinstance(other, list):
        return len(one) == len(other) and all(map(same, one, other))
    return type(one) is type(other) and bool(one == other)
