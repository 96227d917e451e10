"""The forms of what an application passes to a call, checked before anything is done with it: the
relay would refuse another one as `shape`, which does not say what is wrong."""
from __future__ import annotations

from typing import Any, Mapping

from .values import Json, Patch, View, as_json

_EXAMPLE = '[{"op": "add", "path": "/cards/-", "value": "milk"}]'


def checked_view(call: str, view: object) -> View:
    """A copy, as `as_json` makes it."""
    copy: Json = as_json(view, "/view")
    if isinstance(copy, list):
        return copy
    example = [copy] if isinstance(copy, str) else ["/cards"]
    raise TypeError(f"`{call}` takes a view, a list of pointers as {example}, not {_shown(view)}")


def checked_patch(call: str, patch: object) -> Patch:
    """A copy. Its values are named by their paths in it, as /0/value/cards/3."""
    copy: Json = as_json(patch)
    if isinstance(copy, list):
        return copy
    raise TypeError(f"`{call}` takes a list of operations, as {_EXAMPLE}, not {_shown(patch)}")


def check_base(base: Any) -> None:
    """None passes: the relay refuses it, as `rev` is None before the first slots."""
    if base is None:
        return
    if isinstance(base, bool) or not isinstance(base, int):
        raise TypeError(f"a base is a revision, as `rev` is, not {base!r}")
    if not 0 <= base < 2**53:
        raise ValueError(f"a base is a revision, as `rev` is, 0 or more, not {base}")


def _shown(value: object) -> str:
    return "an object" if isinstance(value, Mapping) else repr(value)
