"""The patch of a draft with its guard: tests of what was read and addressed, or the revision."""
from __future__ import annotations

import json
from dataclasses import dataclass
from typing import Iterable, Literal, Optional

from .difference import Difference, coarse
from .draft import Draft
from .node import Node
from .pointers import spelled
from .values import Patch

Guard = Literal["values", "base", "none"]

OPERATIONS = 64
"""An edit has no more operations."""

TESTS = 16_384
"""If tests would take more characters, the revision is tested in their place."""


@dataclass(frozen=True)
class Guarded:
    patch: Patch
    is_by_base: bool


def guarded(draft: Draft, guard: Guard) -> Optional[Guarded]:
    """None if nothing is changed."""
    difference = Difference(draft)
    operations = difference.operations
    if not operations:
        return None
    by_values = guard == "values" and not draft.is_guarded_by_base
    tests = _tests_of(draft, difference.changed) if by_values else []
    patch = [*tests, *operations]
    is_light = len(patch) <= OPERATIONS and len(json.dumps(tests)) <= TESTS
    is_by_base = guard == "base" or (guard == "values" and not (by_values and is_light))
    if not is_by_base and is_light:
        return Guarded(patch, is_by_base)
    return Guarded(operations if len(operations) <= OPERATIONS else coarse(draft.root), is_by_base)


def _tests_of(draft: Draft, changed: Iterable[Node]) -> Patch:
    seen = dict(draft.seen)
    known = [node.origin or () for node in (*seen, *changed)]
    for node in draft.there:
        origin = node.origin
        if origin is None or node.is_partial:
            continue
        # What is tested or done within it says that it is there.
        if not any(path[: len(origin)] == origin for path in known):
            seen[node] = None
    paths = {node.origin for node in seen}
    patch: Patch = []
    for node in seen:
        origin = node.origin or ()
        if not any(origin[:length] in paths for length in range(len(origin))):
            patch.append({"op": "test", "path": spelled(origin), "value": node.part})
    return patch
