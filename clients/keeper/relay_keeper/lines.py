"""States as lines of text: those that `list` prints, and those of `export` and `import`."""
from __future__ import annotations

import json
from typing import Any, Dict, List, Optional

from .names import is_name
from .state import Entry, State, now

LARGEST = 2**53 - 1
"""Of the relay's counts."""


class BadLine(Exception):
    """A line is no state."""


def listed(entry: Entry) -> str:
    """Room, revision, epoch, bytes, and seconds since it was written, with tabs between them."""
    epoch = "none" if entry.epoch is None else entry.epoch
    age = max(now() - entry.at, 0) // 1000
    return f"{entry.room}\t{entry.revision}\t{epoch}\t{entry.bytes}\t{age}"


def exported(state: State) -> str:
    """An object of JSON, in ASCII."""
    members = ("room", "epoch", "revision", "at", "document")
    return json.dumps({name: getattr(state, name) for name in members}, separators=(",", ":"))


def imported(line: str, number: int) -> State:
    """The state that was exported so."""
    try:
        found: Dict[str, Any] = json.loads(line)
        room, epoch, revision = found["room"], found["epoch"], found["revision"]
        state = State(room, epoch, revision, found["document"], found["at"])
    except (ValueError, TypeError, KeyError) as error:
        raise BadLine(f"line {number}: no state: {error!r}") from None
    counts: List[Optional[int]] = [revision, state.at, 0 if epoch is None else epoch]
    if not isinstance(room, str) or not is_name(room) or not all(map(_is_count, counts)):
        raise BadLine(f"line {number}: no state: a room's name and counts are wanted")
    return state


def _is_count(value: object) -> bool:
    return isinstance(value, int) and not isinstance(value, bool) and 0 <= value <= LARGEST
