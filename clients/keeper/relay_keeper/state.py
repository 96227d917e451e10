"""The records that a store keeps of a room."""
from __future__ import annotations

import calendar
import time
from dataclasses import dataclass
from typing import Any, Optional

Json = Any


@dataclass(frozen=True)
class State:
    """A document, and the run of the relay and the revision that it is of."""

    room: str
    epoch: Optional[int]
    """None: it is of no run, so it is put back into the next one."""
    revision: int
    document: Json
    at: int
    """The time at which it was written: milliseconds since 1970."""


@dataclass(frozen=True)
class Entry:
    """A state without its document, which has so many bytes as a text."""

    room: str
    epoch: Optional[int]
    revision: int
    bytes: int
    at: int


@dataclass(frozen=True)
class Older:
    """An older state of a room, or a document that was set aside."""

    time: str
    """The time at which it was written, as `stamp` says it: its name within its room."""
    bytes: int
    is_aside: bool


def now() -> int:
    """Milliseconds since 1970."""
    return time.time_ns() // 1_000_000


def stamp(milliseconds: int) -> str:
    """A time in UTC, by its milliseconds since 1970, so that names sort by time."""
    seconds = time.strftime("%Y%m%dT%H%M%S", time.gmtime(milliseconds // 1000))
    return f"{seconds}.{milliseconds % 1000:03}Z"


def milliseconds(stamped: str) -> int:
    """The time that `stamp` said."""
    seconds, _, part = stamped.rstrip("Z").partition(".")
    return calendar.timegm(time.strptime(seconds, "%Y%m%dT%H%M%S")) * 1000 + int(part)
