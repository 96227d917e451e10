"""The rooms that are kept."""
from __future__ import annotations

import fnmatch
import pathlib
import re
from typing import Iterable, List, Sequence

_NAME = re.compile("[A-Za-z0-9_-]{1,64}")


class BadName(Exception):
    """No room can have that name."""


def is_name(word: str) -> bool:
    return _NAME.fullmatch(word) is not None


class Chosen:
    """The rooms that are named, and those that match a pattern, as board-*; all, if nothing is
    said. `BadName` if no room can have such a name."""

    def __init__(self, named: Sequence[str], patterns: Sequence[str]):
        for name in named:
            if not is_name(name):
                form = "1 to 64 ASCII letters, digits, `-` and `_`"
                raise BadName(f"{name!r}: a room's name is {form}")
        self.named, self.patterns = set(named), list(patterns)

    def __contains__(self, room: str) -> bool:
        if not self.named and not self.patterns:
            return True
        return room in self.named or self.matches(room)

    def matches(self, room: str) -> bool:
        return any(fnmatch.fnmatchcase(room, pattern) for pattern in self.patterns)

    def among(self, rooms: Iterable[str]) -> List[str]:
        """The rooms that are named, and of those that are given the ones that match."""
        return sorted(self.named | {room for room in rooms if self.matches(room)})


def listed(path: pathlib.Path) -> List[str]:
    """The names in a file, one a line."""
    lines = (line.strip() for line in path.read_text("utf-8").splitlines())
    names = [line for line in lines if line and not line.startswith("#")]
    Chosen(names, [])
    return names
