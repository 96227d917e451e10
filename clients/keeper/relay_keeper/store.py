"""The store in which the documents of a relay's rooms are kept: files, SQLite or PostgreSQL
(stores.py)."""
from __future__ import annotations

import abc
import json
from typing import List, Optional

from .state import Entry, Json, Older, State


class StoreFailed(OSError):
    """The store could not be read, or did not take a write. What it had before stands."""


class Taken(Exception):
    """Another keeper holds the lease of the store."""


class LeaseLost(Exception):
    """This keeper does not hold the lease any more, so it must not write."""


class NoState(Exception):
    """There is no such state, or more than one."""


class Store(abc.ABC):
    """The rooms of one relay. Calls may come from several threads.

    Each write is one transaction: whatever ends the keeper, a room has the state before or the one
    after. One keeper writes at a time, the one that holds the lease. All calls raise `StoreFailed`
    (or another `OSError`) if the store refuses, and `ValueError` if it has what is no JSON; writes
    raise `LeaseLost` too.

    Of each room there is the newest state, up to `history - 1` older ones, each written at least
    `apart` seconds after the one before, and what was set aside."""

    def __init__(self, where: str, history: int, apart: float):
        self.where, self.history, self.apart = where, history, apart

    # The lease.

    @abc.abstractmethod
    def take(self) -> bool:
        """Takes the lease, and makes the store if it is not there. False if another has it."""

    @abc.abstractmethod
    def check(self) -> None:
        """`LeaseLost` if this keeper does not hold the lease."""

    @abc.abstractmethod
    def close(self) -> None:
        """Gives the lease back. The system does so too, however the keeper ends."""

    # The newest states.

    @abc.abstractmethod
    def get(self, room: str) -> Optional[State]:
        """The newest state."""

    @abc.abstractmethod
    def put(self, state: State) -> Optional[int]:
        """Writes a newest state, unless a later revision of the same run is kept. Gives the bytes
        of its document; None if it was not written."""

    @abc.abstractmethod
    def mark(self, room: str, epoch: int, revision: int) -> None:
        """The document that is kept is that of this run too, at this revision or a later one."""

    @abc.abstractmethod
    def list(self) -> List[Entry]:
        """The newest state of each room, by the rooms' names."""

    def relays(self) -> List[str]:
        """The names of all relays whose rooms are in the same database; none if that is no
        database."""
        return []

    # Older states, and what was set aside.

    @abc.abstractmethod
    def older(self, room: str) -> List[Older]:
        """The newest one first."""

    @abc.abstractmethod
    def document(self, room: str, older: Older) -> Json:
        """The document that such a state has."""

    @abc.abstractmethod
    def set_aside(self, room: str) -> Optional[str]:
        """Keeps the newest state beside, whatever is put there later. Gives its time; None if there
        is none."""

    @abc.abstractmethod
    def write_aside(self, room: str, document: Json) -> str:
        """Keeps a document that is not the newest state. Gives its time."""

    @abc.abstractmethod
    def drop_aside(self, room: str, time: str) -> None:
        """Forgets what `write_aside` kept."""

    def find(self, room: str, time: str) -> Older:
        """The one state whose time begins so."""
        found = [older for older in self.older(room) if older.time.startswith(time)]
        if len(found) != 1:
            times = ", ".join(older.time for older in found)
            raise NoState(f"{room}: {len(found)} states begin with {time}: {times}")
        return found[0]


def as_text(document: Json) -> str:
    return json.dumps(document, ensure_ascii=False, separators=(",", ":"))
