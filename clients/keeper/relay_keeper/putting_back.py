"""Puts kept documents back into a relay by its operator's port, before clients are let in."""
from __future__ import annotations

import logging
import time
from dataclasses import dataclass, field
from typing import Callable, Dict, List, Optional

from relay_client.values import same

from .admin import Admin, Full, Listed, Tag
from .names import Chosen
from .state import Entry, State
from .store import Store

TRIES, PAUSES = 5, 10
"""The number of tries of a room that others edit, or for which the relay has no memory or place;
and the number of waits for the relay, of all rooms together."""

log = logging.getLogger("relay_keeper")


@dataclass
class Came:
    """The outcome of putting documents back."""

    epoch: Optional[int]
    """The run of the relay, if that is known by then."""
    put_back: int = 0
    left: List[str] = field(default_factory=list)
    """The rooms that do not have their documents, as was said of each."""


@dataclass(frozen=True)
class Tried:
    """`tag` is that of the room's document, if that is the kept one or came of it. `again`: the
    room was another one by then."""

    tag: Optional[Tag] = None
    again: bool = False


class PuttingBack:
    """`pause` waits so many seconds."""

    def __init__(
        self, admin: Admin, store: Store, pause: Callable[[float], object] = time.sleep
    ) -> None:
        self._admin, self._store, self._pause = admin, store, pause
        self._pauses = PAUSES  # that are left

    def epoch(self, listed: Dict[str, Listed]) -> Optional[int]:
        """The run of the relay that has these rooms; None if it has none, so that nothing tells."""
        # One that is empty would look as if it had been empty for a shorter time.
        rooms = sorted(listed, key=lambda room: listed[room].sessions == 0)
        tags = (self._admin.tag(room) for room in rooms)
        return next((tag.epoch for tag in tags if tag is not None), None)

    def put_back(self, chosen: Chosen, listed: Dict[str, Listed], epoch: Optional[int]) -> Came:
        """The chosen rooms of the store, the one first that was written first; `listed` are those
        of the relay, in this run. Raises `NoAnswer`, and what the store does."""
        came = Came(epoch)
        kept = [it for it in self._store.list() if it.room in chosen]
        # The room of a document of this run goes on, or was given up.
        due = [it for it in kept if it.epoch is None or it.epoch != epoch]
        due.sort(key=lambda it: it.at)
        came.left += self._beyond(due, listed)
        for entry in due:
            if entry.room not in came.left:
                self._one(entry, entry.room in listed, came)
        return came

    def _beyond(self, due: List[Entry], listed: Dict[str, Listed]) -> List[str]:
        """Those that were written first, if the relay has not enough places."""
        new = [it.room for it in due if it.room not in listed]
        places = self._admin.places()
        if places is None or len(listed) + len(new) <= places:
            return []
        beyond = new[: len(listed) + len(new) - places]
        log.error("the relay has %d rooms at most, so without %s", places, ", ".join(beyond))
        return beyond

    def _one(self, entry: Entry, is_there: bool, came: Came) -> None:
        try:
            state = self._store.get(entry.room)
        except ValueError as error:
            log.error("%s: cannot be put back: %s", entry.room, error)
            came.left.append(entry.room)
            return
        if state is None or state.document is None:
            return
        tag = self._until_it_stands(state, is_there)
        if tag is None:
            came.left.append(state.room)
        else:
            came.epoch, came.put_back = tag.epoch, came.put_back + 1

    def _until_it_stands(self, state: State, is_there: bool) -> Optional[Tag]:
        for _ in range(TRIES):
            try:
                tried = self._try(state) if is_there else self.edit(state, None)
            except Full as full:
                log.warning("%s: the relay says %s", state.room, full)
                if self._pauses == 0:
                    return None
                self._pauses -= 1
                self._pause(full.seconds)
                continue
            if not tried.again:
                return tried.tag
            is_there = True
        log.error("%s: not put back", state.room)
        return None

    def _try(self, state: State) -> Tried:
        """A room that is there is not overwritten, unless it was never edited."""
        there = self._admin.document(state.room)
        if there is None:
            return self.edit(state, None)
        tag, document = there
        if same(document, state.document):
            self._store.mark(state.room, tag.epoch, tag.revision)
            return Tried(tag)
        if tag.revision == 0:
            return self.edit(state, tag)
        log.warning("%s: another client was first, so the room is left as it is", state.room)
        return Tried()

    def edit(self, state: State, base: Optional[Tag]) -> Tried:
        """Guarded by the room's revision, or by its document where there is no room yet."""
        value = {"op": "add", "path": "", "value": state.document}
        guard = [] if base else [{"op": "test", "path": "", "value": None}]
        edited = self._admin.edit(state.room, [*guard, value], base)
        if edited.tag is not None:
            self._store.mark(state.room, edited.tag.epoch, edited.tag.revision)
            log.info("%s: put back", state.room)
        elif not edited.is_late:
            log.error("%s: cannot be put back: the relay says %s", state.room, edited.said)
        return Tried(edited.tag, edited.is_late)
