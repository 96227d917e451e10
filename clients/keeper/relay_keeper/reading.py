"""Keeps the document of a room that nobody is in, as the operator's port gives it."""
from __future__ import annotations

import logging
from typing import Optional

from relay_client.values import same

from .admin import Admin, Tag
from .state import State, now
from .store import Store

log = logging.getLogger("relay_keeper")


def keep_once(admin: Admin, store: Store, room: str, epoch: Optional[int]) -> Optional[Tag]:
    """The tag of the document that the room has; None without such a room. It is written if it is
    of this run of the relay, where one is given. What the store has of another run is set aside,
    unless it is the same."""
    there = admin.document(room)
    if there is None:
        return None
    tag, document = there
    if epoch is None or tag.epoch == epoch:
        kept = store.get(room)
        if kept is not None and kept.epoch != tag.epoch and not same(kept.document, document):
            told_aside(room, store.set_aside(room))
        store.put(State(room, tag.epoch, tag.revision, document, now()))
    return tag


def told_aside(room: str, time: Optional[str]) -> None:
    differs = "the room has another document than the store; the old one is set aside"
    log.warning("%s: %s, of %s", room, differs, time)
