"""Takes a room for a relay of several, and gives it up. Whoever holds the room's lock has it: it is
put back before clients are let in, and written, and forgotten by the relay, before the lock is
given back."""
from __future__ import annotations

import logging
from typing import Optional

from relay_client.values import same

from .admin import Admin, Tag
from .putting_back import PuttingBack
from .reading import keep_once
from .shared import Shared

ASKED, NOTHING = "relay-keeper", [{"op": "test", "path": "", "value": None}]
"""A room that is begun and forgotten, by an edit that leaves it `null`, since its tag tells which
epoch the relay has."""

log = logging.getLogger("relay_keeper")


class NotOpened(Exception):
    """The room's document cannot be put back now, so nobody is let in."""


class EpochTaken(Exception):
    """Two relays have one epoch, so the revisions of one would pass for those of the other."""


class Moving:
    """Calls take as long as the answers of the relay and of the store, and raise what these do."""

    def __init__(self, admin: Admin, store: Shared) -> None:
        self._admin, self._store = admin, store
        self._putting = PuttingBack(admin, store)

    def begin(self) -> None:
        """`EpochTaken` if another relay has the epoch of this one."""
        begun = self._admin.edit(ASKED, NOTHING, None)
        if begun.tag is not None:
            self._check(begun.tag)
        self._admin.forget(ASKED)

    def take(self, room: str) -> bool:
        """Lets clients into the room, which has its document by then. False if another relay has
        it."""
        if not self._store.take_room(room):
            return False
        try:
            tag = self._put_back(room)
            if tag is not None:
                self._check(tag)
            self._admin.admit(room)
        except Exception:
            self._admin.exclude(room)
            self._store.give_room(room)
            raise
        return True

    def finish(self, room: str) -> bool:
        """Writes the last state of a room that was closed, if anybody edited it, and has the relay
        forget it. False if a session is in it yet."""
        tag = self._admin.tag(room)
        if tag is not None and tag.revision > 0:
            keep_once(self._admin, self._store, room, None)
        return self._admin.forget(room)

    def _check(self, tag: Tag) -> None:
        if not self._store.take_epoch(tag.epoch):
            raise EpochTaken(f"another relay has the epoch {tag.epoch} too")

    def _put_back(self, room: str) -> Optional[Tag]:
        """The room has its document then, whatever the relay had of it. Of what revision that is;
        None if the store knows none."""
        state, there = self._store.get(room), self._admin.document(room)
        if there is not None and there[1] is not None:
            tag, document = there
            if state is not None and same(document, state.document):
                self._store.mark(room, tag.epoch, tag.revision)
                return tag
            time = self._store.write_aside(room, document)
            log.warning("%s: the relay had a document of it, set aside as %s", room, time)
            self._admin.forget(room)
        if state is None:
            return None
        tried = self._putting.edit(state, None)
        if tried.tag is None:
            raise NotOpened("it is not put back")
        return tried.tag
