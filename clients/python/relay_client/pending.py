"""Edits that the slots do not show yet: from their asking until what is held is of the revision
that they made.

Those that are optimistic are laid over what is held, in their order. A patch is done whole or not
at all, so an edit of which an operation is known not to fit shows nothing.
"""
from __future__ import annotations

from typing import Iterable, List, Tuple

from .known import Part, after, known_by, slots_of
from .patch import DoesNotFit
from .requests import Edit
from .follower import Held
from .touch import touches
from .values import Slots


class Pending:
    def __init__(self) -> None:
        self._edits: List[Edit] = []

    def optimistic(self) -> List[Edit]:
        return [edit for edit in self._edits if edit.optimistic]

    def add(self, edit: Edit) -> None:
        self._edits.append(edit)

    def failed(self, edit: Edit) -> None:
        if edit in self._edits:
            self._edits.remove(edit)
        edit.own.not_done()

    def done(self, edit: Edit, held: Held) -> None:
        """It waits for its revision, if that touches a slot; else no message comes that it could
        wait for."""
        if not self._will_show(edit, held):
            self._edits.remove(edit)
            edit.own.not_done()

    def _will_show(self, edit: Edit, held: Held) -> bool:
        if edit.rev is not None and edit.run == held.epoch and edit.rev <= held.rev:
            return False
        document = known_by(held.of.view, held.slots)
        for earlier in self._edits[: self._edits.index(edit)]:
            document = _after(document, earlier)
        try:
            return touches(document, edit.patch, held.of.view)
        except DoesNotFit:
            return True  # other changes are on their way, so a message comes

    def reached(self, held: Held, document: Part, single: bool) -> None:
        """Something else is held. Those edits leave that it shows. If it is one revision on from a
        document of which this is known, that is the document to which its edit was done."""
        for edit in [
            edit
            for edit in self._edits
            if edit.rev is not None and (edit.run != held.epoch or edit.rev <= held.rev)
        ]:
            self._edits.remove(edit)
            if single and edit.rev == held.rev:
                edit.own.done_on(document)
            else:
                edit.own.not_done()
        for edit in [edit for edit in self._edits if edit.rev is not None]:
            self.done(edit, held)

    def all_seen(self) -> None:
        """Says that what is held is what the view shows now: those that are done touched no
        slot."""
        for edit in [edit for edit in self._edits if edit.rev is not None]:
            self._edits.remove(edit)
            edit.own.not_done()


def laid_over(held: Held, edits: Iterable[Edit]) -> Slots:
    """The slots that are held, with edits laid over them."""
    document, slots = known_by(held.of.view, held.slots), held.slots
    for edit in edits:
        document = _after(document, edit)
        slots = slots_of(document, held.of.view, slots)
    return slots


def _after(document: Part, edit: Edit) -> Part:
    try:
        return after(document, edit.patch)
    except DoesNotFit:
        return document
