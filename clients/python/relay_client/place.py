"""One value of a board's view."""
from __future__ import annotations

import asyncio
from typing import TYPE_CHECKING, Any, AsyncIterator, Callable, Optional, Sequence

from .change import ChangeOptions
from .changes import Change
from .draft import Draft, DraftList
from .elements import Keyed, followed
from .follower import Held
from .known import ABSENT, Part, at, is_value, known_by
from .pointers import Path, shown_path, spelled
from .values import Json, Operation, Shown, Slot, Slots, View, same

if TYPE_CHECKING:
    from .board import Board


class Place:
    """The value at a pointer that a board's view shows, by itself or as a part of another one; or
    a size that is in the view, which is only read. `LookupError` if the view does not show it."""

    def __init__(self, board: "Board", shown: Shown):
        self._board, self._shown, self._path = board, shown, shown_path(shown)

    @property
    def value(self) -> Json:
        """The value that is shown there; None if nothing is (`slot` tells that from a null)."""
        return _value(self.slot)

    @property
    def slot(self) -> Slot:
        """`[value]`, or `[]` if the pointer leads to nothing, or the first snapshot is not there
        yet."""
        slots = self._board.slots
        return [] if slots is None else self._slot(self._board.view, slots)

    @property
    def confirmed(self) -> Json:
        """The value that stands there as the relay has shown it, without the edits that wait."""
        slots = self._board.confirmed
        return None if slots is None else _value(self._slot(self._board.view, slots))

    def subscribe(self, listener: Callable[[Json], None]) -> Callable[[], None]:
        """Tells a listener the value whenever it has become another one. Gives what ends it."""
        before = self.slot

        def told(change: Change) -> None:
            nonlocal before
            slot, before = before, self.slot
            if not same(slot, before):
                listener(self.value)

        return self._board.subscribe(told)

    async def changes(self) -> AsyncIterator[Json]:
        """The value, and then each other one that it becomes, until the board is closed."""
        before: Optional[Slot] = None
        async for change in self._board.changes():
            slot = self._slot(self._board.view, change.slots)
            if before is None or not same(slot, before):
                yield _value(slot)
            before = slot

    def set(
        self,
        value: Json,
        *,
        optimistic: bool = True,
        undo: bool = True,
        once: bool = False,
        parents: bool = False,
    ) -> "asyncio.Future[int]":
        """Puts a value there, whatever stands there now; it shows at once. Gives a future, as
        `Board.edit` does. One value of a place is on its way at a time: of those that are set
        meanwhile the newest is sent, unless something else is asked for in between. With `parents`
        the objects that are missing around it are made, in the same patch. Then the edit has a
        base, and is made anew if others were faster."""
        self._check_set()
        slots = self._board.slots
        if slots is None:
            raise LookupError("the slots are not there yet")
        view = self._board.view
        slot = self._slot(view, slots)
        if parents and self._missing(view, slots):
            made = self._board.update_place(self._with_parents(value), 20, optimistic, undo)
            return asyncio.ensure_future(made)
        operation = self._setting(slot, value)
        if once or operation["op"] == "add":
            return self._board.edit([operation], optimistic=optimistic, undo=undo, once=once)
        return self._board.replace(operation, optimistic, undo)

    async def update(
        self,
        make: Callable[[Json], Json],
        *,
        tries: int = 20,
        optimistic: bool = False,
        undo: bool = True,
    ) -> int:
        """Puts there what a function makes of the value that the relay has shown; of None if
        nothing stands there. No other edit comes in between: if others are faster, the function is
        called again. Gives the new revision. Fails as `Board.edit` with a `base` does, and with
        `Refused`, as `stale`, if others were faster each time."""

        def patch(held: Held) -> "list[Operation]":
            slot = self._slot(held.of.view, held.slots)
            return [self._setting(slot, make(_value(slot)))]

        return await self._board.update_place(patch, tries, optimistic, undo)

    # Of a list: guarded by what stands around the place, and made anew if that has moved.

    def elements(self) -> "list[Json]":
        """Those of the list that is shown there; none, if there is no list."""
        value = self.value
        return value if isinstance(value, list) else []

    def push(self, *values: Json) -> "asyncio.Future[int]":
        """Adds elements to the end of a list. It is a `Board.change`, as those below are."""
        return self.change_list(lambda elements: elements.extend(values))

    def insert(self, at: int, value: Json, **options: Any) -> "asyncio.Future[int]":
        """Puts an element in front of the one that is shown at an index, or at the end, by the
        index behind the last. If that one has moved by then it is put in front of it there; it is
        `Refused`, as `changed`, if it is gone. So are those below, which follow their elements by
        their values."""
        if at == len(self.elements()):
            return self.change_list(lambda elements: elements.append(value), **options)
        place = followed(self.elements, at)
        return self.change_list(lambda elements: elements.insert(place(), value), **options)

    def remove(self, at: int, **options: Any) -> "asyncio.Future[int]":
        place = followed(self.elements, at)
        return self.change_list(lambda elements: elements.pop(place()), **options)

    def move(self, at: int, to: int, **options: Any) -> "asyncio.Future[int]":
        """Moves an element to where another one is shown."""
        element, other = followed(self.elements, at), followed(self.elements, to)

        def make(elements: DraftList) -> None:
            origin, target = element(), other()
            if origin != target:
                elements.insert(target, elements.pop(origin))

        return self.change_list(make, **options)

    def by_key(self, name: str) -> Keyed:
        """The elements by a member that tells them apart, as an `id`."""
        return Keyed(self, name)

    def change_list(
        self, make: Callable[[DraftList], Any], *, key: Optional[str] = None, **options: Any
    ) -> "asyncio.Future[int]":
        self._check_set()
        keys = {} if key is None else {spelled(self._path): key}

        def made(draft: Draft) -> None:
            elements = draft.at(self._path)
            if not isinstance(elements, DraftList):
                raise TypeError(f"{spelled(self._path)} is no list")
            make(elements)

        return self._board.change_draft(made, keys, ChangeOptions(**options))

    def _slot(self, view: View, slots: Slots) -> Slot:
        if self._is_size and self._shown in view:
            return slots[view.index(self._shown)]
        part: Part = at(known_by(view, slots), self._path)
        if self._is_size or (part is not ABSENT and not is_value(part)):
            raise LookupError(f"{self._shown!r} is not in the view {view}")
        return [] if part is ABSENT else [part]

    @property
    def _is_size(self) -> bool:
        return not isinstance(self._shown, str)

    def _check_set(self) -> None:
        if self._is_size:
            raise TypeError("a size is not set: what it counts is")

    def _missing(self, view: View, slots: Slots) -> Sequence[Path]:
        """The containers around it that are known not to be there, outer ones first."""
        document = known_by(view, slots)
        around = [self._path[:length] for length in range(len(self._path))]
        return [path for path in around if at(document, path) is ABSENT]

    def _with_parents(self, value: Json) -> Callable[[Held], "list[Operation]"]:
        """No operation tests that nothing stands in a place: so it is done on what was seen."""

        def patch(held: Held) -> "list[Operation]":
            missing = self._missing(held.of.view, held.slots)
            if not missing:
                return [self._setting(self._slot(held.of.view, held.slots), value)]
            below = value
            for token in reversed(self._path[len(missing[0]) :]):
                below = {token: below}
            return [{"op": "add", "path": spelled(missing[0]), "value": below}]

        return patch

    def _setting(self, slot: Slot, value: Json) -> Operation:
        self._check_set()
        return {"op": "replace" if slot else "add", "path": spelled(self._path), "value": value}


def _value(slot: Slot) -> Json:
    return slot[0] if slot else None
