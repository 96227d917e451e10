"""Operations on the elements of one list: by their places, or by a member that tells them apart."""
from __future__ import annotations

import json
from typing import TYPE_CHECKING, Any, Callable, List, Optional

from .draft import DraftList
from .faults import Refused
from .values import Json, same

if TYPE_CHECKING:
    import asyncio

    from .place import Place


def followed(shown: Callable[[], List[Json]], at: int) -> Callable[[], int]:
    """Finds where an element is by now: the one that stood at a place when it was asked for, as far
    as its value tells. The nearest one, if there are several. `IndexError` if there is none."""
    before = shown()
    if not 0 <= at < len(before):
        raise IndexError(f"the list has no element {at}")
    wanted = before[at]

    def place() -> int:
        places = [place for place, value in enumerate(shown()) if same(value, wanted)]
        if not places:
            raise Refused("changed", advice=f"element {at} is not there any more")
        return min(places, key=lambda place: abs(place - at))

    return place


class Keyed:
    """The elements of a list, told apart by a member, wherever they stand. What is done to one
    fails with `Refused`, as `missing`, if no element has the key."""

    def __init__(self, place: "Place", name: str) -> None:
        self._place, self._name = place, name

    def index(self, key: Json) -> int:
        """The index of the element with a key; -1 if there is none."""
        for at, element in enumerate(self._place.elements()):
            if isinstance(element, dict) and same(element.get(self._name), key):
                return at
        return -1

    def get(self, key: Json) -> Json:
        """The element with a key; None if there is none."""
        at = self.index(key)
        return None if at < 0 else self._place.elements()[at]

    def remove(self, key: Json, **options: Any) -> "asyncio.Future[int]":
        return self._changed(lambda elements: elements.pop(self._at(key)), options)

    def move(self, key: Json, before: Json, **options: Any) -> "asyncio.Future[int]":
        """In front of the element with another key; to the end, if that is None."""

        def make(elements: DraftList) -> None:
            origin, to = self._at(key), self._to(before)
            if origin == to:
                return
            element = elements.pop(origin)
            if to is None:
                elements.append(element)
            else:
                elements.insert(to - 1 if to > origin else to, element)

        return self._changed(make, options)

    def insert(self, value: Json, before: Json, **options: Any) -> "asyncio.Future[int]":
        """Puts in a new one, in front of the element with a key; at the end, if that is None. Fails
        with `Refused`, as `key`, if it has no key, or that of an element that is shown. Two clients
        that put in one key at once both may; `guard="base"` prevents that."""

        def make(elements: DraftList) -> None:
            self._check_new(value)
            to = self._to(before)
            if to is None:
                elements.append(value)
            else:
                elements.insert(to, value)

        return self._changed(make, options)

    def change(
        self, key: Json, make: Callable[[Any], Any], **options: Any
    ) -> "asyncio.Future[int]":
        """Changes a draft of it."""
        return self._changed(lambda elements: make(elements[self._at(key)]), options)

    def _changed(self, make: Callable[[DraftList], Any], options: Any) -> "asyncio.Future[int]":
        return self._place.change_list(make, key=self._name, **options)

    def _at(self, key: Json) -> int:
        at = self.index(key)
        if at < 0:
            raise Refused("missing", advice=f"no element has the key {json.dumps(key)}")
        return at

    def _check_new(self, element: Json) -> None:
        key = element.get(self._name) if isinstance(element, dict) else None
        if key is None or self.index(key) >= 0:
            raise Refused("key", advice=f"{json.dumps(key)} is no new key")

    def _to(self, before: Json) -> Optional[int]:
        return None if before is None else self._at(before)
