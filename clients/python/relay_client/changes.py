"""Changes of what a board shows, and who is told of them."""
from __future__ import annotations

import asyncio
from dataclasses import dataclass, replace
from typing import AsyncIterator, Callable, Dict, Optional, Set

from .values import Patch, Slots


@dataclass(frozen=True)
class Change:
    slots: Slots
    """The slots that are shown now: `[value]` for each pointer of the view, or `[]` if it leads to
    nothing. No later change writes to it, and nobody else may: sort a copy, as `sorted(cards)`."""
    confirmed: Slots
    """The slots as the relay has shown them: the same without the optimistic edits that wait."""
    rev: int
    """The revision of which that is."""
    pending: int
    """The number of optimistic edits that wait."""
    patch: Optional[Patch]
    """The patch that led to `confirmed` from the slots before, with slot k's value at /k/0; None if
    all came anew, or only what waits changed."""


Listener = Callable[[Change], None]


class Listeners:
    def __init__(self) -> None:
        self._listeners: Dict[object, Listener] = {}
        self._readers: Set[_Newest] = set()
        self._closed = False
        self._cause: Optional[Exception] = None

    def add(self, listener: Listener) -> Callable[[], None]:
        key = object()
        self._listeners[key] = listener
        return lambda: (self._listeners.pop(key, None), None)[1]

    def tell(self, change: Change) -> None:
        for listener in list(self._listeners.values()):
            told(listener, change)
        for reader in self._readers:
            reader.put(change)

    def close(self, cause: Optional[Exception]) -> None:
        self._closed, self._cause = True, cause
        for reader in self._readers:
            reader.wake.set()

    async def read(self, first: Optional[Change]) -> AsyncIterator[Change]:
        """Yields what is shown, and then each change. A reader that is slow is given the newest
        one, in place of those that it missed."""
        reader = _Newest(first)
        self._readers.add(reader)
        try:
            while True:
                change = reader.take()
                if change is not None:
                    yield change
                elif not self._closed:
                    await reader.wake.wait()
                elif self._cause is not None:
                    raise self._cause
                else:
                    return
        finally:
            self._readers.discard(reader)


class _Newest:
    def __init__(self, first: Optional[Change]):
        self._change = first
        self.wake = asyncio.Event()

    def put(self, change: Change) -> None:
        missed = self._change is not None
        self._change = replace(change, patch=None) if missed else change
        self.wake.set()

    def take(self) -> Optional[Change]:
        change, self._change = self._change, None
        self.wake.clear()
        return change


def told(hearer: Callable[..., None], *words: object) -> None:
    """Tells the event loop what an application's function throws, and the board goes on."""
    try:
        hearer(*words)
    except Exception as error:
        context = {"message": "told by a board of the relay", "exception": error}
        asyncio.get_running_loop().call_exception_handler(context)
