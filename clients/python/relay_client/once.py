"""A counter of this client's own in the document. Each edit that is `once` tests and raises it, so
one that is sent again is done at most once (docs/PROTOCOL.md, "Edits without an answer").

One such edit is on its way at a time, and what was asked for behind it waits. The counter has a
name that nobody had before, and is added by a request that is sent once: if the answer of that was
lost, a counter of another name is added. So no late one sets back a counter that has gone on.
"""
from __future__ import annotations

import uuid
from typing import TYPE_CHECKING, Any, Callable, Dict, Optional, Tuple

from .faults import Refused
from .pointers import spelled, tokens
from .values import Patch

if TYPE_CHECKING:
    from .requests import Edit

Message = Dict[str, Any]


class Counter:
    def __init__(self, parent: str):
        """`parent` is a pointer to an object of the document."""
        self._parent = tokens(parent)
        self._path, self._value = "", 0  # of the counter, and what stands there
        self._epoch: Optional[int] = None  # the run in whose document it stands, if it does
        self._adding: Optional[Message] = None  # the connection on which it is being added
        self._edit: "Optional[Edit]" = None  # which has no answer yet

    def takes(self, edit: "Edit", welcome: Message) -> bool:
        """True if an edit can be sent now. Then it is on its way."""
        if self._edit is None and self._epoch == welcome["epoch"]:
            self._edit = edit
        return self._edit is edit

    def adding(
        self, edit: "Edit", welcome: Message
    ) -> Optional[Tuple[Message, Callable[[Message], None]]]:
        """The request that adds a counter before an edit that waits for it, and what is told its
        answer. None if nothing is to be sent until something comes."""
        if self._edit is not None or self._adding is welcome:
            return None
        self._adding = welcome
        path = spelled((*self._parent, uuid.uuid4().hex[:20]))

        def answered(reply: Message) -> None:
            self._adding = None
            if reply["kind"] == "done":
                self._path, self._value, self._epoch = path, 0, welcome["epoch"]
            else:
                edit.fail(Refused(reply["fault"], None, advice=self._advice))

        return {"do": "edit", "patch": [{"op": "add", "path": path, "value": 0}]}, answered

    @property
    def _advice(self) -> str:
        parent = spelled(self._parent)
        return f"`once` needs an object at {parent!r}, which `begin` can make"

    @property
    def raising(self) -> Patch:
        path, value = self._path, self._value
        test = {"op": "test", "path": path, "value": value}
        return [test, {"op": "replace", "path": path, "value": value + 1}]

    def raised(self) -> None:
        """The edit that was on its way was done."""
        self._value += 1
        self._edit = None

    def left(self, edit: "Edit", is_known: bool) -> None:
        """An edit was not done, and the counter stands as it did; or what it is now is not known,
        and the next edit has another one."""
        if self._edit is not edit:
            return
        self._edit = None
        if not is_known:
            self._epoch = None
