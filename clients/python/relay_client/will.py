"""A will: what the relay is to do when this client's session ends (docs/PROTOCOL.md, "Wills"). It
goes with its session, so each connection leaves it again."""
from __future__ import annotations

import asyncio
from typing import Callable

from .faults import Closed, Refused
from .requests import Asked, Message
from .values import Patch


class Will(Asked):
    """One that waits for its answer over as many connections as it takes. `taken` is told when the
    relay has it, in place of the one before."""

    def __init__(self, patch: Patch, taken: Callable[["Will"], None]):
        super().__init__({"do": "will", "patch": patch}, self._answered)
        self._taken = taken
        self.answer: "asyncio.Future[None]" = asyncio.get_running_loop().create_future()

    def drop(self) -> None:
        """It was not left before the board was closed."""
        self._fail(Closed())

    def _answered(self, reply: Message) -> None:
        if reply["kind"] != "willing":
            self._fail(Refused.by(reply))
            return
        self._taken(self)
        if not self.answer.done():
            self.answer.set_result(None)

    def _fail(self, cause: Exception) -> None:
        if not self.answer.done():
            self.answer.set_exception(cause)
