"""Requests to a board that have not ended, for whoever waits for all of them."""
from __future__ import annotations

import asyncio
from contextlib import contextmanager
from typing import Callable, Iterator, Set


class Said:
    def __init__(self) -> None:
        self._all: "Set[asyncio.Future[None]]" = set()

    def begin(self) -> Callable[[], None]:
        """Gives its end."""
        over: "asyncio.Future[None]" = asyncio.get_running_loop().create_future()
        self._all.add(over)

        def end() -> None:
            self._all.discard(over)
            if not over.done():
                over.set_result(None)

        return end

    @contextmanager
    def during(self) -> Iterator[None]:
        """For what asks more than once."""
        end = self.begin()
        try:
            yield
        finally:
            end()

    async def ended(self) -> None:
        """Comes back when all has ended that was said before."""
        await asyncio.sleep(0)  # what was scheduled has begun then
        if self._all:
            await asyncio.wait(set(self._all))
