"""Changes of a document by a function that is given a draft of it. If the patch is refused since
the document is another one by then, the function is called again, on what is shown then.
"""
from __future__ import annotations

import asyncio
import itertools
import random
from dataclasses import dataclass
from typing import TYPE_CHECKING, Any, Callable, Mapping, Optional

from .draft import Draft
from .faults import Refused
from .guard import Guard, guarded
from .known import known_by
from .values import Patch

if TYPE_CHECKING:
    from .board import Board

PAUSE, LONGEST_PAUSE = 0.01, 0.5
"""The seconds that the third try waits at most; each further one up to twice as long, so that many
who count take turns."""

OUTDATED = (
    "stale",
    "test-failed",
    "missing",
    "key",
    "not-index",
    "past-end",
    "no-container",
    "into-itself",
)
"""The faults by which a patch is refused that was made of another document."""


@dataclass(frozen=True)
class ChangeOptions:
    """The words of `Board.change`."""

    guard: Guard = "values"
    tries: int = 20
    optimistic: bool = True
    undo: bool = True
    once: bool = False


@dataclass(frozen=True)
class _Attempt:
    """An edit that a change came to; without an answer, if it was not asked for."""

    patch: Patch
    answer: "Optional[asyncio.Future[int]]"


Attempt = Callable[[], Optional[_Attempt]]
"""None if nothing is changed."""


def change(
    board: "Board", make: Callable[[Draft], Any], keys: Mapping[str, str], options: ChangeOptions
) -> "asyncio.Future[int]":
    """Gives a future of the new revision; of that of the slots, if nothing is changed. What shows
    at once is made at once."""
    if options.guard not in ("values", "base", "none"):
        raise ValueError(f"a guard is values, base or none, and not {options.guard!r}")

    def attempt() -> Optional[_Attempt]:
        draft = Draft(known_by(board.view, board.slots or []), keys)
        make(draft)
        made = guarded(draft, options.guard)
        if made is None:
            return None
        # A base is of what the relay has shown, without the edits that wait.
        if made.is_by_base and board.pending:
            return _Attempt(made.patch, None)
        return _Attempt(made.patch, board.edit_anew(made.patch, made.is_by_base, options))

    is_there = board.slots is not None
    first = attempt() if is_there else None
    over = board.begin_saying()
    task = asyncio.ensure_future(_anew(board, attempt, first, is_there, options))
    task.add_done_callback(lambda task: over())
    return task


async def _anew(
    board: "Board",
    attempt: Attempt,
    made: Optional[_Attempt],
    is_made: bool,
    options: ChangeOptions,
) -> int:
    """Tries again as long as what it was made of is another by then."""
    if not is_made:
        await board.ready
        made = attempt()
    for tried in itertools.count(1):
        while made is not None and made.answer is None:
            await board.quiet()
            made = attempt()
        if made is None or made.answer is None:
            return board.rev or 0
        try:
            return await made.answer
        except Exception as error:
            is_outdated = isinstance(error, Refused) and error.fault in OUTDATED
            if not is_outdated or tried >= options.tries:
                if options.optimistic and board.taken_back(made.patch, error):
                    _look_at(asyncio.current_task())
                raise
        if tried > 1:
            await pause(tried)
        await board.watch_again()
        made = attempt()
    raise AssertionError("the last try has ended it")


def _look_at(task: "Optional[asyncio.Task[Any]]") -> None:
    """Keeps asyncio from reporting that nobody looked at why a task failed, once it has."""
    if task is not None:
        task.add_done_callback(lambda task: task.cancelled() or task.exception())


async def pause(tried: int) -> None:
    await asyncio.sleep(random.uniform(0, min(PAUSE * 2**tried, LONGEST_PAUSE)))
