"""The time that something may take. Who waits has a deadline, or a condition that has to hold in
time."""

import asyncio
import time

# Seconds for anything that takes a moment on a machine that does nothing else.
PATIENCE = 60


class OutOfTime(Exception):
    """The moment has passed."""


class Deadline:
    def __init__(self, seconds=PATIENCE):
        self.end = time.monotonic() + seconds

    def left(self):
        """Seconds until then, more than none."""
        left = self.end - time.monotonic()
        if left <= 0:
            raise OutOfTime
        return left


def until(holds, seconds=PATIENCE):
    """Waits until this is true, and gives what it was."""
    deadline = Deadline(seconds)
    while not (found := holds()):
        deadline.left()
        time.sleep(0.01)
    return found


async def becomes(look, holds, seconds=PATIENCE):
    """Waits until what is looked up is right, and gives it."""
    deadline = Deadline(seconds)
    while not holds(seen := await look()):
        try:
            await asyncio.sleep(min(0.02, deadline.left()))
        except OutOfTime:
            raise AssertionError(f"after {seconds} s it is {str(seen)[:200]}") from None
    return seen
