"""The time at which the document of a room is written.

A document is written whole, so a small edit of a large one costs a large write. So it is written
once edits have brought a tenth of its bytes since the last write, and at the latest when its oldest
unwritten edit is as old as the store may be behind. That age is for documents of 1 MiB and more,
and in proportion for smaller ones: small ones are written at once. So at most ten times what edits
bring is written, and one document for each age.
"""
from __future__ import annotations

from typing import Optional

LARGE = 1 << 20
"""Bytes of a document that has the whole age."""


class Pace:
    """`factor`: how many times the bytes that edits bring are written. `age`: how many seconds the
    store may be behind the room. Times of calls are in seconds, of one clock."""

    def __init__(self, factor: float, age: float):
        self._factor, self._age = factor, age
        self._cost = 0  # bytes of the newest write; of the first one, that nobody has to pay for it
        self._brought = 0.0  # bytes that edits brought since the last write began
        self._patches, self._bytes = 0, 0  # that were heard in all
        self._oldest: Optional[float] = None  # when the first edit came that is not written

    def patch(self, now: float, size: int) -> None:
        """A patch was heard, of so many bytes."""
        self._patches += 1
        self._bytes += size
        self._edited(now, size)

    def missed(self, now: float, edits: int) -> None:
        """A document was heard that so many edits led to, of which no patch was. They count as
        those that were heard."""
        self._edited(now, edits * self._bytes / self._patches if self._patches else 0.0)

    def _edited(self, now: float, brought: float) -> None:
        self._brought += brought
        if self._oldest is None:
            self._oldest = now

    def is_due(self, now: float) -> bool:
        """True if what was heard is to be written."""
        if self._oldest is None:
            return True
        is_paid = self._brought * self._factor >= self._cost
        return is_paid or now - self._oldest >= self._age * min(self._cost / LARGE, 1.0)

    def begin(self) -> None:
        """A write begins of all that was heard."""
        self._brought, self._oldest = 0.0, None

    def wrote(self, cost: int) -> None:
        self._cost = cost
