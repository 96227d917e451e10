"""The time for which a connection may be silent before it is given up."""
from __future__ import annotations

DOUBLINGS = 5
"""The number of times that the patience doubles at most."""


class Patience:
    """It doubles with each connection in a row that was given up, until slots come: a line on which
    they take long is not lost, and a line that is dead in one direction is still found."""

    def __init__(self, quiet: float, patience: float):
        self._quiet, self._patience = quiet, patience
        self._given_up = 0

    @property
    def for_answers(self) -> float:
        """Seconds from a request to its answer, and from a handshake to the welcome."""
        return self._patience * self._grown

    @property
    def for_slots(self) -> float:
        """Seconds from the answer that promises slots to the slots. Replies do not overtake what is
        being sent, so nothing is heard in between."""
        return (self._quiet + self._patience) * self._grown

    @property
    def _grown(self) -> int:
        return 1 << min(self._given_up, DOUBLINGS)

    def lost(self) -> None:
        """A connection was given up."""
        self._given_up += 1

    def slots_came(self) -> None:
        self._given_up = 0
