"""The longest rising subsequence: which elements of a list stay where they are, when the others
move."""
from __future__ import annotations

from bisect import bisect_left
from typing import List, Sequence


def longest_rising(places: Sequence[int]) -> List[int]:
    lowest: List[int] = []  # by the length: the lowest end of a rising sequence of it
    ends: List[int] = []  # where that is
    before: List[int] = []
    for at, place in enumerate(places):
        length = bisect_left(lowest, place)
        before.append(ends[length - 1] if length else -1)
        lowest[length : length + 1] = [place]
        ends[length : length + 1] = [at]
    rising, at = [], ends[-1] if ends else -1
    while at >= 0:
        rising.append(places[at])
        at = before[at]
    return rising[::-1]
