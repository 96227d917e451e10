"""The elements of a list that are those of another one: the same parts, and values that are
equal."""
from __future__ import annotations

import json
from collections import deque
from typing import Callable, Deque, Dict, List, Optional, Sequence

from .node import Node


def matched(
    there: Sequence[Node], goal: Sequence[Node], is_free: Callable[[Node], bool]
) -> Dict[Node, Node]:
    """By the goal. `is_free` says whether an element may stand for an equal value."""
    by: Dict[Node, Node] = {}
    left = dict.fromkeys(there)

    def match(kid: Node, other: Node) -> None:
        by[kid] = other
        del left[other]

    def are_equal(kid: Node, other: Node) -> bool:
        is_open = kid.origin is None and kid not in by and other in left and is_free(other)
        return is_open and text(kid) == text(other)

    for kid in goal:
        if kid in left:
            match(kid, kid)
    for kids, others in ((goal, there), (goal[::-1], there[::-1])):
        for kid, other in zip(kids, others):
            if by.get(kid) is not other and not are_equal(kid, other):
                break
            if kid not in by:
                match(kid, other)
    equal = _queues([other for other in left if is_free(other)])
    for kid in goal:
        queue = None if kid in by or kid.origin is not None else equal.get(text(kid))
        if queue:
            match(kid, queue.popleft())
    return by


def text(kid: Node) -> Optional[str]:
    """A part that was looked into may have lost something by then, so it stands for no value."""
    if kid.origin is not None and kid.is_open:
        return None
    return json.dumps(kid.value, sort_keys=True)


def _queues(kids: List[Node]) -> Dict[Optional[str], Deque[Node]]:
    queues: Dict[Optional[str], Deque[Node]] = {}
    for kid in kids:
        if text(kid) is not None:
            queues.setdefault(text(kid), deque()).append(kid)
    return queues
