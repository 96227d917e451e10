"""In which container each part of what was seen stands in a draft. A part that an application put
into several places stands in one of them, if it can where it stood, and is a value in the others.
"""
from __future__ import annotations

import json
from typing import Callable, Dict, List, Tuple

from .draft import Draft
from .node import Kids, Node, each


def settled(draft: Draft) -> Dict[Node, Node]:
    containers = _live(draft)
    places: Dict[Node, Node] = {}
    for node in containers:
        kids = set(each(node.kids))
        places.update((kid, node) for kid in each(node.before) if kid in kids)
    for node in containers:
        node.kids = _made(node.kids, _placing(draft, places, node))
    return places


def _placing(draft: Draft, places: Dict[Node, Node], node: Node) -> Callable[[Node], Node]:
    here = set()

    def place(kid: Node) -> Node:
        if kid.origin is None:
            _tell(draft, kid)
            return kid
        if places.setdefault(kid, node) is not node or kid in here:
            draft.see(kid)
            return Node(kid.value, None)
        here.add(kid)
        return kid

    return place


def _live(draft: Draft) -> List[Node]:
    """The containers of what was seen that are in the draft, and were looked into."""
    found: Dict[Node, None] = {}
    exchanged: List[Tuple[Node, str, Node]] = []

    def find(node: Node) -> None:
        if node in found or node.origin is None or not node.is_open:
            return
        found[node] = None
        for kid in each(node.kids):
            draft.take_up(kid)
        for kid in each(node.kids):
            find(kid)
        if isinstance(node.kids, dict):
            made = ((name, kid) for name, kid in node.kids.items() if kid.origin is None)
            exchanged.extend((node, name, kid) for name, kid in made if kid.is_open)

    find(draft.root)
    for node, name, kid in exchanged:
        before = node.before.get(name) if isinstance(node.before, dict) else None
        if before is None or before in found or not _is_like(before, kid):
            continue
        # A list that was made of one that stood there is that one, with other elements.
        draft.see(before)
        before.kids = kid.kids
        node.members[name] = before
        find(before)
    return list(found)


def _is_like(before: Node, kid: Node) -> bool:
    """True if at least half of it is the same."""
    if before.is_partial or not before.is_container or before.is_list != kid.is_list:
        return False
    old, made = before.kids, kid.kids
    parts = set(each(old))
    values = {json.dumps(part.value) for part in parts if not part.is_container}
    is_kept = lambda part: part in parts or (
        not part.is_container and json.dumps(part.value) in values
    )
    kept = sum(map(is_kept, each(made)))
    return kept * 2 >= max(len(old), len(made))


def _made(kids: Kids, make: Callable[[Node], Node]) -> Kids:
    if isinstance(kids, list):
        return [make(kid) for kid in kids]
    return {name: make(kid) for name, kid in kids.items()}


def _tell(draft: Draft, kid: Node) -> None:
    """Tells, with a value that was put in, what stands in it."""
    if not kid.is_open:
        return
    for part in each(kid.kids):
        if part.origin is not None:
            draft.see(part)
        else:
            _tell(draft, part)
