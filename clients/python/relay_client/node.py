"""The parts of a draft: what was seen, each part by where it stood, and what is made of it. A part
keeps what it is when it is moved, so that the patch can be a move. Containers are opened when they
are looked into.
"""
from __future__ import annotations

from typing import Any, Callable, Dict, Iterator, List, Optional, Union

from .known import ABSENT, UNKNOWN, Part, Parts, part_at
from .pointers import Path, index, spelled
from .values import DEEPEST, Json, as_json

Kids = Union[List["Node"], Dict[str, "Node"]]


class Node:
    def __init__(
        self, part: Part, origin: Optional[Path], element: "Optional[Node]" = None
    ) -> None:
        self.part = part
        self.origin = origin
        """The path at which it stood; None for what was put into the draft."""
        self.element = element
        """The innermost element of a list that it is, or is within."""
        self._kids: Optional[Kids] = None  # what stands in it now
        self._before: Optional[Kids] = None  # what stood in it

    @property
    def is_partial(self) -> bool:
        """Of which some members are known, and others are not."""
        return isinstance(self.part, Parts)

    @property
    def is_list(self) -> bool:
        return isinstance(self.part, (list, tuple))

    @property
    def is_container(self) -> bool:
        return isinstance(self.part, (list, tuple, dict, Parts))

    @property
    def is_open(self) -> bool:
        """True if it was looked into, so that something in it may be another one."""
        return self._kids is not None

    @property
    def kids(self) -> Kids:
        if self._kids is None:
            self._open()
        assert self._kids is not None
        return self._kids

    @kids.setter
    def kids(self, kids: Kids) -> None:
        self._kids = kids

    @property
    def before(self) -> Kids:
        """The parts that stood in it; none, if it was put in."""
        if self._before is None:
            return [] if self.is_list else {}
        return self._before

    @property
    def list(self) -> "List[Node]":
        kids = self.kids
        assert isinstance(kids, list)
        return kids

    @property
    def members(self) -> "Dict[str, Node]":
        kids = self.kids
        assert isinstance(kids, dict)
        return kids

    def _open(self) -> None:
        part = self.part
        if isinstance(part, list):
            kids = [self._kid(value, str(k), True) for k, value in enumerate(part)]
            self._before, self._kids = kids, [*kids]
            return
        members = part.known if isinstance(part, Parts) else part
        there = {name: value for name, value in members.items() if value not in (ABSENT, UNKNOWN)}
        parts = {name: self._kid(value, name, False) for name, value in there.items()}
        self._before, self._kids = parts, {**parts}

    def _kid(self, part: Part, token: str, is_list: bool) -> "Node":
        kid = Node(part, (*(self.origin or ()), token), self.element)
        # Of a container that is known in parts it is open whether it is a list.
        if is_list or (self.is_partial and index(token) is not None):
            kid.element = kid
        return kid

    def check(self, name: str) -> None:
        """Of a partial one: `LookupError` if the view does not show what stands at a name."""
        if self.is_partial and name not in self.members and part_at(self.part, name) is not ABSENT:
            path = spelled((*(self.origin or ()), name))
            raise NotInView(f"{path} is not in the view")

    @property
    def value(self) -> Json:
        """The value that it is now, as JSON."""
        if self._kids is None:
            return self.part
        if isinstance(self._kids, list):
            return [kid.value for kid in self._kids]
        return {name: kid.value for name, kid in self._kids.items()}


class NotInView(LookupError):
    """The view does not show what a function asked for."""


def each(kids: Kids) -> "Iterator[Node]":
    return iter(kids if isinstance(kids, list) else kids.values())


NodeOf = Callable[[Any], Optional[Node]]


def put(value: Any, node_of: NodeOf) -> Node:
    """A part of what an application puts in: parts of the draft stay what they are."""
    own = node_of(value)
    if own is not None:
        return own
    is_plain = isinstance(value, (list, dict))
    return Node(value if is_plain or isinstance(value, tuple) else as_json(value), None)


def take_up(node: Node, node_of: NodeOf, depth: int = 0) -> None:
    """Takes up what stands in a value that was put in, which its owner may have changed since."""
    value = node.part
    if node.origin is not None or node.is_open or not isinstance(value, (list, tuple, dict)):
        return
    if depth > DEEPEST:
        raise ValueError("a value is nested too deep, or contains itself")

    def kid(part: Any) -> Node:
        kid = put(part, node_of)
        take_up(kid, node_of, depth + 1)
        return kid

    if isinstance(value, dict):
        as_json(dict.fromkeys(value))
        node.kids = {name: kid(part) for name, part in value.items()}
    else:
        node.kids = [kid(part) for part in value]
