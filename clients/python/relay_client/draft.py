"""A draft of what a board shows, which an application changes as any value. What it reads and what
it addresses is noted, so that the patch can be guarded by tests of that.
"""
from __future__ import annotations

from typing import (
    Any,
    Callable,
    Dict,
    Iterable,
    Iterator,
    List,
    Mapping,
    MutableMapping,
    MutableSequence,
    Optional,
    Sequence,
    Union,
)

from .known import ABSENT, UNKNOWN, Part
from .node import Node, put, take_up
from .pointers import Path, index, spelled


class Draft:
    def __init__(self, whole: Part, keys: Optional[Mapping[str, str]] = None) -> None:
        """`whole` is what is known of the document, and `keys` the names of the members that tell
        the elements of lists apart, by the lists' pointers."""
        self.root = Node(whole, ())
        if whole in (ABSENT, UNKNOWN) or not self.root.is_container:
            raise TypeError("the document is no list and no object")
        self._keys = keys or {}
        self._proxies: "Dict[Node, Union[DraftList, DraftObject]]" = {}
        # In the order in which they came, so that a patch is always the same.
        self.seen: Dict[Node, None] = {}
        """Parts whose values the outcome hangs on."""
        self.there: Dict[Node, None] = {}
        """Containers that were looked for."""
        self.pushed: Dict[Node, Node] = {}
        """Parts that were put at the end of a list, however long it is, and the list."""
        self.is_guarded_by_base = False
        """No test says what was read."""

    def at(self, path: Path) -> "Union[DraftList, DraftObject]":
        """The part that stands at a path."""
        part: Any = self.of(self.root)
        for token in path:
            if isinstance(part, DraftList):
                part = part[int(token)]
            elif isinstance(part, DraftObject):
                part = part[token]
        if not isinstance(part, (DraftList, DraftObject)):
            raise TypeError(f"{spelled(path)} is no list and no object")
        return part

    def of(self, node: Node) -> Any:
        """Returns what the application is given of a node."""
        # What the application put in is its own.
        if not node.is_container or node.origin is None:
            return node.part
        if node not in self._proxies:
            is_list = node.is_list
            self._proxies[node] = DraftList(self, node) if is_list else DraftObject(self, node)
        return self._proxies[node]

    def put(self, value: Any) -> Node:
        return put(value, self._node_of)

    def take_up(self, node: Node) -> None:
        take_up(node, self._node_of)

    def _node_of(self, value: Any) -> Optional[Node]:
        is_own = isinstance(value, (DraftList, DraftObject)) and value.draft is self
        return value.node if is_own else None

    def read(self, node: Node) -> Any:
        """The value of a part is read."""
        if node.is_container:
            self.there[node] = None
        else:
            self.see(node)
        return self.of(node)

    def see(self, node: Node) -> None:
        """The outcome hangs on all of a part, as on the length of a list."""
        if node.is_partial:
            self.is_guarded_by_base = True
        elif node.origin is not None:
            self.seen[node] = None

    def address(self, element: Optional[Node]) -> None:
        """An element is addressed by its place in a list: what stands there has to be that one. Its
        key says so if there is one."""
        if element is None or element.origin is None:
            return
        key = self._keys.get(spelled(element.origin[:-1]))
        kid = None
        if key is not None and isinstance(element.part, dict):
            before = element.before if element.is_open else element.members
            kid = before.get(key) if isinstance(before, dict) else None
        self.see(kid or element)

    def change(self, node: Node) -> None:
        """Something in a container is changed."""
        if node.origin is not None:
            self.address(node.element)


class DraftObject(MutableMapping[str, Any]):
    """An object of a draft."""

    def __init__(self, draft: Draft, node: Node) -> None:
        self.draft, self.node = draft, node

    def __getitem__(self, name: str) -> Any:
        self.node.check(name)
        kid = self.node.members.get(name)
        if kid is not None:
            return self.draft.read(kid)
        if name not in self.node.before:
            self.draft.see(self.node)
        raise KeyError(name)

    def __setitem__(self, name: str, value: Any) -> None:
        node, draft = self.node, self.draft
        node.check(name)
        before = node.members.get(name)
        self._check_place(name, before is not None)
        if not isinstance(name, str):
            raise TypeError(f"a member is named by {name!r}, which is no text")
        made = draft.put(value)
        draft.change(node)
        if before is not None and before.element is before:
            draft.address(before)
        node.members[name] = made

    def __delitem__(self, name: str) -> None:
        node, draft = self.node, self.draft
        node.check(name)
        self._check_place(name, False)
        # That nothing stood there: no operation says it, also if something was put there since.
        if name not in node.before:
            draft.see(node)
        if name not in node.members:
            raise KeyError(name)
        draft.change(node)
        del node.members[name]

    def _check_place(self, name: str, is_replaced: bool) -> None:
        """If it may be a list, another place would stand for another element then."""
        if self.node.is_partial and not is_replaced and (index(name) is not None or name == "-"):
            raise LookupError("elements come and go if the view shows the whole list")

    def __iter__(self) -> Iterator[str]:
        self._all()
        return iter(list(self.node.members))

    def __len__(self) -> int:
        self._all()
        return len(self.node.members)

    def _all(self) -> None:
        if self.node.is_partial:
            raise LookupError("the view does not show which members there are")
        self.draft.see(self.node)

    def __repr__(self) -> str:
        return repr(self.node.value)


class DraftList(MutableSequence[Any]):
    """A list of a draft. What hangs on the whole list, as its length, has it noted as seen; what
    hangs on one element, that one."""

    def __init__(self, draft: Draft, node: Node) -> None:
        self.draft, self.node = draft, node

    def _all(self) -> List[Node]:
        self.draft.see(self.node)
        return self.node.list

    def __len__(self) -> int:
        return len(self._all())

    def __getitem__(self, at: Any) -> Any:
        if isinstance(at, slice):
            start, end = self._span(at)
            return [self.draft.read(kid) for kid in self.node.list[start:end]]
        return self.draft.read(self.node.list[self._place(at)])

    def __setitem__(self, at: Any, value: Any) -> None:
        if isinstance(at, slice):
            start, end = self._span(at)
            self._replace(start, end, [self.draft.put(part) for part in value])
        else:
            place = self._place(at)
            self._replace(place, place + 1, [self.draft.put(value)])

    def __delitem__(self, at: Any) -> None:
        if isinstance(at, slice):
            start, end = self._span(at)
        else:
            start = self._place(at)
            end = start + 1
        self._replace(start, end, [])

    def insert(self, at: int, value: Any) -> None:
        if not 0 <= at <= len(self.node.list):
            at = range(len(self) + 1)[slice(at, None)].start
        self._replace(at, at, [self.draft.put(value)])

    def append(self, value: Any) -> None:
        self.extend([value])

    def extend(self, values: Iterable[Any]) -> None:
        made = [self.draft.put(value) for value in values]
        self.draft.change(self.node)
        self.node.list.extend(made)
        self.draft.pushed.update((kid, self.node) for kid in made)

    def __iadd__(self, values: Iterable[Any]) -> "DraftList":
        self.extend(values)
        return self

    def pop(self, at: int = -1) -> Any:
        place = self._place(at)
        kid = self.node.list[place]
        self._replace(place, place + 1, [])
        return self.draft.of(kid)

    def clear(self) -> None:
        self._replace(0, len(self), [])

    def reverse(self) -> None:
        kids = self._all()
        self.draft.change(self.node)
        kids.reverse()

    def sort(self, *, key: Optional[Callable[[Any], Any]] = None, reverse: bool = False) -> None:
        kids = self._all()
        self.draft.change(self.node)

        def by(kid: Node) -> Any:
            value = self.draft.of(kid)
            return value if key is None else key(value)

        kids.sort(key=by, reverse=reverse)

    def __iter__(self) -> Iterator[Any]:
        """Only who comes to the end knows how long it is."""
        at = 0
        while at < len(self.node.list):
            yield self.draft.read(self.node.list[at])
            at += 1
        self._all()

    def __contains__(self, wanted: object) -> bool:
        return any(value == wanted for value in self)

    def index(self, wanted: Any, start: int = 0, stop: Optional[int] = None) -> int:
        for at, value in enumerate(self):
            if value == wanted and at >= start and (stop is None or at < stop):
                return at
        raise ValueError(f"{wanted!r} is not in the list")

    def __eq__(self, other: object) -> bool:
        self._all()
        value = other.node.value if isinstance(other, DraftList) else other
        return bool(self.node.value == value)

    def __repr__(self) -> str:
        return repr(self.node.value)

    def _place(self, at: int) -> int:
        if at < 0 or at >= len(self.node.list):
            length = len(self)
            if not -length <= at < length:
                raise IndexError("list index out of range")
        return at if at >= 0 else at + len(self.node.list)

    def _span(self, asked: slice) -> Sequence[int]:
        if asked.step not in (None, 1):
            raise ValueError("a slice of a draft has no step")
        start, stop = asked.start or 0, asked.stop
        if start < 0 or stop is None or not start <= stop <= len(self.node.list):
            start, stop, _ = asked.indices(len(self))
        return start, max(start, stop)

    def _replace(self, start: int, end: int, made: List[Node]) -> None:
        kids, draft = self.node.list, self.draft
        draft.change(self.node)
        for kid in kids[start:end]:
            draft.address(kid)
        if len(made) > end - start and start > 0:
            self._neighbour(start, end)
        kids[start:end] = made
        for kid in made:
            draft.pushed.pop(kid, None)

    def _neighbour(self, start: int, end: int) -> None:
        """Elements that are put in are put in front of one or behind one, but at the start."""
        kids = self.node.list
        for kid in (*kids[end:], *reversed(kids[:start])):
            if kid.origin is not None:
                self.draft.address(kid)
                return
