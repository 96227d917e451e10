"""The patch that makes a draft of what was seen. The parts are led one by one to where they stand
in the draft, from the root down, over a picture of where each stands by then: so a part that went
elsewhere is moved, and each path is right when its operation is done.
"""
from __future__ import annotations

from typing import Callable, Dict, List, Optional, Sequence, Set, Tuple

from .draft import Draft
from .matched import matched
from .node import Kids, Node, each
from .pointers import Path, spelled
from .rising import longest_rising
from .settled import settled
from .values import Json, Patch, same

IsKept = Callable[[Node], bool]


class Difference:
    def __init__(self, draft: Draft) -> None:
        """The draft is not to be changed any more."""
        self.operations: Patch = []
        self.changed: Dict[Node, None] = {}
        """The containers that they change."""
        self._draft = draft
        self._places = settled(draft)  # in which container each part stands in the draft
        self._kids: Dict[Node, Kids] = {}  # what stands in a container by now
        self._holders: Dict[Node, Node] = {}  # in which container a part stands by now
        self._appended: Set[Node] = set()
        """Parts at the end of a list, of which only the whole list tells the index."""
        self._picture(draft.root)
        self._lead(draft.root)

    def _picture(self, node: Node) -> None:
        if not node.is_open or node.origin is None:
            return
        before = node.before
        self._kids[node] = [*before] if isinstance(before, list) else {**before}
        for kid in each(before):
            self._holders[kid] = node
            self._picture(kid)

    def _lead(self, node: Node) -> None:
        """Leads what stands in a container to what stands in it in the draft."""
        if not node.is_open:
            return
        kids = self._kids[node]
        if isinstance(kids, list):
            self._lead_list(node, kids)
        else:
            self._lead_members(node, kids)
        for kid in each(node.kids):
            if kid.origin is not None and self._places.get(kid) is node:
                self._lead(kid)

    def _lead_members(self, node: Node, members: Dict[str, Node]) -> None:
        for name, kid in list(members.items()):
            if name not in node.members and kid not in self._places:
                self._emit(node, op="remove", path=self._path_to(node, name))
                self._take(kid)
        for name, kid in node.members.items():
            if members.get(name) is not kid:
                self._put_member(node, members, name, kid)

    def _put_member(self, node: Node, members: Dict[str, Node], name: str, kid: Node) -> None:
        origin = self._path(kid)
        before = members.get(name)
        if origin is not None:
            self._move(node, origin, name, kid)
        elif before is not None and not before.is_open and same(before.value, kid.value):
            # What is set to what it is makes no change, so it has to be that.
            self._draft.see(before)
        else:
            self._write(node, "add" if before is None else "replace", name, kid)
        if before is not None:
            self._holders.pop(before, None)
        members[name] = kid
        self._holders[kid] = node

    def _lead_list(self, node: Node, kids: List[Node]) -> None:
        end = self._end_of(node)
        by, stays = self._matched(node, kids, node.list[:end])
        kept = set(by.values())
        is_kept = lambda kid: kid in kept or kid in self._places
        last = [self._equal_to(node, kids, kid, is_kept) for kid in node.list[end:]]
        at = 0
        for kid in node.list[:end]:
            while at < len(kids) and self._leaves(kids[at], node):
                at += 1
            there = by.get(kid)
            if there is not None and there in stays:
                at = self._come_to(node, kids, at, there, is_kept)
            else:
                at = self._put_element(node, kids, at, there or kid, is_kept)
        self._drop_rest(node, kids, at)
        for kid in last:
            self._push_element(node, kids, kid)

    def _end_of(self, node: Node) -> int:
        """The end of the list: what was pushed comes there, also if others have made that longer by
        then."""
        end = len(node.list)
        if node not in self._draft.seen:
            while end and self._draft.pushed.get(node.list[end - 1]) is node:
                end -= 1
        return end

    def _equal_to(self, node: Node, kids: List[Node], kid: Node, is_kept: IsKept) -> Node:
        """A value that is taken away at one place and pushed is moved."""
        if kid.origin is not None:
            return kid
        for other in kids:
            if not is_kept(other) and not other.is_open and same(other.value, kid.value):
                self._places[other] = node
                return other
        return kid

    def _matched(
        self, node: Node, kids: List[Node], goal: Sequence[Node]
    ) -> Tuple[Dict[Node, Node], Set[Node]]:
        """The parts that stand for the elements of the goal, and those of them that stay where they
        are."""
        by = matched(kids, goal, lambda kid: kid not in self._places)
        # Which element stands for an equal value hangs on the whole list.
        if any(kid is not there for kid, there in by.items()):
            self._draft.see(node)
        at = {kid: place for place, kid in enumerate(kids)}
        rising = longest_rising([at[by[kid]] for kid in goal if kid in by])
        return by, {kids[place] for place in rising}

    def _leaves(self, kid: Node, node: Node) -> bool:
        """True if a part goes to another container."""
        return self._places.get(kid, node) is not node

    def _come_to(self, node: Node, kids: List[Node], at: int, there: Node, is_kept: IsKept) -> int:
        """Takes away what stands in front of an element that stays, and gives the place behind
        it."""
        while kids[at] is not there:
            if is_kept(kids[at]):
                at += 1
            else:
                self._remove_at(node, kids, at)
        return at + 1

    def _put_element(
        self, node: Node, kids: List[Node], at: int, kid: Node, is_kept: IsKept
    ) -> int:
        """Gives the place behind it."""
        origin = self._path(kid)
        if origin is not None:
            at -= kid in kids[:at]
            self._move(node, origin, str(at), kid)
            return self._insert(node, kids, at, kid)
        if at == len(kids) or is_kept(kids[at]):
            self._write(node, "add", str(at), kid)
            return self._insert(node, kids, at, kid)
        self._write(node, "replace", str(at), kid)
        self._holders.pop(kids[at], None)
        kids[at] = kid
        self._holders[kid] = node
        return at + 1

    def _push_element(self, node: Node, kids: List[Node], kid: Node) -> None:
        origin = self._path(kid)
        if origin is None:
            self._write(node, "add", "-", kid)
        else:
            self._move(node, origin, "-", kid)
        self._insert(node, kids, len(kids), kid)
        self._appended.add(kid)

    def _insert(self, node: Node, kids: List[Node], at: int, kid: Node) -> int:
        kids.insert(at, kid)
        self._holders[kid] = node
        return at + 1

    def _drop_rest(self, node: Node, kids: List[Node], at: int) -> None:
        for place in range(len(kids) - 1, at - 1, -1):
            if kids[place] not in self._places:
                self._remove_at(node, kids, place)

    def _remove_at(self, node: Node, kids: List[Node], at: int) -> None:
        self._emit(node, op="remove", path=self._path_to(node, str(at)))
        self._holders.pop(kids[at], None)
        del kids[at]

    def _write(self, node: Node, op: str, token: str, kid: Node) -> None:
        path, value = self._path_to(node, token), self._standing(kid)
        # Of a part of what was seen that is written as a value all of it is told. It stands where
        # it is written from then on, and no more in what was taken away with it.
        if kid.origin is not None:
            self._draft.see(kid)
        if kid in self._holders:
            self._take(kid)
        self._emit(node, op=op, path=path, value=value)

    def _move(self, node: Node, origin: Path, token: str, kid: Node) -> None:
        self._take(kid)
        path = self._path_to(node, token)
        if len(path) <= len(origin) or path[: len(origin)] != origin:
            return self._emit(node, op="move", **{"from": origin}, path=path)
        # What stood behind it has its index by now, and a move into that would be one into itself.
        self._draft.see(kid)
        self._emit(node, op="remove", path=origin)
        self._emit(node, op="add", path=path, value=self._standing(kid))

    def _standing(self, node: Node) -> Json:
        """The value that a part has by now. What it has besides in the draft is led to it later."""
        kids = self._kids.get(node)
        if kids is None:
            return node.value
        if isinstance(kids, list):
            return [self._standing(kid) for kid in kids]
        return {name: self._standing(kid) for name, kid in kids.items()}

    def _take(self, kid: Node) -> None:
        kids = self._kids[self._holders.pop(kid)]
        if isinstance(kids, list):
            kids.remove(kid)
        else:
            del kids[_name_of(kids, kid)]

    def _path(self, kid: Node) -> Optional[Path]:
        """The path at which a part stands by now; None if it stands nowhere."""
        if kid is self._draft.root:
            return ()
        holder = self._holders.get(kid)
        path = None if holder is None else self._path(holder)
        if holder is None or path is None:
            return None
        if kid in self._appended:
            self._draft.see(holder)
        kids = self._kids[holder]
        token = str(kids.index(kid)) if isinstance(kids, list) else _name_of(kids, kid)
        return (*path, token)

    def _path_to(self, node: Node, token: str) -> Path:
        path = self._path(node)
        assert path is not None
        return (*path, token)

    def _emit(self, node: Node, **operation: Json) -> None:
        paths = {name: spelled(operation[name]) for name in ("path", "from") if name in operation}
        self.operations.append({**operation, **paths})
        self.changed[node] = None


def _name_of(kids: Dict[str, Node], kid: Node) -> str:
    return next(name for name, other in kids.items() if other is kid)


def coarse(node: Node, path: Path = ()) -> Patch:
    """A coarser patch: each value that the view shows is written anew if something in it is another
    one."""
    if not node.is_open:
        return []
    if not node.is_partial:
        value = node.value
        replace = {"op": "replace", "path": spelled(path), "value": value}
        return [] if same(value, node.part) else [replace]
    patch: Patch = []
    before = node.before
    assert isinstance(before, dict)
    for name in {**before, **node.members}:
        was, kid, place = before.get(name), node.members.get(name), (*path, name)
        if kid is None:
            patch.append({"op": "remove", "path": spelled(place)})
        elif kid is was:
            patch += coarse(kid, place)
        else:
            op = "add" if was is None else "replace"
            patch.append({"op": op, "path": spelled(place), "value": kid.value})
    return patch
