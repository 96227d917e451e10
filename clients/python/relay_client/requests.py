"""Requests, from their asking to their answers."""
from __future__ import annotations

import asyncio
from typing import Any, Callable, Dict, NamedTuple, Optional

from .faults import Closed, Refused, Unknown
from .once import Counter
from .undo import OwnEdit
from .values import Json, Patch

Message = Dict[str, Any]

SENDINGS = 5
"""The number of times that an edit is sent at most: one that ends its connection each time has to
come to an end."""


class Setting(NamedTuple):
    """The effect of an edit that replaces the value of a place, and no more."""

    pointer: str
    optimistic: bool
    undo: bool


class Asked:
    """A request that is of one connection."""

    setting: Optional[Setting] = None

    def __init__(self, request: Message, answered: Callable[[Message], None] = lambda reply: None):
        self._request, self.answered = request, answered
        self.id = 0
        self.sent_at = 0.0

    @property
    def request(self) -> Message:
        """The message that is sent."""
        return self._request

    def ahead(self, welcome: Message) -> "Optional[Asked]":
        """Returns what has to be sent before it: nothing, another request, or itself while it has
        to wait."""
        return None


def beginning(value: Json, refused: Callable[[Refused], None]) -> Asked:
    """Gives the room its document, if it has none yet. `refused` is told of any other refusal."""

    def answered(reply: Message) -> None:
        if reply["kind"] != "done" and reply["fault"] != "test-failed":
            refused(Refused.by(reply))

    test = {"op": "test", "path": "", "value": None}
    add = {"op": "add", "path": "", "value": value}
    return Asked({"do": "edit", "patch": [test, add]}, answered)


class Edit(Asked):
    """An edit. If its answer was lost, one with a base is sent to the same run of the relay again:
    revisions only rise, so of all edits with one base at most one is done. So is one with a
    counter, which tests that and raises it (once.py). `ended` is told once: when it was done, or
    when it failed. `again` has it sent before whatever waits, and `done_before` is told that it was
    done on a connection that was lost, at a revision that the relay did not tell."""

    def __init__(
        self,
        own: OwnEdit,
        base: Optional[int],
        has_base: bool,
        epoch: Optional[int],
        optimistic: bool,
        counter: Optional[Counter],
        ended: Callable[["Edit"], None],
        again: Callable[["Edit"], None],
        done_before: Callable[["Edit"], None],
    ):
        super().__init__({}, self._answered)
        self.patch: Patch = own.patch
        self.own, self.optimistic = own, optimistic
        self.answer: "asyncio.Future[int]" = asyncio.get_running_loop().create_future()
        self._answers = [self.answer]
        self.rev: Optional[int] = None
        """The revision that it made; None if it was not done yet."""
        self.run: Optional[int] = None
        """The epoch of the run to which it was sent last."""
        self.cause: Optional[Exception] = None
        """The cause of its failure, if it failed."""
        self._base, self._has_base, self._counter = base, has_base, counter
        self._ended, self._again, self._done_before = ended, again, done_before
        self._epoch = epoch  # the run of the base; None if the first connection decides
        self._sendings = 0
        self._refusal: Optional[Refused] = None
        """Of its patch: from then on what is sent raises the counter alone."""

    @property
    def request(self) -> Message:
        patch = self.patch if self._refusal is None else []
        if self._counter is not None:
            patch = [*self._counter.raising, *patch]
        request: Message = {"do": "edit", "patch": patch}
        return {**request, "base": self._base} if self._has_base else request

    def exchange(self, patch: Patch) -> "asyncio.Future[int]":
        """A later one that sets the same place is sent for it. Gives a future of that."""
        self.patch = self.own.patch = patch
        self._answers.append(asyncio.get_running_loop().create_future())
        return self._answers[-1]

    @property
    def guarded(self) -> bool:
        """True if it may be sent after a while: it is refused if something else stands there than
        when it was made."""
        return self._has_base or _begins_with_test(self.patch)

    @property
    def has_ended(self) -> bool:
        return self.rev is not None or self.cause is not None

    def ahead(self, welcome: Message) -> Optional[Asked]:
        if self._counter is None or self.has_ended or self._counter.takes(self, welcome):
            return None
        adding = self._counter.adding(self, welcome)
        return self if adding is None else Asked(*adding)

    def goes_to(self, welcome: Message) -> bool:
        """Before each sending: whether it goes to that run. Else it has ended."""
        if self.has_ended:
            return False
        epoch = welcome["epoch"]
        if self._epoch is None or not (self._has_base or self._sendings):
            self._epoch = epoch
        if self._epoch != epoch:
            self.fail(Unknown() if self._sendings else Refused("stale", None, welcome["rev"]))
            return False
        self.run = epoch
        self._sendings += 1
        return True

    def lost(self) -> bool:
        """Its connection was lost: whether it is to be sent again. Else it has ended."""
        is_safe = self._has_base or self._counter is not None
        again = is_safe and self._sendings < SENDINGS and not self.answer.done()
        if not again:
            self.fail(Unknown())
        return again

    def drop(self) -> None:
        self.fail(Unknown() if self._sendings else Closed())

    def fail(self, cause: Exception) -> None:
        if self.has_ended:
            return
        self.cause = cause
        if self._counter is not None:
            self._counter.left(self, is_known=not isinstance(cause, Unknown))
        for answer in self._answers:
            if not answer.done():
                answer.set_exception(cause)
        self._ended(self)

    def look_at(self) -> None:
        """Keeps asyncio from reporting that nobody looked at why it failed."""
        for answer in self._answers:
            if not answer.cancelled():
                answer.exception()

    def done_at(self, rev: int) -> None:
        """It was done at that revision, or before it."""
        if self.has_ended:
            return
        self.rev = rev
        for answer in self._answers:
            if not answer.done():
                answer.set_result(rev)
        self._ended(self)

    @property
    def _is_resent(self) -> bool:
        return self._sendings > 1

    def _answered(self, reply: Message) -> None:
        if reply["kind"] == "done":
            self._done(reply["rev"])
        elif reply["fault"] == "stale" and self._is_resent:
            self.fail(Unknown(reply["rev"]))
        elif self._counter is None or reply["at"] is None:
            self.fail(Refused.by(reply))
        elif reply["at"] == 0:
            self._counter_differs(reply["fault"], self._counter)
        else:
            self._refused(Refused(reply["fault"], reply["at"] - len(self._counter.raising)))

    def _done(self, rev: int) -> None:
        if self._counter is not None:
            self._counter.raised()
        if self._refusal is not None:
            self.fail(self._refusal)
        else:
            self.done_at(rev)

    def _refused(self, refusal: Refused) -> None:
        self._refusal = refusal
        # What was sent before may still be read, and done, as long as the counter stands.
        if self._is_resent:
            self._again(self)
        else:
            self.fail(refusal)

    def _counter_differs(self, fault: str, counter: Counter) -> None:
        if self._is_resent and fault == "test-failed":
            counter.raised()
            self._done_before(self)
        elif self._is_resent:
            self.fail(Unknown())
        else:
            # Somebody took it away, as who puts an earlier document into the room.
            counter.left(self, is_known=False)
            self._sendings = 0
            self._again(self)


def _begins_with_test(patch: Any) -> bool:
    if not isinstance(patch, list) or not patch or not isinstance(patch[0], dict):
        return False
    return patch[0].get("op") == "test"
