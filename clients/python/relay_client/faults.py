"""The faults of what was asked for, and the causes if there is no connection."""
from __future__ import annotations

import re
from typing import Any, Dict, Literal, Optional
from urllib.parse import urlsplit

from .advice import ADVICE
from .pointers import is_watching, shown_address


class Refused(Exception):
    """The relay refused a request, and nothing changed by it. Or the board did, before it was sent:
    as `stale` an edit with a base of another run, as `too-long` a text of more than 1,056,768
    bytes, by which the connection would end, as `away` an edit that is not guarded while the
    connection is lost, as `changed` an undo, as `key` an element that has no key of its own, as
    `read-only` each edit of a board that only watches."""

    def __init__(
        self, fault: str, at: Optional[int] = None, rev: Optional[int] = None, advice: str = ""
    ):
        place = "" if at is None else f" at {at}"
        room = "" if rev is None else f", the room is at revision {rev}"
        advice = advice or ADVICE.get(fault, "")
        super().__init__(fault + place + room + (advice and f": {advice}"))
        self.fault = fault
        """The word of the fault (docs/PROTOCOL.md, "Messages")."""
        self.at = at
        """The place of the operation or pointer that is at fault, counted from 0; None if no single
        one is."""
        self.rev = rev
        """The room's revision, if the fault is `stale`; else None."""

    @classmethod
    def by(cls, reply: Dict[str, Any]) -> "Refused":
        return cls(reply["fault"], reply["at"], reply.get("rev"))


class Unknown(Exception):
    """The connection was lost before the answer: the edit may have been done, or not."""

    def __init__(self, rev: Optional[int] = None) -> None:
        since = "" if rev is None else f", and the room is at revision {rev}"
        super().__init__(f"the connection was lost before the answer{since}")
        self.rev = rev
        """The room's revision, if the edit had a `base` and was sent again: it was done by then, or
        never will be. The document tells which, if the edit left a mark there. None: it may still
        be done."""


class Superseded(Exception):
    """Another view was watched before the slots of this one came."""

    def __init__(self) -> None:
        super().__init__("another view was watched before its slots came")


class Closed(Exception):
    """The board was closed before what was asked for was sent."""

    def __init__(self) -> None:
        super().__init__("the board is closed")


_NO_ROOMS = "what answers there has no rooms, or is the --admin port"
_NO_ROOM_YET = f"there is no room of this name yet, or {_NO_ROOMS}"
_CAUSES = {
    200: _NO_ROOMS,
    401: "the name or the password is missing or wrong",
    403: "it lets no page of this origin in (--origin)",
    429: "too many requests or connections of this address",
    503: "it is full (--sessions, --rooms), --closed, or stopping",
}


class HandshakeFailed(Exception):
    """There is no connection: the cause that `on_state` gets with `waiting`. A status of 404 ends
    the board, if no connection was had before: the address is none of a room. But a board that is
    `read_only` waits: the room may begin later."""

    def __init__(
        self,
        reason: Literal["refused", "unreachable"],
        status: Optional[int] = None,
        detail: str = "",
        url: str = "the address",
    ):
        said = _refusal(url, status) if reason == "refused" else _silence(url)
        super().__init__(said + (f" ({detail})" if detail else ""))
        self.reason = reason
        """`refused`, if something answered the handshake with another status than 101;
        `unreachable`, if nothing answered."""
        self.status = status
        """The status of the answer, as 403 for an origin that may not enter, 404 for a bad target
        and 503 for a relay without a place; None if nothing answered."""
        self._detail = detail

    def at(self, url: str) -> "HandshakeFailed":
        """The same, with the address."""
        detail = self._detail.replace(url, shown_address(url))
        failed = HandshakeFailed(self.reason, self.status, detail, url)
        failed.__cause__ = self.__cause__
        return failed


def _refusal(url: str, status: Optional[int]) -> str:
    if status is None:
        return f"{shown_address(url)} refuses the connection"
    cause = _not_found(url) if status == 404 else _CAUSES.get(status, "")
    return f"{shown_address(url)} refuses the connection, with {status}" + (cause and f": {cause}")


def _not_found(url: str) -> str:
    """Tells what is wrong with an address, as far as it shows."""
    if is_watching(url):
        return _NO_ROOM_YET
    parts = urlsplit(url)
    if not re.fullmatch(r"/rooms/[\w-]+(/watch)?", parts.path, re.ASCII):
        return f"a room is at /rooms/NAME, and this path is {shown_address(parts.path)}"
    return "leave out the `?` and what follows" if parts.query else _NO_ROOMS


def _silence(url: str) -> str:
    advice = "start the relay there, or check the address, the port and --per-peer"
    plain = ", or take ws://: the relay itself has no TLS" if url.startswith("wss") else ""
    return f"nothing answers at {shown_address(url)}: {advice}{plain}"
