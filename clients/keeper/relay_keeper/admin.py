"""The operator's port of a relay (docs/RUNNING.md), asked by plain HTTP."""
from __future__ import annotations

import http.client
import json
import re
import urllib.parse
from dataclasses import dataclass
from typing import Any, Dict, List, Mapping, NamedTuple, Optional, Tuple

from .names import is_name
from .state import Json
from .store import as_text

SECONDS, STOPPING = 10.0, 2.0
"""The seconds that an answer may take, and that to a stop."""
LONGEST = 1_048_576
"""Bytes of a patch that the relay reads."""
_TAG = re.compile(r'"(\d+)-(\d+)"')


class NoAnswer(OSError):
    """The relay did not answer, or as no relay does."""


class Full(NoAnswer):
    """The relay has no place or no memory for it now; again after so many seconds."""

    def __init__(self, seconds: int, said: str):
        super().__init__(said)
        self.seconds = seconds


class OpenToAll(Exception):
    """The relay lets clients into all rooms, so none can be closed."""


class Tag(NamedTuple):
    """Names the document that a room has: that of a revision of one run of the relay."""

    epoch: int
    revision: int

    def __str__(self) -> str:
        return f'"{self.epoch}-{self.revision}"'


@dataclass(frozen=True)
class Listed:
    revision: int
    sessions: int


class Edited(NamedTuple):
    """The outcome of an edit."""

    tag: Optional[Tag]
    """Of the document that it made; None if it was refused."""
    is_late: bool
    """Refused, since the room is not as it was to be."""
    said: str


@dataclass(frozen=True)
class Answer:
    status: int
    etag: str
    retry_after: str
    body: bytes

    @property
    def said(self) -> str:
        return f"{self.status} {self.body[:200].decode(errors='replace').strip()}"

    @property
    def tag(self) -> Tag:
        found = _TAG.fullmatch(self.etag)
        if found is None:
            raise NoAnswer(f"no ETag in the answer {self.said}")
        return Tag(int(found[1]), int(found[2]))


class Admin:
    """Each call is one request, and takes as long as its answer. All raise `NoAnswer`."""

    def __init__(self, url: str):
        parts = urllib.parse.urlsplit(url)
        if parts.scheme != "http" or not parts.hostname or parts.path.strip("/") or parts.query:
            raise ValueError(f"{url!r}: an operator's port is given as http://127.0.0.1:9081")
        self._host, self._port, self.url = parts.hostname, parts.port or 80, url

    def rooms(self) -> Dict[str, Listed]:
        """The rooms that there are."""
        rooms = _json(self._ask("GET", "/rooms", wanted=200))
        try:
            return {room["name"]: Listed(room["revision"], room["sessions"]) for room in rooms}
        except (KeyError, TypeError):
            raise NoAnswer(f"{self.url} lists no rooms") from None

    def places(self) -> Optional[int]:
        """The number of rooms that there may be; None if that is not told."""
        metrics = self._ask("GET", "/metrics", wanted=200).body.decode(errors="replace")
        found = re.search(r"^relay_rooms_limit (\d+)$", metrics, re.M)
        return int(found[1]) if found else None

    def tag(self, room: str) -> Optional[Tag]:
        """The tag of the document that a room has; None without such a room."""
        answer = self._ask("GET", f"/rooms/{room}", {"If-None-Match": "*"})
        return None if answer.status == 404 else _expected(answer, 304).tag

    def document(self, room: str) -> Optional[Tuple[Tag, Json]]:
        """None without such a room."""
        answer = self._ask("GET", f"/rooms/{room}")
        if answer.status == 404:
            return None
        return _expected(answer, 200).tag, _json(answer)

    def edit(self, room: str, patch: Json, base: Optional[Tag]) -> Edited:
        """Does a patch, if the document is that of `base`, where one is given."""
        body = as_text(patch).encode()
        if len(body) > LONGEST:
            return Edited(None, False, f"{len(body)} bytes are more than the relay reads")
        fields = {"Content-Type": "application/json-patch+json"}
        if base is not None:
            fields["If-Match"] = str(base)
        answer = self._ask("PATCH", f"/rooms/{room}", fields, body)
        if answer.status == 200:
            return Edited(answer.tag, False, answer.said)
        return Edited(None, answer.status == 412 or _failed_test(answer), answer.said)

    def open(self) -> bool:
        """Lets clients in. False if the relay knows no such request: then they are in."""
        answer = self._ask("POST", "/open")
        if answer.status in (404, 405):
            return False
        _expected(answer, 204)
        return True

    # Rooms by their names.

    def wanted(self) -> List[str]:
        """The rooms that clients were refused at, since they are not open."""
        return [room for room in _json(self._ask("GET", "/wanted", wanted=200)) if is_name(room)]

    def admit(self, room: str) -> None:
        """Lets clients into a room. `Full` if the relay has no place for it."""
        self._ask("PUT", f"/open/{room}", wanted=204)

    def exclude(self, room: str) -> None:
        """Lets nobody into a room, and ends its sessions. `OpenToAll`."""
        answer = self._ask("DELETE", f"/open/{room}")
        if answer.status == 409:
            raise OpenToAll(f"{self.url}: {answer.said}; start it with --closed")
        _expected(answer, 204)

    def forget(self, room: str) -> bool:
        """False if somebody is in it."""
        answer = self._ask("DELETE", f"/rooms/{room}")
        if answer.status in (404, 409):
            return answer.status == 404
        _expected(answer, 204)
        return True

    def stop(self) -> None:
        """Ends the relay, and its sessions first."""
        self._ask("POST", "/stop", wanted=202, seconds=STOPPING)

    def _ask(
        self,
        method: str,
        path: str,
        fields: Optional[Mapping[str, str]] = None,
        body: Optional[bytes] = None,
        wanted: Optional[int] = None,
        seconds: float = SECONDS,
    ) -> Answer:
        link = http.client.HTTPConnection(self._host, self._port, timeout=seconds)
        try:
            link.request(method, path, body, dict(fields or {}))
            reply = link.getresponse()
            etag, after = reply.getheader("ETag", ""), reply.getheader("Retry-After", "")
            answer = Answer(reply.status, etag, after, reply.read())
        except (OSError, http.client.HTTPException) as error:
            raise NoAnswer(f"{self.url} does not answer: {error}") from error
        finally:
            link.close()
        if answer.status == 503:
            raise Full(int(after) if after.isdigit() else 1, answer.said)
        return answer if wanted is None else _expected(answer, wanted)


def _expected(answer: Answer, status: int) -> Answer:
    if answer.status != status:
        raise NoAnswer(f"{answer.said}, where {status} was awaited")
    return answer


def _json(answer: Answer) -> Any:
    try:
        return json.loads(answer.body)
    except ValueError:
        raise NoAnswer(f"no JSON: {answer.said}") from None


def _failed_test(answer: Answer) -> bool:
    try:
        return bool(json.loads(answer.body)["fault"] == "test-failed")
    except (ValueError, KeyError, TypeError):
        return False
