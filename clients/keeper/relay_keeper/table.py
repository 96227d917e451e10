"""A store in one table of a database, with a row for each state.

The newest state of a room is one row, which each write replaces by one statement. Older ones, and
what was set aside, are rows beside it.
"""
from __future__ import annotations

import abc
import json
from typing import Any, Callable, List, Optional, Sequence, Tuple, TypeVar

from .state import Entry, Json, Older, State, milliseconds, now, stamp
from .store import NoState, Store, as_text

T = TypeVar("T")
Row = Tuple[Any, ...]
Run = Callable[[str, Sequence[Any]], Tuple[int, List[Row]]]
"""Runs a statement with the values for its `?`. Gives how many rows it changed, and those that it
found."""

# Those of both databases. `{json}` is the type of a document.
TABLE = """
CREATE TABLE IF NOT EXISTS relay_states (
  relay text NOT NULL,
  room text NOT NULL,
  kind text NOT NULL CHECK (kind IN ('newest', 'older', 'aside')),
  epoch bigint,
  revision bigint NOT NULL,
  document {json} NOT NULL,
  at bigint NOT NULL
)"""
ONE_NEWEST = """
CREATE UNIQUE INDEX IF NOT EXISTS relay_states_newest ON relay_states (relay, room)
WHERE kind = 'newest'"""
BY_TIME = """
CREATE INDEX IF NOT EXISTS relay_states_time ON relay_states (relay, room, kind, at)"""
GET = """
SELECT epoch, revision, CAST(document AS text), at FROM relay_states
WHERE relay = ? AND room = ? AND kind = 'newest'"""
LIST = """
SELECT room, epoch, revision, {bytes}, at FROM relay_states
WHERE relay = ? AND kind = 'newest'"""
RELAYS = "SELECT DISTINCT relay FROM relay_states ORDER BY relay"
PUT = """
INSERT INTO relay_states (relay, room, kind, epoch, revision, document, at)
VALUES (?, ?, 'newest', ?, ?, ?, ?)
ON CONFLICT (relay, room) WHERE kind = 'newest' DO UPDATE
SET epoch = excluded.epoch, revision = excluded.revision,
  document = excluded.document, at = excluded.at
WHERE coalesce(relay_states.epoch, -1) <> coalesce(excluded.epoch, -1)
  OR relay_states.revision <= excluded.revision"""
MARK = """
UPDATE relay_states SET epoch = ?, revision = ?
WHERE relay = ? AND room = ? AND kind = 'newest'
  AND (coalesce(epoch, -1) <> ? OR revision < ?)"""
# What the state of these values is to replace, if an older state is due.
KEEP_OLDER = """
INSERT INTO relay_states
SELECT relay, room, 'older', epoch, revision, document, at FROM relay_states
WHERE relay = ? AND room = ? AND kind = 'newest'
  AND (coalesce(epoch, -1) <> coalesce(?, -1) OR revision < ?)
  AND at >= coalesce((
    SELECT max(before.at) FROM relay_states AS before
    WHERE before.relay = ? AND before.room = ? AND before.kind = 'older') + ?, 0)"""
DROP_OLDER = """
DELETE FROM relay_states WHERE relay = ? AND room = ? AND kind = 'older' AND at < (
  SELECT kept.at FROM relay_states AS kept
  WHERE kept.relay = ? AND kept.room = ? AND kept.kind = 'older'
  ORDER BY kept.at DESC LIMIT 1 OFFSET ?)"""
OLDER = """
SELECT at, {bytes}, kind FROM relay_states
WHERE relay = ? AND room = ? AND kind <> 'newest' ORDER BY at DESC, kind DESC"""
DOCUMENT = """
SELECT CAST(document AS text) FROM relay_states
WHERE relay = ? AND room = ? AND kind = ? AND at = ?"""
SET_ASIDE = """
INSERT INTO relay_states
SELECT relay, room, 'aside', epoch, revision, document, at FROM relay_states AS newest
WHERE relay = ? AND room = ? AND kind = 'newest' AND NOT EXISTS (
  SELECT 1 FROM relay_states AS aside
  WHERE aside.relay = newest.relay AND aside.room = newest.room AND aside.kind = 'aside'
    AND aside.at = newest.at AND aside.revision = newest.revision)"""
WRITE_ASIDE = """
INSERT INTO relay_states (relay, room, kind, epoch, revision, document, at)
VALUES (?, ?, 'aside', NULL, 0, ?, ?)"""
DROP_ASIDE = """
DELETE FROM relay_states WHERE relay = ? AND room = ? AND kind = 'aside' AND at = ?"""


class Table(Store):
    """Of the states of several relays in one database, those of the one that is named so."""

    JSON = "text"
    """The type of a document: its text as it is written."""
    BYTES = "length(CAST(document AS blob))"

    def __init__(self, where: str, relay: str, history: int, apart: float):
        super().__init__(where, history, apart)
        self._relay = relay

    @abc.abstractmethod
    def _transaction(self, work: Callable[[Run], T], leased: bool = False) -> T:
        """Runs statements that are done together, or none of them is. Those of a keeper are
        `leased`: `LeaseLost` if this one does not hold the lease."""

    def _make(self, run: Run) -> None:
        for statement in (TABLE, ONE_NEWEST, BY_TIME):
            run(statement.format(json=self.JSON), ())

    def get(self, room: str) -> Optional[State]:
        found = self._found(GET, self._relay, room)
        if not found:
            return None
        epoch, revision, text, at = found[0]
        return State(room, epoch, revision, json.loads(text), at)

    def put(self, state: State) -> Optional[int]:
        relay, room, epoch, revision = self._relay, state.room, state.epoch, state.revision
        text, apart = as_text(state.document), int(self.apart * 1000)

        def work(run: Run) -> Optional[int]:
            if self.history > 1:
                run(KEEP_OLDER, (relay, room, epoch, revision, relay, room, apart))
            changed, _ = run(PUT, (relay, room, epoch, revision, text, state.at))
            run(DROP_OLDER, (relay, room, relay, room, max(self.history - 2, 0)))
            return len(text.encode()) if changed else None

        return self._transaction(work, leased=True)

    def mark(self, room: str, epoch: int, revision: int) -> None:
        values = epoch, revision, self._relay, room, epoch, revision
        self._transaction(lambda run: run(MARK, values), leased=True)

    def list(self) -> List[Entry]:
        rows = self._found(LIST.format(bytes=self.BYTES), self._relay)
        return sorted((Entry(*row) for row in rows), key=lambda it: it.room)

    def relays(self) -> List[str]:
        return [relay for [relay] in self._found(RELAYS)]

    def older(self, room: str) -> List[Older]:
        found = self._found(OLDER.format(bytes=self.BYTES), self._relay, room)
        return [Older(stamp(at), size, kind == "aside") for at, size, kind in found]

    def document(self, room: str, older: Older) -> Json:
        kind = "aside" if older.is_aside else "older"
        found = self._found(DOCUMENT, self._relay, room, kind, milliseconds(older.time))
        if not found:
            raise NoState(f"{room}: the state of {older.time} is gone")
        return json.loads(found[0][0])

    def set_aside(self, room: str) -> Optional[str]:
        def work(run: Run) -> Optional[str]:
            _, found = run(GET, (self._relay, room))
            run(SET_ASIDE, (self._relay, room))
            return stamp(found[0][3]) if found else None

        return self._transaction(work, leased=True)

    def write_aside(self, room: str, document: Json) -> str:
        at, text = now(), as_text(document)
        self._transaction(lambda run: run(WRITE_ASIDE, (self._relay, room, text, at)))
        return stamp(at)

    def drop_aside(self, room: str, time: str) -> None:
        values = self._relay, room, milliseconds(time)
        self._transaction(lambda run: run(DROP_ASIDE, values))

    def _found(self, statement: str, *values: Any) -> List[Row]:
        return self._transaction(lambda run: run(statement, values)[1])
