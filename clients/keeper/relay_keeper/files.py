"""The files of one room. At every moment a whole document stands under the room's name.

    ROOM.json                              the document
    ROOM.epoch                             the run of the relay that it is of, and the revision
    ROOM.20261125T051458.123Z.json         an older state, by the time at which it was written
    ROOM.20261125T051458.123Z.aside.json   a document that was set aside
    ROOM.new, ROOM.mark                    what is being written

No file is ever changed in place: a new one is written whole and then renamed over the old one. So
an older state is a second link to the file that held it, and costs no writing. A document takes its
place before its revision does, so after a crash between the two its revision is an earlier one. A
room's name has no dot, so the files of two rooms are never confused.
"""
from __future__ import annotations

import itertools
import json
import os
import pathlib
import threading
from typing import List, NamedTuple, Optional

from .state import Entry, Json, Older, State, now, stamp
from .store import as_text


class Mark(NamedTuple):
    epoch: Optional[int]
    revision: int


UNKNOWN = Mark(None, 0)


class Files:
    """`history` states are kept, the newest ones; each older one was written at least `apart`
    seconds after the one before."""

    def __init__(self, folder: pathlib.Path, room: str, history: int = 1, apart: float = 600.0):
        self.folder, self.room = folder, room
        self._history, self._apart = history, apart
        self._document, self._new = folder / f"{room}.json", folder / f"{room}.new"
        self._epoch, self._mark = folder / f"{room}.epoch", folder / f"{room}.mark"
        self._due: Optional[float] = None  # the first time of which a state becomes an older one
        self._one_at_a_time = threading.Lock()

    # All of these raise `OSError` if the system refuses, and then the old document stands as
    # before.

    def get(self) -> Optional[State]:
        """`ValueError` if somebody else put a file there that is no JSON."""
        try:
            document = json.loads(self._document.read_text("utf-8"))
            written = self._document.stat().st_mtime_ns // 1_000_000
        except FileNotFoundError:
            return None
        mark = self._marked()
        return State(self.room, mark.epoch, mark.revision, document, written)

    def entry(self) -> Entry:
        found, mark = self._document.stat(), self._marked()
        written = found.st_mtime_ns // 1_000_000
        return Entry(self.room, mark.epoch, mark.revision, found.st_size, written)

    def put(self, state: State) -> Optional[int]:
        """Writes the document, unless that of a later revision of its run stands there. What stood
        there before becomes an older state, if one is due. Gives how many bytes were written."""
        with self._one_at_a_time:
            kept = self._marked()
            if kept.epoch == state.epoch and kept.revision > state.revision:
                return None
            if self._history > 1:
                self._keep_older()
            size = self._write(self._new, self._document, state.document, state.at)
            self._write_mark(Mark(state.epoch, state.revision))
            sync_folder(self.folder)
            return size

    def mark(self, epoch: int, revision: int) -> None:
        """The document is that of this run too."""
        with self._one_at_a_time:
            kept = self._marked()
            if kept.epoch != epoch or kept.revision < revision:
                self._write_mark(Mark(epoch, revision))
                sync_folder(self.folder)

    def set_aside(self) -> Optional[str]:
        """Gives the document a second name, under which it stays."""
        try:
            return self._link("aside.json")
        except FileNotFoundError:
            return None

    def write_aside(self, document: Json) -> str:
        """Writes a document that was never in the room's file, as one that is set aside."""
        at = now()
        path = self._stamped(stamp(at), is_aside=True)
        self._write(path.with_suffix(".part"), path, document, at)
        sync_folder(self.folder)
        return stamp(at)

    def drop_aside(self, time: str) -> None:
        self._stamped(time, is_aside=True).unlink()

    def older(self) -> List[Older]:
        """The newest one first."""
        ends = ((".json", False), (".aside.json", True))
        found = [
            Older(self._time(path), path.stat().st_size, is_aside)
            for end, is_aside in ends
            for path in self.folder.glob(f"{self.room}.*{end}")
            if path.name[len(self.room) :].count(".") == 2 + end.count(".")
        ]
        return sorted(found, key=lambda it: (it.time, it.is_aside), reverse=True)

    def document(self, older: Older) -> Json:
        return json.loads(self._stamped(older.time, older.is_aside).read_text("utf-8"))

    def _stamped(self, time: str, is_aside: bool) -> pathlib.Path:
        return self.folder / f"{self.room}.{time}{'.aside' if is_aside else ''}.json"

    def _time(self, path: pathlib.Path) -> str:
        return path.name[len(self.room) + 1 :].split("Z.")[0] + "Z"

    def _marked(self) -> Mark:
        try:
            epoch, _, revision = self._epoch.read_text("ascii").strip().partition(" ")
            return Mark(None if epoch == "none" else int(epoch), int(revision or 0))
        except (FileNotFoundError, ValueError):
            return UNKNOWN

    def _write_mark(self, mark: Mark) -> None:
        epoch = "none" if mark.epoch is None else mark.epoch
        _replace(self._mark, self._epoch, f"{epoch} {mark.revision}\n")

    def _keep_older(self) -> None:
        older = [it for it in self.older() if not it.is_aside]
        if self._due is None:
            newest = self._stamped(older[0].time, False) if older else None
            self._due = newest.stat().st_mtime + self._apart if newest else 0.0
        try:
            written = self._document.stat().st_mtime
        except FileNotFoundError:
            return
        if written < self._due:
            return
        self._link("json")
        self._due = written + self._apart
        kept = [it for it in self.older() if not it.is_aside]
        for it in kept[self._history - 1 :]:
            self._stamped(it.time, False).unlink()

    def _link(self, end: str) -> str:
        """Another name for the document, by the time at which it was written."""
        written = self._document.stat().st_mtime_ns // 1_000_000
        for milliseconds in itertools.count(written):
            path = self.folder / f"{self.room}.{stamp(milliseconds)}.{end}"
            try:
                os.link(self._document, path)
            except FileExistsError:
                if not path.samefile(self._document):
                    continue
            sync_folder(self.folder)
            return stamp(milliseconds)
        raise AssertionError("there is always another millisecond")

    @staticmethod
    def _write(new: pathlib.Path, path: pathlib.Path, document: Json, at: int) -> int:
        return _replace(new, path, as_text(document) + "\n", at)


def _replace(new: pathlib.Path, path: pathlib.Path, text: str, at: Optional[int] = None) -> int:
    """Writes a file whole, under another name, and puts it in the place of an old one. Gives its
    bytes. `at` is when it was written; now, if it is left out."""
    encoded = text.encode()
    with open(new, "wb") as out:
        out.write(encoded)
        out.flush()
        if at is not None:
            os.utime(out.fileno(), ns=(at * 1_000_000, at * 1_000_000))
        os.fsync(out.fileno())
    os.replace(new, path)
    return len(encoded)


def sync_folder(folder: pathlib.Path) -> None:
    """Makes renames and links last over a loss of power."""
    descriptor = os.open(folder, os.O_RDONLY | os.O_DIRECTORY)
    try:
        os.fsync(descriptor)
    finally:
        os.close(descriptor)
