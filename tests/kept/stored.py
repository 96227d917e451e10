"""The rooms and wills that a store's file holds, by Python's own `sqlite3` and `json`: each room's
record and the patches since, as docs/decisions/store.md has them."""

import contextlib
import copy
import dataclasses
import json
import pathlib
import shutil
import sqlite3
import subprocess
import tempfile

BEGIN, EDIT, END, RAISE_FLOOR, LEAVE_WILL, DROP_WILL = range(6)


@dataclasses.dataclass(frozen=True)
class Kept:
    epoch: int
    floor: int
    rooms: dict  # revision and document, by the room's name
    wills: dict  # room and patch, by the session's number


def parts(file):
    """The file and its log, those of them that are there."""
    both = (pathlib.Path(file), pathlib.Path(f"{file}-wal"))
    return [path for path in both if path.exists()]


def copied(file, folder):
    """A copy of a store that nobody has open. What is opened here is never the store itself, since
    SQLite moves the log into the file as it closes."""
    for part in parts(file):
        shutil.copy(part, folder)
    return pathlib.Path(folder) / pathlib.Path(file).name


def kept(file):
    with tempfile.TemporaryDirectory() as folder:
        own = copied(file, folder)
        with contextlib.closing(sqlite3.connect(own)) as base:
            ((epoch, _),) = base.execute("SELECT epoch, version FROM meta")
            rows = base.execute("SELECT kind, room, number, text FROM change ORDER BY id")
            rows = rows.fetchall()
            return Kept(epoch, *rooms_of(rows), wills_of(rows))


def check(file):
    """The command `sqlite3` finds the file sound."""
    with tempfile.TemporaryDirectory() as folder:
        words = ["sqlite3", copied(file, folder), "PRAGMA integrity_check"]
        said = subprocess.run(words, capture_output=True, text=True, check=True)
    assert said.stdout == "ok\n", said


def rooms_of(rows):
    """The floor, and the revision and document of each room."""
    floor, views = 0, {}
    for kind, room, number, text in rows:
        message = json.loads(text) if text else None
        if kind == BEGIN:
            assert (message["kind"], message["rev"]) == ("snapshot", number), text
            views[room] = number, message["view"]
        elif kind == EDIT:
            assert (message["kind"], message["rev"]) == ("patch", number), text
            before, view = views[room]
            assert before < number, (room, before, number)
            views[room] = number, applied(view, message["patch"])
        elif kind == END:
            # Its record and its edits went with the commit that ended it.
            views.pop(room, None)
        elif kind == RAISE_FLOOR:
            floor = max(floor, number)
        else:
            assert kind in (LEAVE_WILL, DROP_WILL), kind
    return floor, {room: (rev, view[0][0]) for room, (rev, view) in views.items()}


def wills_of(rows):
    """The room and the patch of each will, in the order in which they were left."""
    wills = {}
    for kind, room, session, text in rows:
        if kind in (LEAVE_WILL, DROP_WILL):
            wills.pop(session, None)
        if kind == LEAVE_WILL:
            request = json.loads(text)
            assert request["do"] == "will", text
            wills[session] = room, request["patch"]
    return wills


def applied(value, patch):
    """The value after a patch (RFC 6902), which is made in it."""
    for operation in patch:
        path = tokens(operation["path"])
        if operation["op"] == "add":
            put(value, path, operation["value"])
        elif operation["op"] == "remove":
            take(value, path)
        elif operation["op"] == "replace":
            take(value, path)
            put(value, path, operation["value"])
        elif operation["op"] == "move":
            put(value, path, take(value, tokens(operation["from"])))
        elif operation["op"] == "copy":
            put(value, path, copy.deepcopy(found(value, tokens(operation["from"]))))
        else:
            raise AssertionError(operation)
    return value


def tokens(pointer):
    return [token.replace("~1", "/").replace("~0", "~") for token in pointer.split("/")[1:]]


def found(value, path):
    for token in path:
        value = value[int(token) if isinstance(value, list) else token]
    return value


def take(value, path):
    parent = found(value, path[:-1])
    return parent.pop(int(path[-1]) if isinstance(parent, list) else path[-1])


def put(value, path, part):
    parent = found(value, path[:-1])
    if isinstance(parent, list):
        parent.insert(int(path[-1]), part)
    else:
        parent[path[-1]] = part


def shown(view, document):
    """The slots that a view has of a document."""
    return [slot(pointer, document) for pointer in view]


def slot(pointer, document):
    is_size = isinstance(pointer, dict)
    try:
        value = found(document, tokens(pointer["size"] if is_size else pointer))
    except (KeyError, IndexError, ValueError, TypeError):
        return []
    if not is_size:
        return [value]
    return [len(value)] if isinstance(value, (list, dict)) else []
