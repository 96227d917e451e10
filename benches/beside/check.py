#!/usr/bin/env python3
"""Checks that a server says what the relay says, as far as the loads go: benches/beside/check.py
PORT, with the relay in RELAY.

Prints an exchange: first of the load's own edits, message by message; then which of some edits, of
all six operations, are done, and what watchers of several views hold in the end. What they hold is
found by the relay's own follower from what each was sent, and has to be what a new watcher is
shown. Two servers agree where this prints the same for both. It needs nothing but Python."""

import json
import pathlib
import sys

sys.path.append(str(pathlib.Path(__file__).resolve().parents[2] / "tests"))
from support import wire
from support.relay import run


def canonical(value):
    return json.dumps(value, separators=(",", ":"), sort_keys=True)


class Client(wire.Client):
    """A client that keeps all that it was told."""

    def message(self):
        self.heard = [*getattr(self, "heard", ()), super().message()]
        return self.heard[-1]

    def edit(self, patch):
        """The reply to an edit, by a client that watches nothing."""
        self.send(wire.request("edit", 2, patch=patch))
        return self.message()


def load(port):
    """The messages to an editor and to a watcher of the load, but for the numbers of the run and of
    the session."""
    editor, watcher = Client(port, "load"), Client(port, "load")
    editor.edit([{"op": "add", "path": "", "value": {"x": ""}}])
    watcher.watch(["/x"])
    for text in ("1" * 1024, "2" * 1024, "3"):
        editor.edit([{"op": "replace", "path": "/x", "value": text}])
    watcher.until(rev=4)
    for message in editor.heard + watcher.heard:
        own = {name: it for name, it in message.items() if name not in ("epoch", "session")}
        yield canonical(own)


VIEWS = (
    [""],
    ["/list"],
    ["/list/1", "/one/two"],
    ["/one", "/one"],
    ["/gone", "/a~1b", "/list/0/deep"],
)

EDITS = (
    [
        {
            "op": "add",
            "path": "",
            "value": {"list": ["a", {"deep": 1}, "c"], "one": {"two": 2}, "none": None, "a/b": 0},
        }
    ],
    [{"op": "add", "path": "/list/1", "value": "z"}],
    [
        {"op": "add", "path": "/list/-", "value": [1, 2]},
        {"op": "add", "path": "/list/4/0", "value": 0},
    ],
    [
        {"op": "test", "path": "/list/4", "value": [0, 1, 2]},
        {"op": "replace", "path": "/one/two", "value": [[]]},
    ],
    [
        {"op": "replace", "path": "/list/0", "value": {"deep": None}},
        {"op": "add", "path": "/list/0/deep", "value": "é"},
    ],
    [{"op": "move", "from": "/list/4", "path": "/list/0"}],
    [{"op": "move", "from": "/list/0", "path": "/one/moved"}],
    [
        {"op": "copy", "from": "/one", "path": "/one/copied"},
        {"op": "remove", "path": "/one/moved/0"},
    ],
    [
        {"op": "copy", "from": "/list/0", "path": "/gone"},
        {"op": "replace", "path": "/a~1b", "value": True},
    ],
    [{"op": "remove", "path": "/list/0"}, {"op": "remove", "path": "/gone"}],
    [
        {"op": "replace", "path": "/one/two", "value": 3},
        {"op": "test", "path": "/one/two", "value": 2},
    ],
    [{"op": "add", "path": "/list/9", "value": 0}],
    [{"op": "remove", "path": "/list/1"}, {"op": "remove", "path": "/nowhere"}],
    [{"op": "move", "from": "/one", "path": "/one/two"}],
    [{"op": "replace", "path": "/none", "value": {"a": [{"b": "c"}]}}],
    [{"op": "move", "from": "/none/a/0", "path": "/list/0"}],
    [{"op": "add", "path": "/list/0", "value": "front"}],
    [{"op": "copy", "from": "/list/0", "path": "/one/three"}],
    [
        {"op": "copy", "from": "/one/three", "path": "/one/four"},
        {"op": "move", "from": "/one/two", "path": "/one/five"},
    ],
    [{"op": "add", "path": "/end", "value": 1}],
)


def held(messages):
    """Returns what the relay's follower holds of these messages."""
    texts = "".join(canonical(message) + "\n" for message in messages)
    lines = run("follow", given=texts, check=True).stdout.splitlines()
    if any(line.startswith("off") for line in lines):
        raise SystemExit(f"the follower cannot take what was told: {lines}\n{texts}")
    _, rev, slots = lines[-1].split(" ", 2)
    return int(rev), json.loads(slots)


def views(port):
    """The edits that are done, and what watchers hold then. Each watches `/end` too, which the last
    edit makes."""
    editor = Client(port, "views")
    watchers = [Client(port, "views") for _ in VIEWS]
    for watcher, view in zip(watchers, VIEWS):
        watcher.watch(view + ["/end"])
    done = 0
    for patch in EDITS:
        kind = editor.edit(patch)["kind"]
        done += kind == "done"
        yield f"{kind} {canonical(patch)}"
    for watcher, view in zip(watchers, VIEWS):
        if not any(message.get("rev") == done for message in watcher.heard):
            watcher.until(rev=done)
        rev, slots = held(watcher.heard)
        shown = Client(port, "views").watch(view + ["/end"])
        if (rev, slots) != (shown["rev"], shown["view"]):
            raise SystemExit(f"who watched {view} holds {slots} at {rev}, and is shown {shown}")
        yield f"{canonical(view)} holds {canonical(slots)}"


if __name__ == "__main__":
    for part in (load, views):
        for line in part(int(sys.argv[1])):
            print(line)
