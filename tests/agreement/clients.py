"""Gives what the clients make of the cases.

The clients in Python and JavaScript translate a patch to the slots of a view: `refused`, or
`slots`, in which a slot is None if they do not know what it shows; `touches`, whether it surely
touches a slot; and `undone`, the slots that the inverse makes of those that the patch led to, None
if there is no inverse, `refused` if it does not fit.

All clients follow what a watcher is told, over the lines of docs/CONFORMANCE.md.
"""
import json, os, subprocess, sys
from cases import ROOT
from judge import REFUSED, Wrong, text

sys.path.append(f"{ROOT}/tests/conformance")
from driver import Driver, Failed
from relay_client.known import after, known_by, slots_of
from relay_client.patch import DoesNotFit
from relay_client.touch import touches
from relay_client.undo import inverse


def python_translates(asked):
    return [python_translation(*one) for one in asked]


def python_translation(view, slots, patch, led):
    before = known_by(view, slots)
    try:
        shown = python_shows(before, view, patch)
        return {
            "slots": shown,
            "touches": touches(before, patch, view),
            "undone": python_undone(before, view, patch, led),
        }
    except DoesNotFit:
        return REFUSED


def python_undone(before, view, patch, led):
    back = inverse(before, patch)
    try:
        return None if back is None else python_shows(known_by(view, led), view, back.patch)
    except DoesNotFit:
        return REFUSED


def python_shows(before, view, patch):
    return slots_of(after(before, patch), view, [None for _ in view])


def javascript_translates(asked):
    """tests/agreement/translates.mjs: a line for each."""
    lines = "\n".join(json.dumps(one) for one in asked)
    words = ["node", f"{ROOT}/tests/agreement/translates.mjs"]
    ran = subprocess.run(
        words, input=lines, capture_output=True, text=True, check=True, timeout=600
    )
    return [json.loads(line) for line in ran.stdout.splitlines()]


TRANSLATORS = {"python": python_translates, "javascript": javascript_translates}

DRIVERS = {
    "python": ["/usr/bin/python3", f"{ROOT}/tests/conformance/drivers/python.py"],
    "javascript": ["node", f"{ROOT}/tests/conformance/drivers/javascript.mjs"],
    "go": [os.environ["GO_DRIVER"]],
}


class Follower:
    """A client that hears what the relay tells the watcher of each group, and has to hold what the
    watcher holds."""

    def __init__(self, name):
        self.name, self.driver, self.watches = name, Driver(DRIVERS[name]), 1
        self.driver.begin([])
        self.driver.until_opening()
        self.driver.tell(do="accept")
        self.hear({"epoch": 1, "kind": "welcome", "rev": 0, "session": 1})
        self.watching()
        self.hear({"kind": "snapshot", "rev": 0, "view": []})

    def hear(self, message):
        self.driver.tell(
            do="hear", text=message if isinstance(message, str) else json.dumps(message)
        )

    def watching(self):
        """Its last request asks for a view, and is answered."""
        self.driver.look()
        self.hear({"id": json.loads(self.driver.said[-1])["id"], "kind": "watching"})
        self.driver.said.clear()

    def follow(self, group):
        """Gives how many patches it applied."""
        self.watches += 1
        self.driver.tell(do="watch", key=self.watches, view=group.view)
        self.watching()
        self.hear(group.snapshot)
        self.compare(group.begun, group.view)
        for case in group.cases:
            if case.text is None:
                continue
            self.hear(case.text)
            self.compare(case.held, group.view)
        return sum(case.text is not None for case in group.cases)

    def compare(self, held, view):
        holds = self.driver.look()
        wanted = {"view": view, "slots": held.slots, "rev": held.rev, "epoch": 1}
        if "shown" in holds:
            wanted["shown"] = held.slots  # no edit waits
        if text(holds) != text(wanted):
            raise Wrong(f"it holds {text(holds)}, and not {text(wanted)}")

    def quit(self):
        self.driver.tell(do="end")
        if self.driver.quit() != 0:
            raise Failed("the driver ends with an error")
