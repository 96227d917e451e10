"""The good client: in a room of its own it edits and watches, one request each 20 ms, and tells how
long the longest `done` took. It makes some edits before it is ready, so that it has paid what a new
connection owes."""

import sys
import time

from good.beside import PATIENCE, Waits, is_over, periods, witness
from support import wire
from support.patience import Deadline, OutOfTime

PERIOD = 0.02
# How many edits it makes before it is ready.
FIRST = 25
# How long it sleeps before it looks whether it is to end.
LOOK = 0.05


class Wrong(Exception):
    """The relay said something that it should not."""


class Good:
    def __init__(self, port):
        self.client = wire.Client(port, "good", Deadline(PATIENCE))
        self.edits, self.waits = 0, Waits()
        reply = self.client.ask(wire.request("watch", view=[""]))
        snapshot = self.client.message()
        if (reply["kind"], snapshot["kind"]) != ("watching", "snapshot"):
            raise Wrong(f"a watch is answered {reply}, {snapshot}")

    def begin(self):
        """Edits some times, which are not among what it saw."""
        for _ in range(FIRST):
            self.edit(time.monotonic())
            time.sleep(PERIOD)
        self.waits = Waits()

    def play(self):
        """Edits until it is to end. Returns what went wrong."""
        try:
            for begun in periods(PERIOD):
                if not self.edit(begun):
                    return None
        except (wire.Ended, Wrong) as wrong:
            return str(wrong)
        except OutOfTime:
            return "its edit is not read"
        return None

    def edit(self, begun):
        """One edit, until it is answered and shown. False if it was to end before."""
        number, done = self.edits + 1, False
        patch = [{"op": "add", "path": "", "value": number}]
        try:
            self.client.deadline = Deadline(PATIENCE)
            self.client.send(wire.request("edit", number, patch=patch))
            done = self.wait({"id": number, "kind": "done", "rev": number})
        finally:
            self.waits.end(begun, done)
        self.edits += done
        told = [{"op": "replace", "path": "/0", "value": [number]}]
        snapshot = {"kind": "snapshot", "rev": number, "view": [[number]]}
        return done and self.wait({"kind": "patch", "patch": told, "rev": number}, snapshot)

    def wait(self, *wanted):
        """Until the next message, which is one of these. False if it was to end before."""
        while not is_over(0):
            self.client.deadline = Deadline(LOOK)
            try:
                message = self.client.message()
            except OutOfTime:
                continue
            if message not in wanted:
                raise Wrong(f"{message}, and not {wanted[0]}")
            return True
        return False


if __name__ == "__main__":
    good = Good(int(sys.argv[1]))
    good.begin()
    witness(good.play, good.waits)
