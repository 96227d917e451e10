"""Good clients of some rooms, several in each, who stay: each edits twice a second and watches.

They are threads of one process. What each waited for, and by how much it lagged, is kept until it
is taken."""

import collections
import concurrent.futures
import random
import threading
import time

from support import wire
from support.patience import Deadline, OutOfTime

# One of them is a room that some attackers enter too.
ROOMS = ("good", "good-2", "good-3", "good-4", "good-5")
IN_ROOM = 4
PERIOD = 0.5
PATIENCE = 10
# How long one listens before it looks whether it is to edit, or to end.
LOOK = 0.05


class Wrong(Exception):
    """The relay said something that it should not."""


class Room:
    """A room, and when each of its revisions was answered."""

    def __init__(self, port, name):
        self.name, self.answered = name, {}
        with wire.Client(port, name, Deadline(PATIENCE)) as client:
            reply = client.set({})
        if reply["kind"] != "done":
            raise Wrong(f"a document is answered {reply}")


class Resident:
    def __init__(self, port, room, name):
        self.room, self.name = room, name
        self.client = wire.Client(port, room.name, Deadline(PATIENCE))
        self.edits, self.sent, self.fault = 0, None, None
        self.waits, self.lags = collections.deque(), collections.deque()
        self.shown = self.client.watch([""])["rev"]

    def live(self, is_over):
        """Edits and listens until it is to end, or was ended."""
        due = time.monotonic() + random.uniform(0, PERIOD)
        try:
            while not is_over.is_set():
                if self.sent is None and time.monotonic() >= due:
                    due = time.monotonic() + PERIOD
                    self.edit()
                self.listen()
        except (wire.Ended, Wrong) as fault:
            self.fault = str(fault)
        except OutOfTime:
            self.fault = "not read"
        finally:
            self.client.close()

    def edit(self):
        self.edits += 1
        patch = [{"op": "add", "path": f"/{self.name}", "value": self.edits}]
        self.sent = time.monotonic()
        self.client.deadline = Deadline(PATIENCE)
        self.client.send(wire.request("edit", self.edits, patch=patch))

    def listen(self):
        """Hears the next message, if one comes soon."""
        self.client.deadline = Deadline(LOOK)
        try:
            message = self.client.message()
        except OutOfTime:
            return
        if message["kind"] in ("patch", "snapshot"):
            self.show(message["rev"])
        elif (message["kind"], message["id"]) == ("done", self.edits):
            self.room.answered[message["rev"]] = time.monotonic()
            self.waits.append(time.monotonic() - self.sent)
            self.sent = None
        else:
            raise Wrong(f"told {message}")

    def show(self, revision):
        now = time.monotonic()
        for missed in range(self.shown + 1, revision + 1):
            self.lags.append(now - self.room.answered.get(missed, now))
        self.shown = revision

    def worst(self):
        """The longest wait for an answer since it was asked last, and the longest lag from the
        answer to an edit until that is shown, in seconds. What is not over counts as long as it
        lasts, unless its session was ended."""
        now = time.monotonic()
        sent, answered = self.sent or now, self.room.answered.get(self.shown + 1, now)
        if self.fault:
            sent = answered = now
        return worst_of(now - sent, self.waits), worst_of(now - answered, self.lags)


def worst_of(last, queue):
    """Takes what stands in a queue, to which another thread adds."""
    return max([last, *(queue.popleft() for _ in range(len(queue)))])


class Residents:
    def __init__(self, port):
        rooms = [Room(port, name) for name in ROOMS]
        places = [(room, f"c{number}") for room in rooms for number in range(IN_ROOM)]
        self.all = [Resident(port, *place) for place in places]
        self.is_over = threading.Event()
        self.pool = concurrent.futures.ThreadPoolExecutor(len(self.all))

    def __enter__(self):
        self.living = [self.pool.submit(resident.live, self.is_over) for resident in self.all]
        return self

    def __exit__(self, *_):
        self.is_over.set()
        for resident in self.living:
            resident.result()
        self.pool.shutdown()

    def worst(self):
        """The worst of all, in seconds."""
        waits, lags = zip(*(resident.worst() for resident in self.all))
        return max(waits), max(lags)

    def faults(self):
        """Yields who was ended, or told something wrong, and how."""
        for resident in self.all:
            if resident.fault:
                yield f"{resident.name} of {resident.room.name}: {resident.fault}"
