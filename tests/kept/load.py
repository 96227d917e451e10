"""Users of the rooms of a relay that is killed: editors, watchers, and one who begins and ends
rooms. Each remembers what it was told, and compares it with what a later run of the relay has."""

import itertools
import string
import threading

from stored import applied, shown
from support.wire import Client, Ended, Refused, request

# How many numbers a document holds of each editor, and at which of them a large edit comes.
LAST, LARGE = 32, 64
EDITORS = ("ann", "bob", "eve")
AT_ONCE = 8


def first_document(size):
    own = {name: {"n": 0, "last": []} for name in EDITORS}
    return {**own, "rest": "x" * size}


class Told:
    """The highest revision of a room that anybody was told."""

    def __init__(self):
        self.rev, self.lock = 0, threading.Lock()

    def note(self, message):
        with self.lock:
            self.rev = max(self.rev, message.get("rev", 0))


class User(threading.Thread):
    """One who uses a relay until that is gone. What was wrong is raised by `finish`."""

    def __init__(self, use):
        super().__init__(daemon=True)
        self.use, self.fault = use, None
        self.start()

    def run(self):
        try:
            self.use()
        except Refused as fault:
            self.fault = fault
        except Ended:
            pass  # The relay is gone.
        except BaseException as fault:
            self.fault = fault

    def finish(self):
        self.join()
        if self.fault:
            raise self.fault


class Editor:
    """Raises a number of its own, as fast as answers come. Each edit tests the number before and
    writes its own down, so one that is lost, or done twice, leaves a gap."""

    def __init__(self, room, name, size, told):
        self.room, self.name, self.size, self.told = room, name, size, told
        self.sent = self.answered = 0

    def patch(self, number):
        own = f"/{self.name}"
        yield {"op": "test", "path": f"{own}/n", "value": number - 1}
        yield {"op": "replace", "path": f"{own}/n", "value": number}
        if number % LAST == 0:
            yield {"op": "replace", "path": f"{own}/last", "value": []}
        yield {"op": "add", "path": f"{own}/last/-", "value": number}
        if number % LARGE == 0:
            letter = string.ascii_letters[number // LARGE % 52]
            yield {"op": "replace", "path": "/rest", "value": letter * self.size}

    def edit(self, relay):
        with Client(relay.port, self.room) as client:
            self.told.note(client.welcome)
            while True:
                while self.sent < self.answered + AT_ONCE:
                    self.sent += 1
                    client.send(request("edit", self.sent, patch=list(self.patch(self.sent))))
                reply = client.message()
                assert reply["kind"] == "done" and reply["id"] == self.answered + 1, reply
                self.told.note(reply)
                self.answered += 1

    def check(self, document):
        """No answered edit is lost, and none was done twice. Goes on from there."""
        own = document[self.name]
        number = own["n"]
        assert self.answered <= number <= self.sent, (self.name, self.answered, number, self.sent)
        since = max(number - number % LAST, 1)
        assert own["last"] == list(range(since, number + 1)), (self.name, own)
        self.sent = self.answered = number


class Watcher:
    """Holds a view of a room."""

    def __init__(self, room, view, told):
        self.room, self.view, self.told = room, view, told
        self.rev, self.slots = 0, None

    def hear(self, message):
        if message["kind"] == "snapshot":
            self.rev, self.slots = message["rev"], message["view"]
        elif message["kind"] == "patch":
            self.rev, self.slots = message["rev"], applied(self.slots, message["patch"])
        self.told.note(message)

    def come_back(self, relay, epoch, rev, document):
        """Resumes, where nobody edits: the room is at this revision, with this document."""
        self.client = Client(relay.port, self.room)
        if self.slots is None:
            self.hear(self.client.watch(self.view))
        else:
            words = request("resume", 1, epoch=epoch, rev=self.rev, view=self.view)
            how = self.client.ask(words)["how"]
            assert how == ("nothing" if self.rev == rev else "snapshot"), (how, self.rev, rev)
            if how == "snapshot":
                self.hear(self.client.message())
        assert (self.rev, self.slots) == (rev, shown(self.view, document)), self.rev

    def watch(self, _):
        with self.client:
            while True:
                self.hear(self.client.message())


class Passer:
    """Begins rooms and ends them, one after the other, under some names again and again, where one
    has to end before the next one can begin."""

    NAMES = [f"passing{k}" for k in range(5)]

    def __init__(self):
        self.held = {}  # the last revision and document that it was told of each name
        self.passed, self.turn = 0, itertools.cycle(self.NAMES)
        self.room = next(self.turn)

    def visit(self, relay):
        while True:
            with self.entered(relay) as client:
                epoch, rev = client.welcome["epoch"], client.welcome["rev"]
                self.resume(client, epoch, rev)
                for value in ({"n": self.passed}, None):
                    reply = client.set(value)
                    assert reply["kind"] == "done", reply
                    self.held[self.room] = reply["rev"], value
            self.passed += 1
            self.room = next(self.turn)

    def entered(self, relay):
        """A client in the next room, once the relay has seen that the last one was left."""
        while True:
            try:
                return Client(relay.port, self.room)
            except Refused as refusal:
                if "503" not in str(refusal):
                    raise

    def resume(self, client, epoch, rev):
        """Goes from what it held of a room of this name to what is there."""
        before, document = self.held.get(self.room, (0, None))
        assert before <= rev, (self.room, before, rev)
        reply = client.ask(request("resume", 1, epoch=epoch, rev=before, view=[""]))
        assert reply["kind"] == "resumed", reply
        view = [[document]]
        if reply["how"] != "nothing":
            message = client.message()
            is_patch = message["kind"] == "patch"
            view = applied(view, message["patch"]) if is_patch else message["view"]
        assert view == client.watch([""])["view"], (self.room, reply, view)
