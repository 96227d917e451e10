"""A relay with a store is killed by signal 9 at random moments, while clients edit as fast as they
can, watch, and begin and end rooms. Then it is started again, over the same file.

Usage: tests/kept/kills.py [KILLS]   (20; SEED makes the moments those of an earlier run)"""

import itertools
import os
import pathlib
import random
import subprocess
import sys
import tempfile
import time

from load import EDITORS, Editor, Passer, Told, User, Watcher, first_document
from stored import check, kept
from support.play import count
from support.relay import Relay, program
from support.wire import Client

# The rooms, and how many bytes their documents have beside what is counted.
SIZES = {"small": 0, "middle": 5_000, "large": 60_000}
VIEWS = ([""], ["/bob/n", {"size": "/ann/last"}, "/none"])
# At most so many edits are answered between two kills, in at most so many seconds.
MOST_EDITS, LONGEST = 2_000, 2
# After so many kills a new store begins.
OF_ONE_STORE = 20
# How often a run is killed that begins, and within how many seconds.
AT_START, BEGINNING = 0.3, 0.1


class Play:
    """The users of one store, and its relay."""

    def __init__(self, folder, chance):
        self.file, self.random = pathlib.Path(folder) / "rooms.db", chance
        self.told = {room: Told() for room in SIZES}
        self.editors = [
            Editor(room, name, size, self.told[room])
            for room, size in SIZES.items()
            for name in EDITORS
        ]
        pairs = itertools.product(SIZES, VIEWS)
        self.watchers = [Watcher(room, view, self.told[room]) for room, view in pairs]
        self.passer = Passer()
        self.starts = 0

    def words(self):
        # The rooms, and two more for those that begin and end.
        return ["--store", self.file, "--rooms", len(SIZES) + 2]

    def begin(self):
        self.relay = Relay(*self.words(), epoch=None)
        for room, size in SIZES.items():
            with Client(self.relay.port, room) as client:
                self.epoch = client.welcome["epoch"]
                assert client.set(first_document(size))["kind"] == "done"
        self.check()

    def check(self):
        """Compares what a fresh client is shown with what was answered, and with what watchers hold
        that resume."""
        for room, told in self.told.items():
            with Client(self.relay.port, room) as client:
                assert client.welcome["epoch"] == self.epoch
                rev = client.welcome["rev"]
                document = client.watch([""])["view"][0][0]
            assert told.rev <= rev, (room, told.rev, rev)
            for editor in self.of(room, self.editors):
                editor.check(document)
            for watcher in self.of(room, self.watchers):
                watcher.come_back(self.relay, self.epoch, rev, document)
            self.check_file(room, rev, document)

    def check_file(self, room, rev, document):
        if self.starts:
            assert self.kept.epoch == self.epoch
            assert self.kept.rooms[room] == (rev, document), (room, rev)

    @staticmethod
    def of(room, users):
        return [user for user in users if user.room == room]

    def kill(self):
        """Kills the relay under load, and starts it again."""
        uses = [editor.edit for editor in self.editors]
        uses += [watcher.watch for watcher in self.watchers] + [self.passer.visit]
        users = [User(lambda use=use: use(self.relay)) for use in uses]
        self.wait()
        assert not self.relay.is_gone(), "the relay ended by itself"
        self.relay.end()
        for user in users:
            user.finish()
        self.kept = kept(self.file)
        self.starts += 1
        if self.random.random() < AT_START:
            self.kill_at_start()
        self.relay = Relay(*self.words(), epoch=None)
        self.check()

    def wait(self):
        """Until so many more edits are answered, and a moment longer."""
        wanted = self.edits() + self.random.randrange(MOST_EDITS)
        deadline = time.monotonic() + LONGEST
        while self.edits() < wanted and time.monotonic() < deadline:
            time.sleep(0.001)
        time.sleep(self.random.uniform(0, 0.005))

    def edits(self):
        return sum(editor.answered for editor in self.editors)

    def kill_at_start(self):
        words = [program(), "serve", "--port", "0", *map(str, self.words())]
        with subprocess.Popen(words, stdout=subprocess.DEVNULL) as starting:
            time.sleep(self.random.uniform(0, BEGINNING))
            starting.kill()
        assert kept(self.file) == self.kept


def play(kills, chance):
    """Kills one store's relay that many times. Returns the edits that were made, and the rooms that
    ended."""
    with tempfile.TemporaryDirectory() as folder:
        play = Play(folder, chance)
        try:
            play.begin()
            for _ in range(kills):
                play.kill()
        finally:
            play.relay.end()
        check(play.file)
    return play.edits(), play.passer.passed


def main(kills):
    seed = int(os.environ.get("SEED") or random.randrange(1 << 32))
    print(f"kills: SEED={seed}", flush=True)
    chance = random.Random(seed)
    edits = passed = 0
    for done in range(0, kills, OF_ONE_STORE):
        more = play(min(OF_ONE_STORE, kills - done), chance)
        edits, passed = edits + more[0], passed + more[1]
    print(f"{kills} kills, {edits} edits and {passed} rooms that ended: none lost, none twice")
    sys.exit(count(kills, 0))


main(int(sys.argv[1]) if sys.argv[1:] else 20)
