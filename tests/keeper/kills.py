"""The relay, its keeper, or both are killed by signal 9 at random moments, while clients edit as
fast as they can.

After each kill the file of each room has to be whole, and no older than what the relay had answered
100 milliseconds, two writes to this disk and the age of a document of that size before; with --slow
FACTOR the first two are as many times longer, for a machine that is slow, or busy with other work.
Then what was killed is started again. A room has to have its document again, unless another client
was first: then the old document has to stand aside, whole. All the while a reader looks whether a
whole document stands under each name.
"""

import argparse
import asyncio
import collections
import json
import os
import random
import subprocess
import sys
import tempfile
import time

import websockets
from keeper import Place
from support.patience import PATIENCE, becomes
from support.room import Room

# How many seconds before a kill the state of a file may be, beside two writes and the age.
OLDEST = 0.1
# The age of a document of that many bytes, and in proportion of a smaller one.
AGE, LARGE = 2.0, 1 << 20
# The rooms, and how many bytes their documents have beside what is counted.
SIZES = {"small": 0, "middle": 10_000, "large": 150_000}


def first_document(room, by):
    return {"room": room, "by": by, "n": 0, "twin": 0, "rest": "x" * SIZES[room]}


def whole(text):
    """A document that some edit made: both its numbers were changed by the same one."""
    document = json.loads(text)
    assert document["n"] == document["twin"], (document["n"], document["twin"])
    assert len(document["rest"]) == SIZES[document["room"]], document["room"]
    return document


class Editor:
    """Raises the numbers of a room, as fast as answers come, with 16 edits on the way."""

    def __init__(self, room):
        self.room = room
        self.sent = 0  # the highest number that was sent
        self.answered = collections.deque(maxlen=100_000)  # when a number was answered, and which

    async def edit(self, relay):
        """Until the relay is gone."""
        try:
            async with Room(relay, self.room).enter() as link:
                await link.recv()
                await self._edit(link)
        except (OSError, websockets.exceptions.WebSocketException):
            pass

    async def _edit(self, link):
        on_the_way = 0
        while True:
            while on_the_way < 16:
                self.sent += 1
                number = {"op": "replace", "value": self.sent}
                patch = [{**number, "path": "/n"}, {**number, "path": "/twin"}]
                await link.send(json.dumps({"do": "edit", "id": self.sent, "patch": patch}))
                on_the_way += 1
            answer = json.loads(await link.recv())
            assert answer["kind"] == "done", answer
            self.answered.append((time.monotonic(), answer["id"]))
            on_the_way -= 1

    def answered_before(self, moment):
        """The highest number that was answered by then; 0 if none was."""
        return max((number for at, number in self.answered if at <= moment), default=0)

    def age(self, number, moment):
        """The age of a state that has this number: the time for which the next one had been
        answered."""
        newer = [at for at, other in self.answered if other > number and at <= moment]
        return moment - min(newer, default=moment)


class Play(Place):
    def __init__(self, folder, seed, slow):
        super().__init__(folder)
        self.slow, self.random = slow, random.Random(seed)
        self.editors = {room: Editor(room) for room in SIZES}
        self.editing, self.looking = [], None
        self.oldest, self.looks, self.edits = 0.0, 0, 0
        self.write = 0.0  # how long the longest of the test's own writes took
        self.counts = collections.Counter()

    async def begin(self):
        self.start_relay()
        await self.start_again()
        for room in SIZES:
            assert await self.claim(room, "first")
        self.start_editors()
        while not all(self.file(room).exists() for room in SIZES):
            await asyncio.sleep(0.01)
        self.looking = asyncio.ensure_future(self.look())

    async def start_again(self):
        """The keeper."""
        await self.start_ready("--age", str(AGE), rooms=SIZES, stderr=subprocess.DEVNULL)

    def start_editors(self):
        editors = self.editors.values()
        self.editing = [asyncio.ensure_future(editor.edit(self.relay)) for editor in editors]

    async def look(self):
        """At every moment a whole document stands under each name."""
        while True:
            for room in SIZES:
                whole(self.file(room).read_text())
                self.looks += 1
            await asyncio.sleep(0.005)

    async def claim(self, room, by):
        """Begins a room, as a client does that was not told to wait. Whether it was first."""
        begin = {"op": "add", "path": "", "value": first_document(room, by)}
        patch = [{"op": "test", "path": "", "value": None}, begin]
        async with self.room(room).enter() as link:
            await link.recv()
            await link.send(json.dumps({"do": "edit", "id": 1, "patch": patch}))
            return json.loads(await link.recv())["kind"] == "done"

    async def kill(self, round):
        """Kills one or both, and begins again what was killed."""
        await asyncio.sleep(self.random.uniform(0.1, 0.6))
        self.check_alive()
        what = self.random.choice(["relay", "keeper", "both"])
        moment = time.monotonic()
        for name, process in (("relay", self.relay.process), ("keeper", self.keeper)):
            if what in (name, "both"):
                process.kill()
        self.counts[what] += 1
        self.time_write()
        kept = {room: self.check_file(room, moment) for room in SIZES}
        if what != "relay":
            self.keeper.wait()
        if what == "keeper":
            unsure = [room for room in SIZES if not await self.is_of_this_run(room)]
            await self.start_again()
            self.check_aside(unsure)
        else:
            self.relay.end()
            await asyncio.gather(*self.editing)
            await self.begin_again(what, f"round {round}", kept)

    def time_write(self):
        """Writes a file as large as the largest room's, as the keeper does."""
        begun, beside = time.monotonic(), self.folder.parent / "beside"
        with open(beside, "w") as out:
            out.write("x" * max(SIZES.values()))
            out.flush()
            os.fsync(out.fileno())
        os.replace(beside, self.folder.parent / "written")
        self.write = max(self.write, time.monotonic() - begun)

    def check_alive(self):
        for task in self.editing + [self.looking]:
            if task.done():
                task.result()
                raise AssertionError("an editor or the reader ended")

    def check_file(self, room, moment):
        """The document of a room's file, right after a kill."""
        editor, document = self.editors[room], whole(self.file(room).read_text())
        age = editor.age(document["n"], moment)
        self.oldest = max(self.oldest, age)
        may_miss = self.slow * (OLDEST + 2 * self.write) + AGE * SIZES[room] / LARGE
        wanted = editor.answered_before(moment - may_miss)
        assert document["n"] >= wanted, f"{room}: {age * 1000:.0f} ms old"
        assert document["n"] <= editor.sent
        return document

    def check_aside(self, unsure):
        """Nothing was set aside but in rooms whose document a keeper had put back and was killed
        before it knew."""
        for room in SIZES:
            for path in self.aside(room):
                assert room in unsure, path
                whole(path.read_text())
                path.unlink()

    async def begin_again(self, what, by, kept):
        """The relay, and perhaps its keeper. Some rooms are claimed by a client that does not wait
        for the keeper."""
        self.start_relay()
        rude = [room for room in SIZES if self.random.random() < 0.3]
        claiming = asyncio.gather(*[self.claim(room, by) for room in rude])
        is_beside = what == "both" and self.random.random() < 0.5
        if is_beside:
            await asyncio.sleep(0)
            await self.start_again()
        claims = dict(zip(rude, await claiming))
        if what == "both" and not is_beside:
            await self.start_again()
        for room in SIZES:
            await self.check_room(room, kept[room], by if claims.get(room) else None)
        for editor in self.editors.values():
            self.edits += len(editor.answered)
            editor.answered.clear()
        self.start_editors()

    async def check_room(self, room, kept, by):
        """`by`: who was first in the room, if it was not the keeper."""
        sent = self.editors[room].sent
        found = await becomes(lambda: self.shown(room), lambda document: document is not None)
        if by is None:
            assert found["by"] == kept["by"] and kept["n"] <= found["n"] <= sent, (found, kept)
            assert not self.aside(room), self.aside(room)
            self.counts["put back"] += 1
            return
        assert found["by"] == by, (found["by"], by)
        await becomes(lambda: self.written(room), lambda document: document["by"] == by)
        [path] = self.aside(room)
        old = whole(path.read_text())
        assert old["by"] == kept["by"] and kept["n"] <= old["n"] <= sent, (old, kept)
        path.unlink()
        self.editors[room].sent = 0
        self.counts["set aside"] += 1

    async def shown(self, room):
        document = await self.room(room).document()
        return document and whole(json.dumps(document))

    async def written(self, room):
        return whole(self.file(room).read_text())

    def end(self):
        for task in [*self.editing, self.looking]:
            if task:
                task.cancel()
        super().end()


async def main(kills, slow):
    seed = int(os.environ.get("SEED", random.randrange(2**32)))
    with tempfile.TemporaryDirectory() as folder:
        play = Play(folder, seed, slow)
        try:
            await asyncio.wait_for(play.begin(), PATIENCE)
            for round in range(kills):
                await asyncio.wait_for(play.kill(round), PATIENCE)
        except BaseException:
            print(f"tests/keeper: SEED={seed} {dict(play.counts)}", file=sys.stderr)
            raise
        finally:
            play.end()
    counts = play.counts
    of = ", ".join(f"{what} {counts[what]}" for what in ("relay", "keeper", "both"))
    print(
        f"{kills} kills ({of}) under {play.edits} edits: {play.looks} looks at the files, none torn"
    )
    rooms = f"{counts['put back']} rooms put back, {counts['set aside']} set aside"
    print(f"the oldest file was {play.oldest * 1000:.0f} ms behind; {rooms}")


def asked(what, kills):
    """The words of the command."""
    words = argparse.ArgumentParser(description=what)
    words.add_argument("kills", nargs="?", type=int, default=kills, metavar="KILLS")
    slow = "a state may be so many times older, on a slow machine"
    words.add_argument("--slow", type=float, default=1, metavar="FACTOR", help=slow)
    return words.parse_args()


if __name__ == "__main__":
    given = asked(__doc__, 10)
    asyncio.run(main(given.kills, given.slow))
