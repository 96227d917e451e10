"""A relay that begins closed, its keeper, or both are killed by signal 9 at random moments, over
PostgreSQL, while clients edit as fast as they can.

After each kill the database has to have of each room a whole document, no older than what the relay
had answered a second before (or --slow FACTOR times that). What was killed is started again, and
clients try to enter all the while: the first document that each is shown has to be the one that the
room had, and never null.
"""

import asyncio
import collections
import json
import os
import random
import sys
import tempfile
import time

import websockets
from found import Found
from kills import Editor, SIZES, asked, first_document, whole
from support.patience import PATIENCE, becomes
from support.postgres import cluster

OLDEST = 1.0
OF_ROOM = "SELECT document FROM relay_states WHERE kind = 'newest' AND room = '{}'"


class Waiting(Editor):
    """An editor that comes back until it is let in. What it is shown first, in each run."""

    def __init__(self, room):
        super().__init__(room)
        self.shown = asyncio.Queue()

    async def edit(self, relay):
        """Until the relay is gone."""
        while not relay.is_gone():
            try:
                async with websockets.connect(relay.url(self.room), max_size=None) as link:
                    await link.recv()
                    await self.look(link)
                    await self._edit(link)
            except (OSError, websockets.exceptions.WebSocketException):
                await asyncio.sleep(0.02)

    async def look(self, link):
        await link.send(json.dumps({"do": "watch", "id": 0, "view": [""]}))
        while (message := json.loads(await link.recv()))["kind"] != "snapshot":
            pass
        self.shown.put_nowait(message["view"][0][0])
        await link.send(json.dumps({"do": "unwatch", "id": 0}))
        while json.loads(await link.recv())["kind"] != "unwatched":
            pass


class Play(Found):
    def __init__(self, folder, database, seed, slow):
        self.database, self.address = database, database.database()
        super().__init__(folder, self.address)
        self.slow, self.random = slow, random.Random(seed)
        self.editors = {room: Waiting(room) for room in SIZES}
        self.editing = []
        self.oldest, self.edits, self.counts = 0.0, 0, collections.Counter()

    async def begin(self):
        self.start_relay("--closed")
        await self.start_ready()
        for room in SIZES:
            await self.set(room, first_document(room, "first"))
        await self.start_editors()

    async def start_editors(self):
        """Once each of them is in, with a document."""
        editors = self.editors.values()
        self.editing = [asyncio.ensure_future(editor.edit(self.relay)) for editor in editors]
        return {editor.room: await editor.shown.get() for editor in editors}

    async def kill(self):
        """Kills one or both, and begins again what was killed."""
        await asyncio.sleep(self.random.uniform(0.5, 1.5))
        self.check_alive()
        what = self.random.choice(["relay", "keeper", "both"])
        moment = time.monotonic()
        for name, process in (("relay", self.relay.process), ("keeper", self.keeper)):
            if what in (name, "both"):
                process.kill()
        self.counts[what] += 1
        kept = {room: self.check_kept(room, moment) for room in SIZES}
        if what != "relay":
            self.keeper.wait()
        if what == "keeper":
            await self.start_ready()
            return
        self.relay.end()
        await asyncio.gather(*self.editing)
        self.start_relay("--closed")
        waiting = asyncio.ensure_future(self.start_editors())
        if what == "both":
            self.start_keeper()
        for room, shown in (await waiting).items():
            self.check_shown(room, shown, kept[room])
        if what == "both":
            await self.manager.hears("READY=1")
        for editor in self.editors.values():
            self.edits += len(editor.answered)
            editor.answered.clear()

    def check_alive(self):
        assert self.keeper.poll() is None, "the keeper ended"
        for task in self.editing:
            if task.done():
                task.result()
                raise AssertionError("an editor ended")

    def check_kept(self, room, moment):
        """Checks what the database has, right after a kill."""
        editor = self.editors[room]
        document = whole(self.database.sql(OF_ROOM.format(room), self.address))
        age = editor.age(document["n"], moment)
        self.oldest = max(self.oldest, age)
        assert document["n"] >= editor.answered_before(moment - OLDEST * self.slow), (room, age)
        return document

    def check_shown(self, room, shown, kept):
        assert shown is not None, f"{room}: a client was let in before its document was there"
        found = whole(json.dumps(shown))
        assert kept["n"] <= found["n"] <= self.editors[room].sent, (room, kept["n"], found["n"])
        self.counts["put back"] += 1

    def end(self):
        for task in self.editing:
            task.cancel()
        super().end()


async def main(kills, slow):
    seed = int(os.environ.get("SEED", random.randrange(2**32)))
    with cluster() as database, tempfile.TemporaryDirectory() as folder:
        play = Play(folder, database, seed, slow)
        try:
            await asyncio.wait_for(play.begin(), PATIENCE)
            await becomes(play.exported, lambda found: found.keys() == SIZES.keys())
            for _ in range(kills):
                await asyncio.wait_for(play.kill(), PATIENCE)
            aside = "SELECT count(*) FROM relay_states WHERE kind = 'aside'"
            assert database.sql(aside, play.address) == "0"
        except BaseException:
            print(f"tests/keeper: SEED={seed} {dict(play.counts)}", file=sys.stderr)
            raise
        finally:
            play.end()
    of = ", ".join(f"{what} {play.counts[what]}" for what in ("relay", "keeper", "both"))
    print(f"{kills} kills ({of}) under {play.edits} edits over PostgreSQL, none torn")
    put_back = f"{play.counts['put back']} rooms put back before a client was let in"
    print(f"the oldest state was {play.oldest * 1000:.0f} ms behind; {put_back}")


if __name__ == "__main__":
    given = asked(__doc__, 20)
    asyncio.run(main(given.kills, given.slow))
