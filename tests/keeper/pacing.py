"""Tests of how often the keeper writes: by a clock that is played, and by what one wrote beside
edits of 4 KB a second to a document of 1 MB."""

import asyncio
import contextlib
import json
import pathlib
import time

from keeper import place
from relay_keeper.pace import LARGE, Pace
from support.play import main, shows

LOOK = 0.05
AGE = 5.0
SECONDS = 600

EDITS = [
    # bytes of the document, bytes of an edit, edits a second
    (LARGE, 100, 40),
    (LARGE, 100, 1),
    (LARGE, 4000, 0.1),
    (4 * LARGE, 100, 200),
    (150_000, 100, 40),
    (10_000, 100, 5),
    (1_000, 100, 40),
    (1_000, 100, 0.5),
]


class Played:
    """A room that is edited evenly for a while and then is quiet, and looked at as `Room` does."""

    def __init__(self, size, edit, rate):
        self.pace, self.size = Pace(10, AGE), size
        self.pace.begin()
        self.pace.wrote(size)
        self.written, self.brought, self.ages = 0, 0, []
        self.oldest = None
        edits = 0
        for look in range(1, int((SECONDS + 2 * AGE) / LOOK)):
            now = look * LOOK
            while edits / rate <= min(now, SECONDS):
                self.edit(edits / rate, edit)
                edits += 1
            if self.oldest is not None and self.pace.is_due(now):
                self.write(now)

    def edit(self, now, size):
        self.pace.patch(now, size)
        self.brought += size
        self.oldest = now if self.oldest is None else self.oldest

    def write(self, now):
        self.ages.append(now - self.oldest)
        self.pace.begin()
        self.pace.wrote(self.size)
        self.written += self.size
        self.oldest = None


@shows
def at_most_ten_times_what_edits_bring_and_one_document_for_each_age():
    """And no edit is unwritten for longer than that age."""
    for size, edit, rate in EDITS:
        played, age = Played(size, edit, rate), AGE * min(size / LARGE, 1)
        paid = 10 * played.brought + size * (1 + SECONDS / max(age, LOOK))
        assert played.written <= paid, (size, edit, rate)
        assert max(played.ages) <= age + 2 * LOOK, (size, edit, rate)
        assert played.oldest is None, (size, edit, rate)


@shows
def what_is_paid_for_is_all_that_is_written_beside_fast_edits():
    """30 KB a second pay for a document of 1 MiB before it is 5 seconds behind."""
    played = Played(LARGE, 100, 300)
    assert played.written <= 10 * played.brought + LARGE


@shows
def a_small_document_is_written_at_each_look():
    assert max(Played(1_000, 100, 40).ages) <= LOOK * 1.01


@shows
def a_document_is_written_once_its_only_edit_has_that_age():
    for size, seconds in [(2 * LARGE, AGE), (LARGE, AGE), (LARGE // 10, AGE / 10), (1_000, LOOK)]:
        pace = Pace(10, AGE)
        pace.wrote(size)
        pace.patch(100.0, 50)
        assert pace.is_due(100.0 + seconds * 1.01)
        assert pace.is_due(100.0 + seconds * 0.9) == (size == 1_000), size


@shows
def a_factor_says_how_much_is_paid_for():
    for factor, edits in ((1, 1000), (10, 100), (40, 25)):
        pace = Pace(factor, AGE)
        pace.wrote(100_000)
        for number in range(1, edits + 1):
            pace.patch(0.0, 100)
            assert pace.is_due(0.0) == (number == edits), (factor, number)


@shows
def edits_that_were_missed_count_as_those_that_were_heard():
    pace = Pace(10, AGE)
    pace.wrote(100_000)
    pace.begin()
    pace.patch(1.0, 100)
    pace.missed(1.0, 98)
    assert not pace.is_due(1.0)
    pace.missed(1.0, 1)
    assert pace.is_due(1.0)


@shows
def an_age_of_nothing_has_each_edit_written():
    pace = Pace(10, 0)
    pace.wrote(LARGE)
    pace.patch(0.0, 1)
    assert pace.is_due(0.0)


@contextlib.asynccontextmanager
async def keeping(document, rooms):
    """Relay and keeper, which has written the document of the room `one`. Gives its bytes too."""
    with place() as here:
        here.start_relay()
        await here.start_ready(rooms=rooms)
        await here.set("one", document)
        await here.kept("one", document)
        yield here, here.file("one").stat().st_size


@shows
async def it_writes_little_beside_4_kilobytes_a_second():
    document = {"n": "", "rest": "\x01" * 165_000}  # as a text each is six bytes
    async with keeping(document, ["one"]) as (here, size):
        assert size > 950_000
        before, began = written(here), time.monotonic()
        brought = await edit_evenly(here.room("one"))
        ended = time.monotonic()
        await here.kept("one", {**document, "n": f"{99:0160}"})
        pace, wrote = brought / (ended - began), written(here) - before
        print(f"{pace:.0f} bytes a second came: the keeper wrote {wrote} bytes")
        assert wrote <= most(brought, size, time.monotonic() - began), (wrote, brought)
        assert time.monotonic() - ended < 15


def most(brought, size, seconds):
    """The bytes that the keeper may write: what was paid for, and a document for each age and for
    its end."""
    age = AGE * min(size / LARGE, 1)
    return 10 * brought + (1 + seconds / age) * 1.1 * size


async def edit_evenly(room):
    """100 edits, one each 50 ms. How many bytes they brought."""
    brought, began = 0, time.monotonic()
    async with room.enter() as link:
        await link.recv()
        for number in range(100):
            patch = [{"op": "replace", "path": "/n", "value": f"{number:0160}"}]
            await link.send(json.dumps({"do": "edit", "id": 1, "patch": patch}))
            await link.recv()
            brought += len(json.dumps(patch))
            await asyncio.sleep(max(0.0, began + number * 0.05 - time.monotonic()))
    return brought


@shows
async def it_writes_little_beside_edits_that_are_too_fast_to_be_heard():
    """Of 16 rooms each hears 8 messages in 50 ms, and then nothing until the next look."""
    document = {"n": 0, "rest": "x" * 200_000}
    rooms = ["one", *(f"room-{number}" for number in range(15))]
    async with keeping(document, rooms) as (here, size):
        before, began = written(here), time.monotonic()
        brought, last = await edit_fast(here.room("one"), 3.0)
        ended = time.monotonic()
        await here.kept("one", {**document, "n": last})
        wrote = written(here) - before
        print(f"{brought} bytes came in {last} edits: the keeper wrote {wrote} bytes")
        # The messages are a little longer than the patches.
        assert wrote <= most(1.3 * brought, size, time.monotonic() - began), (wrote, brought)
        assert time.monotonic() - ended < 15


async def edit_fast(room, seconds):
    """Raises a number with 16 edits on the way. How many bytes that brought, and the last
    number."""
    brought, sent, answered, until = 0, 0, 0, time.monotonic() + seconds
    async with room.enter() as link:
        await link.recv()
        while answered < sent or time.monotonic() < until:
            while sent < answered + 16 and time.monotonic() < until:
                sent += 1
                patch = [{"op": "replace", "path": "/n", "value": sent}]
                await link.send(json.dumps({"do": "edit", "id": 1, "patch": patch}))
                brought += len(json.dumps(patch))
            await link.recv()
            answered += 1
    return brought, sent


def written(here):
    """Bytes that the keeper wrote to files."""
    counts = pathlib.Path(f"/proc/{here.keeper.pid}/io").read_text()
    return int(dict(line.split(": ") for line in counts.splitlines())["wchar"])


if __name__ == "__main__":
    main()
