"""Several relays and their keepers share a database: each room is open on one relay at a time, and
has its document before a client is let in."""

import asyncio
import contextlib
import json
import os
import signal
import subprocess
import time

import websockets
from keeper import words_of
from support import asking
from support.patience import PATIENCE, becomes
from support.play import main, shows
from support.ports import free_port
from support.postgres import cluster
from support.relay import Relay
from support.room import Room

STAY = 10  # seconds for which a relay has a room at least
IDLE = "1"
# Each keeper has a lock for its relay's epoch, and one for each room.
HOLDERS = """SELECT pid FROM pg_locks WHERE locktype = 'advisory' AND mode = 'ExclusiveLock'
GROUP BY pid HAVING count(*) > 1"""
KEEPERS = "SELECT pid FROM pg_stat_activity WHERE application_name = 'relay-keeper'"
FIRST, SECOND = {"cards": ["milk"]}, {"cards": ["milk", "bread"]}


class Member:
    """A relay that begins closed, and its keeper."""

    def __init__(self, group, epoch):
        self.port = free_port(above=1000)
        self.admin, self.epoch, self.relay = self.port + 1000, epoch, None
        words = words_of("share", f"ws://127.0.0.1:{self.port}", "--store", group.address)
        words += ["--admin", f"http://127.0.0.1:{self.admin}", "--idle", group.idle]
        environment = {key: it for key, it in os.environ.items() if key != "NOTIFY_SOCKET"}
        ends = {"stdout": subprocess.PIPE, "stderr": subprocess.PIPE, "text": True}
        self.keeper = subprocess.Popen(words, env=environment, **ends)
        assert self.keeper.stdout.readline() == "ready\n"

    def start_relay(self, *options):
        options = options or ("--closed",)
        self.relay = Relay("--admin", self.admin, *options, port=self.port, epoch=self.epoch)
        return self

    def room(self, name):
        return Room(self.relay, name)

    def listed(self):
        return {it["name"]: it for it in json.loads(asking.get(self.admin, "/rooms").body)}

    async def refuses(self, room):
        """True if no session is opened."""
        try:
            return await self.status(room) != 101
        except OSError:
            return True

    async def status(self, room):
        """That of a handshake."""
        try:
            async with websockets.connect(self.relay.url(room)) as link:
                await link.recv()
                return 101
        except websockets.exceptions.InvalidStatusCode as refused:
            return refused.status_code

    @contextlib.asynccontextmanager
    async def entered(self, room):
        """A link, once the relay lets it in."""
        while True:
            try:
                link = await websockets.connect(self.relay.url(room), max_size=None)
                break
            except (OSError, websockets.exceptions.InvalidStatusCode):
                await asyncio.sleep(0.02)
        async with contextlib.AsyncExitStack() as stack:
            stack.push_async_callback(link.close)
            await link.recv()
            yield link

    async def first_shown(self, room):
        """The first document that a client sees that comes back until it is let in."""
        async with self.entered(room) as link:
            await link.send(json.dumps({"do": "watch", "id": 1, "view": [""]}))
            while (message := json.loads(await link.recv()))["kind"] != "snapshot":
                pass
            return message["view"][0][0]

    def said(self, sign=None):
        """The keeper's status, and what it said on standard error."""
        if sign is not None:
            self.keeper.send_signal(sign)
        _, said = self.keeper.communicate(timeout=PATIENCE)
        return self.keeper.returncode, said

    def is_gone(self):
        return self.relay.process.wait(PATIENCE) == 0

    def end(self):
        for process in (self.keeper, self.relay and self.relay.process):
            if process and process.poll() is None:
                process.kill()
                process.wait()


class Group:
    def __init__(self, database, idle="30"):
        self.database, self.address, self.idle = database, database.database(), idle
        self.members = []

    def member(self, *options, epoch=None):
        epoch = epoch or 101 + len(self.members)
        self.members.append(Member(self, epoch))
        return self.members[-1].start_relay(*options)

    def kept(self, room):
        asked = "SELECT document FROM relay_states WHERE kind = 'newest' AND room = '{}'"
        told = self.database.sql(asked.format(room), self.address)
        return json.loads(told) if told else None

    async def keeps(self, room, document):
        async def look():
            return self.kept(room)

        await becomes(look, lambda found: found == document)


@contextlib.contextmanager
def group(database, **how):
    made = Group(database, **how)
    try:
        yield made
    finally:
        for member in made.members:
            member.end()


async def set_first(member, room, document):
    async with member.entered(room) as link:
        patch = [{"op": "add", "path": "", "value": document}]
        await link.send(json.dumps({"do": "edit", "id": 1, "patch": patch}))
        assert json.loads(await link.recv())["kind"] == "done"


async def close_code(link):
    with contextlib.suppress(websockets.exceptions.ConnectionClosed):
        while True:
            await link.recv()
    return link.close_code


@shows
async def a_name_that_is_closed_opens_no_session_and_is_put_back_first(database):
    with group(database) as here:
        one = here.member()
        await set_first(one, "board", FIRST)
        await here.keeps("board", FIRST)
        one.end()
        two = here.member()
        two.keeper.send_signal(signal.SIGSTOP)
        for _ in range(20):
            assert await two.refuses("board")
        assert two.listed() == {}, "a client that is refused begins no room"
        two.keeper.send_signal(signal.SIGCONT)
        assert await two.first_shown("board") == FIRST


@shows
async def a_room_that_no_client_wants_is_not_taken(database):
    with group(database) as here:
        one, two = here.member(), here.member()
        await set_first(one, "board", FIRST)
        assert await two.refuses("other")
        await becomes(lambda: two.refuses("other"), lambda refused: not refused)
        assert "other" not in one.listed() and "board" not in two.listed()


@shows
async def a_room_that_is_only_watched_is_not_begun(database):
    with group(database) as here:
        one = here.member()
        watched = "board/watch"
        await becomes(lambda: one.status(watched), lambda status: status == 404)
        until = time.monotonic() + 8  # it is given up meanwhile, and taken again
        while time.monotonic() < until:
            assert await one.status(watched) in (404, 503)
            assert "board" not in one.listed(), "who only watches begins none"
            await asyncio.sleep(0.2)
        await set_first(one, "board", FIRST)
        await here.keeps("board", FIRST)
        assert await one.first_shown(watched) == FIRST


@shows
async def a_kept_document_comes_back_for_one_who_only_watches(database):
    with group(database) as here:
        one = here.member()
        await set_first(one, "board", FIRST)
        await here.keeps("board", FIRST)
        one.end()
        two = here.member()
        assert await two.first_shown("board/watch") == FIRST


@shows
async def a_room_moves_to_the_relay_that_is_asked_for_it_with_all_edits_and_wills(database):
    with group(database) as here:
        one, two = here.member(), here.member()
        await set_first(one, "board", FIRST)
        began = time.monotonic()
        will = [{"op": "add", "path": "/cards/-", "value": "bread"}]
        async with one.entered("board") as link:
            await link.send(json.dumps({"do": "will", "id": 1, "patch": will}))
            while json.loads(await link.recv())["kind"] != "willing":
                pass
            assert await two.first_shown("board") == SECOND
            assert time.monotonic() - began > STAY - 2, "it moved at once"
            assert await close_code(link) == 1001
        assert one.listed()["board"]["sessions"] == 0, one.listed()
        assert here.kept("board") == SECOND


@shows
async def an_empty_room_is_written_closed_and_forgotten(database):
    with group(database, idle=IDLE) as here:
        one, two = here.member(), here.member()
        await set_first(one, "board", FIRST)

        async def rooms():
            return one.listed()

        await becomes(rooms, lambda rooms: not rooms or rooms["board"]["weight"] == 8)
        assert here.kept("board") == FIRST
        for _ in range(20):
            await asyncio.sleep(0.1)
            assert not any(it["sessions"] for it in one.listed().values()), "it was taken again"
        began = time.monotonic()
        assert await two.first_shown("board") == FIRST
        assert time.monotonic() - began < STAY / 2, "nobody has to give it up"


@shows
async def a_keeper_that_loses_its_locks_ends_the_sessions_of_its_relay(database):
    with group(database) as here:
        one, two = here.member(), here.member()
        await set_first(one, "board", FIRST)
        await here.keeps("board", FIRST)
        async with one.entered("board") as link:
            database.sql(f"SELECT pg_terminate_backend(pid) FROM ({HOLDERS}) AS held", here.address)
            assert one.is_gone() and await close_code(link) == 1001
        status, said = one.said()
        assert status == 1 and "lost" in said and "Traceback" not in said, said
        assert await two.first_shown("board") == FIRST


@shows
async def a_keeper_whose_database_does_not_answer_ends_its_relay(_):
    with cluster() as own, group(own) as here:
        one = here.member()
        await set_first(one, "board", FIRST)
        sessions = [int(pid) for pid in own.sql(KEEPERS).split()]
        for pid in sessions:
            os.kill(pid, signal.SIGSTOP)
        began = time.monotonic()
        try:
            assert one.is_gone()
            assert time.monotonic() - began < STAY, "that took long"
            status, said = one.said()
            assert status == 1 and "lost" in said and "Traceback" not in said, said
        finally:
            for pid in sessions:
                os.kill(pid, signal.SIGCONT)


@shows
async def sigterm_gives_all_rooms_up_and_stops_the_relay(database):
    with group(database) as here:
        one, two = here.member(), here.member()
        for room in ("a", "b", "c"):
            await set_first(one, room, [room])
        assert one.said(signal.SIGTERM)[0] == 0 and one.is_gone()
        for room in ("a", "b", "c"):
            assert await two.first_shown(room) == [room]


@shows
async def a_keeper_whose_relay_is_gone_gives_its_rooms_to_others(database):
    with group(database) as here:
        one, two = here.member(), here.member()
        await set_first(one, "board", FIRST)
        await here.keeps("board", FIRST)
        one.relay.end()
        status, said = one.said()
        assert status == 1 and "does not answer" in said and "Traceback" not in said, said
        assert await two.first_shown("board") == FIRST


@shows
async def of_two_relays_with_one_epoch_the_second_is_stopped(database):
    with group(database) as here:
        one, two = here.member(epoch=5), here.member(epoch=5)
        await set_first(one, "board", FIRST)
        assert await two.refuses("other")
        status, said = two.said()
        assert status == 1 and "the epoch 5" in said and "Traceback" not in said, said
        assert two.is_gone() and await one.first_shown("board") == FIRST


@shows
async def a_relay_that_is_open_to_all_is_refused(database):
    with group(database) as here:
        one = here.member("--history", "64")
        await one.room("board").set(FIRST)
        status, said = one.said()
        assert status == 1 and "--closed" in said and "Traceback" not in said, said


@shows
async def a_document_that_the_relay_was_left_with_is_set_aside(database):
    """As by an operator who edits a room that another relay has."""
    with group(database) as here:
        one, two = here.member(), here.member()
        await set_first(one, "board", FIRST)
        await here.keeps("board", FIRST)
        body = json.dumps([{"op": "add", "path": "", "value": "left"}])
        form = "Content-Type: application/json-patch+json"
        head = asking.head("PATCH /rooms/board HTTP/1.1", form, f"Content-Length: {len(body)}")
        assert asking.ask(two.admin, head + body.encode()).status == 200
        one.end()
        assert await two.first_shown("board") == FIRST
        aside = "SELECT document FROM relay_states WHERE kind = 'aside'"
        assert database.sql(aside, here.address) == '"left"'


if __name__ == "__main__":
    with cluster() as started:
        main(started)
