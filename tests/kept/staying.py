"""Documents, revisions and the epoch stay in a store, after a stop and after a kill; rooms that are
forgotten, and those that end for others, do not; and other programs can read the file."""

import contextlib
import json
import pathlib
import re
import shutil
import subprocess
import tempfile
import time

from stored import check, kept, parts
from support import asking, relay
from support.patience import until
from support.play import main, shows
from support.wire import Client, Refused, request

RUNNING = relay.ROOT / "docs/RUNNING.md"
PATCH = "Content-Type: application/json-patch+json"
DOCUMENT = {"cards": ["a", {"b/c": None, "d~e": -(2**63)}], "n": 1, "\u00e4\U0001f600": "\u0001"}
EDITS = (
    {"op": "add", "path": "/cards/0", "value": [[], {}]},
    {"op": "move", "from": "/cards/1", "path": "/cards/-"},
    {"op": "copy", "from": "/cards/1/b~1c", "path": "/cards/1/d~0e"},
    {"op": "replace", "path": "/\u00e4\U0001f600", "value": 'a "b" \\'},
    {"op": "remove", "path": "/n"},
)


class Store:
    """A folder with a store, and the relay over it."""

    def __init__(self):
        self.stack = contextlib.ExitStack()
        self.folder = pathlib.Path(self.stack.enter_context(tempfile.TemporaryDirectory()))
        self.file, self.relay = self.folder / "rooms.db", None

    def __enter__(self):
        return self

    def __exit__(self, *_):
        self.end()
        self.stack.close()

    def start(self, *options):
        self.relay = relay.Operated("--store", self.file, *options, epoch=None)
        return self.relay

    def end(self):
        """By signal 9."""
        if self.relay:
            self.relay.end()
            self.relay = None

    def again(self, *options):
        self.end()
        return self.start(*options)

    def backup(self):
        """The file and its log, with what each has."""
        return [(part, part.read_bytes()) for part in parts(self.file)]

    def is_alone(self, shown):
        """A copy of the file without its log keeps what a client was shown of the room."""
        with tempfile.TemporaryDirectory() as folder:
            epoch, rev, document = shown
            held = kept(shutil.copy(self.file, folder))
            assert (held.epoch, held.rooms["board"]) == (epoch, (rev, document)), held

    def client(self, room="board"):
        return Client(self.relay.port, room)

    def shows(self, room):
        """The epoch, and the room's revision and document, as a client is shown them."""
        with self.client(room) as client:
            message = client.watch([""])
            return client.welcome["epoch"], message["rev"], message["view"][0][0]

    def make(self, room, *values):
        """Puts these values into a room, one after the other, and leaves. The revision."""
        with self.client(room) as client:
            replies = [client.set(value) for value in values]
        assert all(reply["kind"] == "done" for reply in replies), replies
        until(lambda: asking.rooms(self.relay.admin)[room]["sessions"] == 0)
        return replies[-1]["rev"]

    def has_place(self, room):
        """False if the relay has no place for this room."""
        try:
            self.client(room).close()
        except Refused as refusal:
            assert "503" in str(refusal), refusal
            return False
        return True

    def resumed(self, room, epoch, rev):
        """The reply to one who comes back."""
        with self.client(room) as client:
            reply = client.ask(request("resume", epoch=epoch, rev=rev, view=[""]))
            return reply.get("how") or reply["fault"]

    def patch(self, room, *operations):
        text = json.dumps(operations).encode()
        head = asking.head(f"PATCH /rooms/{room} HTTP/1.1", PATCH, f"Content-Length: {len(text)}")
        return asking.ask(self.relay.admin, head + text)


def edit_all(store):
    """A document, each operation by itself, and an edit that changes nothing."""
    store.make("board", DOCUMENT)
    with store.client() as client:
        for operation in EDITS:
            assert client.ask(request("edit", patch=[operation]))["kind"] == "done"
        assert client.ask(request("edit", patch=[]))["kind"] == "done"
    return store.shows("board")


@shows
def everything_is_there_after_a_signal(store):
    for signal in ("terminate", "kill", "terminate"):
        store.again()
        before = edit_all(store)
        getattr(store.relay.process, signal)()
        store.relay.process.wait()
        store.again()
        assert store.shows("board") == before, signal


@shows
def everything_is_there_after_a_stop(store):
    store.start()
    before = edit_all(store)
    assert asking.ask(store.relay.admin, asking.head("POST /stop HTTP/1.1")).status == 202
    assert store.relay.process.wait(60) == 0
    store.again()
    assert store.shows("board") == before


@shows
def the_file_alone_is_the_store_after_a_stop(store):
    store.start()
    before = edit_all(store)
    assert asking.ask(store.relay.admin, asking.head("POST /stop HTTP/1.1")).status == 202
    assert store.relay.process.wait(60) == 0
    store.is_alone(before)
    # After a kill its log has what is new, and a run of some rounds moves that too.
    store.start()
    store.make("board", "new")
    before = store.shows("board")
    store.end()
    ran = relay.run("serve", "--port", 0, "--store", store.file, "--turns", 3)
    assert ran.returncode == 0, ran
    store.is_alone(before)


@shows
def the_file_is_a_sound_database_that_others_can_read(store):
    store.start()
    epoch, rev, document = edit_all(store)
    store.make("empty", 1, None)
    store.end()
    check(store.file)
    held = kept(store.file)
    assert (held.epoch, held.floor) == (epoch, 0), held
    assert held.rooms == {"board": (rev, document), "empty": (2, None)}, held


@shows
def a_copy_of_the_file_and_its_log_is_a_store(store):
    store.start()
    before = edit_all(store)
    store.end()
    copies = store.backup()
    store.start()
    store.make("board", "later")
    store.end()
    for part, content in copies:
        part.write_bytes(content)
    store.start()
    assert store.shows("board") == before


@shows
def nobody_goes_on_from_what_a_backup_lacks(store):
    """The store gets another epoch, by the command of docs/RUNNING.md."""
    store.start()
    epoch, rev, document = edit_all(store)
    store.end()
    copies = store.backup()
    store.start()
    later = store.make("board", "later")
    store.end()
    for part, content in copies:
        part.write_bytes(content)
    until(lambda: time.time() >= epoch + 1)
    [command] = re.findall('^ *(sqlite3 FILE "UPDATE .*")$', RUNNING.read_text(), re.M)
    subprocess.run(command.replace("FILE", str(store.file)), shell=True, check=True)
    store.start()
    anew, *shown = store.shows("board")
    assert anew != epoch and shown == [rev, document], (anew, epoch, shown)
    assert store.resumed("board", epoch, later) == "snapshot"


@shows
def a_record_is_taken_anew_once_the_patches_weigh_more(store):
    store.start()
    with store.client() as client:
        for number in range(40):
            assert client.set(str(number) * 4_000)["kind"] == "done"
    before = store.shows("board")
    store.again()
    assert store.shows("board") == before
    assert kept(store.file).rooms["board"] == before[1:]


@shows
def the_file_does_not_grow_with_the_number_of_edits(store):
    store.start("--rooms", 2)
    with store.client() as client:
        for number in range(200):
            assert client.set(str(number % 10) * 10_000)["kind"] == "done"
    for room in ("first", "second"):
        store.make(room, room, None)
    store.end()
    before = kept(store.file)
    # Two million bytes were set in all.
    assert sum(part.stat().st_size for part in parts(store.file)) < 6_000_000
    subprocess.run(["sqlite3", store.file, "VACUUM"], check=True)
    assert kept(store.file) == before
    assert sum(part.stat().st_size for part in parts(store.file)) < 60_000
    store.start()
    assert store.shows("board")[1:] == before.rooms["board"]
    store.make("board", "goes on")
    store.again()
    assert store.shows("board")[2] == "goes on"


@shows
def a_client_that_was_at_the_present_revision_goes_on_and_another_gets_a_snapshot(store):
    store.start()
    epoch, rev, _ = edit_all(store)
    # The last edit changed nothing.
    assert store.resumed("board", epoch, rev - 2) == "patch"
    store.again()
    for run, held, how in (
        (epoch, rev, "nothing"),
        (epoch, rev - 1, "snapshot"),
        (epoch, rev - 2, "snapshot"),
        (epoch, rev + 1, "future"),
        (epoch + 1, rev, "snapshot"),
    ):
        assert store.resumed("board", run, held) == how, (run, held)


@shows
def a_room_that_is_forgotten_stays_so(store):
    store.start()
    epoch = store.shows("other")[0]
    rev = store.make("board", "kept", "forgotten")
    assert asking.delete(store.relay.admin, "board").status == 204
    store.again()
    assert store.shows("board") == (epoch, rev + 1, None)
    assert [store.resumed("board", epoch, old) for old in (rev, rev + 1)] == ["snapshot", "nothing"]


@shows
def a_room_that_ends_for_another_one_never_goes_on_under_its_old_revisions(store):
    store.start("--rooms", 2)
    epoch = store.shows("stays")[0]
    store.make("stays", "there")
    held = {}
    for turn in range(6):
        name = ("first", "second")[turn % 2]
        with store.client(name) as client:
            rev = client.welcome["rev"]
        assert rev > max(held.values(), default=-1), (turn, rev, held)
        for old in range(rev):
            assert store.resumed(name, epoch, old) == "snapshot", (turn, old)
        held[name] = store.make(name, *range(turn + 2), None)
        if turn != 3:
            store.again("--rooms", 2)
        assert store.shows("stays")[1:] == (1, "there")
    store.end()
    assert set(kept(store.file).rooms) == {"stays", "second"}


@shows
def a_room_that_was_forgotten_for_another_one_is_gone(store):
    words = ("--rooms", 2, "--forget-rooms")
    store.start(*words)
    for room in ("first", "second"):
        store.make(room, room)
    # Nobody asks for another one, so none is forgotten, at a start neither.
    store.again(*words)
    assert store.shows("first")[2] == "first"
    assert not store.has_place("third")
    store.make("third", "third")
    store.again(*words)
    assert set(kept(store.file).rooms) == {"first", "third"}
    assert store.shows("third")[2] == "third"
    assert store.shows("first")[2] == "first"


@shows
def an_operator_reads_edits_and_forgets(store):
    store.start()
    assert store.patch("board", {"op": "add", "path": "", "value": [1]}).status == 200
    added = store.patch("board", {"op": "add", "path": "/-", "value": 2})
    assert added.status == 200
    store.again()
    reply = asking.get(store.relay.admin, "/rooms/board")
    assert (reply.status, json.loads(reply.body)) == (200, [1, 2]), reply
    assert reply.fields["ETag"] == added.fields["ETag"], (reply, added)
    assert store.patch("board", {"op": "test", "path": "/0", "value": 2}).status == 422
    assert asking.delete(store.relay.admin, "board").status == 204
    store.again()
    reply = asking.get(store.relay.admin, "/rooms/board")
    assert (reply.status, json.loads(reply.body)) == (200, None), reply


@shows
def the_wills_of_sessions_that_are_open_are_done_once(store):
    store.start()
    store.make("board", [])
    with store.client() as first, store.client() as second:
        for client, name in ((first, "first"), (second, "second")):
            will = [{"op": "add", "path": "/-", "value": name}]
            assert client.ask(request("will", patch=will))["kind"] == "willing"
        store.end()
    wills = list(kept(store.file).wills.values())
    assert [patch[0]["value"] for room, patch in wills] == ["first", "second"], wills
    for _ in range(2):
        store.again()
        assert store.shows("board")[2] == ["first", "second"]
    with store.client() as third:
        will = [{"op": "add", "path": "/-", "value": "third"}]
        assert third.ask(request("will", patch=will))["kind"] == "willing"
        assert asking.ask(store.relay.admin, asking.head("POST /stop HTTP/1.1")).status == 202
        assert store.relay.process.wait(60) == 0
    held = kept(store.file)
    assert held.rooms["board"][1] == ["first", "second", "third"] and not held.wills, held
    store.again()
    assert store.shows("board")[2] == ["first", "second", "third"]


@shows
def a_will_that_was_withdrawn_or_done_is_not_kept(store):
    store.start()
    store.make("board", [])
    will = [{"op": "add", "path": "/-", "value": 1}]
    with store.client() as stays:
        with store.client() as ends:
            for client, patch in ((stays, will), (ends, will), (stays, [])):
                assert client.ask(request("will", patch=patch))["kind"] == "willing"
        until(lambda: store.shows("board")[2] == [1])
        store.end()
    assert not kept(store.file).wills
    store.start()
    assert store.shows("board")[2] == [1]


main(each=Store)
