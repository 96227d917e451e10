"""`relay store`: the rooms of a store that no relay has open, listed, shown, exported, and imported
into another store, over which a relay goes on with them; and a backup that is put back by the steps
of docs/RUNNING.md."""

import contextlib
import json
import os
import pathlib
import re
import shutil
import subprocess
import tempfile
import time

from stored import check, kept, parts
from support.patience import until
from support.play import main, shows
from support.relay import ROOT, Relay, program, run
from support.wire import Client, request

DOCUMENTS = {
    "board": {"cards": ["a", {"b/c": None, "d~e": -(2**63)}], "\u00e4\U0001f600": "\u0001"},
    "Lobby": None,
    "a-room": [[], {}, 'a "b" \\'],
}
NO_ROOM = (4, "", "relay: no room of this name is kept\n")
NO_STORE = "the file is no store of this relay"
LOOKS = (["list"], ["show", "board"], ["export"])
# The folder of the store in docs/RUNNING.md.
STATE = "/var/lib/relay/8082"


class Folder:
    """A folder with a store of three rooms, each of which was edited more than once."""

    def __init__(self):
        self.stack = contextlib.ExitStack()
        self.path = pathlib.Path(self.stack.enter_context(tempfile.TemporaryDirectory()))
        self.file, self.other = self.path / "rooms.db", self.path / "other.db"
        with self.relay(self.file) as relay:
            for room, document in DOCUMENTS.items():
                with Client(relay.port, room) as client:
                    for value in ("before", document):
                        assert client.set(value)["kind"] == "done"

    def __enter__(self):
        return self

    def __exit__(self, *_):
        self.stack.close()

    def relay(self, file):
        return Relay("--store", file, epoch=None)

    def uses(self, tool, *words, file=None, given=""):
        ran = run("store", tool, *words, "--store", file or self.file, given=given)
        return ran.returncode, ran.stdout, ran.stderr

    def says(self, fault, file=None):
        """The end of a tool whose store fails so."""
        return 1, "", f"relay: --store {file or self.file}: {fault}\n"

    def told(self, tool, *words, **how):
        """The lines of a tool that ends well."""
        status, out, errors = self.uses(tool, *words, **how)
        assert (status, errors) == (0, ""), (tool, status, errors)
        return out.splitlines(keepends=True)

    def refused(self, *lines, file=None):
        """The complaint of an import of these lines, which makes nothing."""
        before = content(self.path)
        status, out, errors = self.uses("import", file=file or self.other, given="".join(lines))
        assert (status, out) == (1, ""), (lines, status, out)
        assert content(self.path) == before, lines
        return errors


def content(folder):
    return {path: path.read_bytes() for path in folder.iterdir()}


def compact(value):
    return json.dumps(value, ensure_ascii=False, separators=(",", ":"), sort_keys=True)


@shows
def a_list_has_each_room_by_name_with_its_revision_and_size(store):
    held = kept(store.file).rooms
    assert set(held) == set(DOCUMENTS)
    wanted = [
        {"room": name, "rev": rev, "bytes": len(compact(document).encode())}
        for name, (rev, document) in sorted(held.items())
    ]
    lines = store.told("list")
    assert list(map(json.loads, lines)) == wanted, lines
    assert [list(json.loads(line)) for line in lines] == [["room", "rev", "bytes"]] * 3, lines


@shows
def a_room_is_shown_as_one_json_text(store):
    for room, document in DOCUMENTS.items():
        (line,) = store.told("show", room)
        assert json.loads(line) == document and line.endswith("\n"), line
    assert store.uses("show", "lobby") == NO_ROOM
    assert store.uses("show", "") == NO_ROOM


@shows
def an_export_has_the_epoch_the_floor_and_each_document(store):
    held = kept(store.file)
    first, *rest = store.told("export")
    assert first == f'{{"epoch":{held.epoch},"floor":{held.floor}}}\n', first
    wanted = [
        {"room": name, "rev": rev, "document": document}
        for name, (rev, document) in sorted(held.rooms.items())
    ]
    assert list(map(json.loads, rest)) == wanted, rest


@shows
def looking_leaves_the_folder_as_it_was(store):
    held = kept(store.file)
    # A kill leaves everything in the log, a stop nothing, and sqlite3 removes it.
    stop = [program(), "serve", "--port", "0", "--turns", "1", "--store", store.file]
    for then in (stop, ["sqlite3", store.file, "VACUUM"], ["true"]):
        before = content(store.path)
        for tool in LOOKS:
            store.told(*tool)
            assert content(store.path) == before, (tool, before.keys())
        assert kept(store.file) == held
        subprocess.run(then, check=True, capture_output=True)
    assert parts(store.file) == [store.file]
    check(store.file)


@shows
def looking_makes_no_file_where_none_is(store):
    for tool in LOOKS:
        for none in (store.path / "none.db", store.path / "no folder" / "rooms.db"):
            said = store.says("the file cannot be opened", none)
            assert store.uses(*tool, file=none) == said, tool
            assert not parts(none), tool


@shows
def what_is_no_store_stays_as_it_is(store):
    for text in ("", "x", "a note"):
        store.other.write_text(text)
        before = content(store.path)
        for tool in LOOKS:
            said = store.says(NO_STORE, store.other)
            assert store.uses(*tool, file=store.other) == said, (text, tool)
            assert content(store.path) == before, (text, tool)


@shows
def a_relay_begins_with_an_empty_file_and_with_a_small_one_without_its_log(store):
    store.other.touch()
    small = store.path / "small.db"
    shutil.copy(store.file, small)
    for file in (store.other, small):
        for tool in LOOKS:
            assert store.uses(*tool, file=file) == store.says(NO_STORE, file), tool
            assert parts(file) == [file], tool
        with Relay("--store", file, epoch=None, stderr=subprocess.PIPE) as relay:
            said = relay.process.stderr.readline()
            assert said == f"relay: --store {file}: no rooms yet\n", said
        relay.process.stderr.close()
        assert store.told("list", file=file) == []


@shows
def a_relay_goes_on_with_what_was_imported(store):
    assert store.told("import", file=store.other, given="".join(store.told("export"))) == [
        "rooms 3\n"
    ]
    check(store.other)
    held = kept(store.other)
    assert held == kept(store.file)
    # The file alone has them.
    alone = store.path / "alone.db"
    shutil.copy(store.other, alone)
    assert kept(alone) == held
    assert store.told("export", file=store.other) == store.told("export")
    with store.relay(store.other) as relay:
        for room, (rev, document) in held.rooms.items():
            with Client(relay.port, room) as client:
                assert client.welcome["epoch"] == held.epoch
                resumed = client.ask(request("resume", epoch=held.epoch, rev=rev, view=[""]))
                assert resumed["how"] == "nothing", resumed
            with Client(relay.port, room) as client:
                message = client.watch([""])
                assert (message["rev"], message["view"][0][0]) == (rev, document), message
                assert client.set("later")["rev"] == rev + 1


def steps(title, folder):
    """The blocks of commands below a title of docs/RUNNING.md, with this folder as the store's and
    no unit to stop or to start."""
    text = (ROOT / "docs/RUNNING.md").read_text()
    part = re.search(rf"^### {title}\n(.*?)^##", text, re.M | re.S)[1]
    for block in re.findall(r"^```sh\n(.*?)^```$", part, re.M | re.S):
        assert STATE in block, block
        yield "systemctl() { :; }\n" + block.replace(STATE, str(folder))


def does(script, folder):
    """Runs commands in a folder, with `relay` as the program that is tested. What they print."""
    program = folder / "bin/relay"
    program.parent.mkdir(exist_ok=True)
    program.unlink(missing_ok=True)
    program.symlink_to(os.environ["RELAY"])
    env = {**os.environ, "PATH": f"{program.parent}:{os.environ['PATH']}"}
    words = ["bash", "-euo", "pipefail", "-c", script]
    return subprocess.run(words, cwd=folder, env=env, check=True, stdout=subprocess.PIPE).stdout


@shows
def a_backup_is_put_back_by_the_steps_of_running(store):
    back_up, put_back = steps("Putting a backup back", store.path)
    does(back_up, store.path)
    held = kept(store.file)
    with store.relay(store.file) as relay:
        with Client(relay.port, "board") as client:
            assert client.set("spoilt")["kind"] == "done"
    spoilt = kept(store.file)
    # The epoch of the store is the second in which it was made.
    until(lambda: time.time() > held.epoch + 1)
    assert b"rooms 3\n" == does(put_back, store.path)
    check(store.file)
    again = kept(store.file)
    assert again.rooms == held.rooms and again.epoch != held.epoch, again
    (before,) = store.path.glob("before.*")
    assert kept(before / "rooms.db") == spoilt
    # What is done again sets aside what is there then, and not what was set aside before.
    assert b"rooms 3\n" == does(put_back, store.path)
    assert kept(before / "rooms.db") == spoilt and len(list(store.path.glob("before.*"))) == 2
    with store.relay(store.file) as relay, Client(relay.port, "board") as client:
        seen = {"epoch": spoilt.epoch, "rev": spoilt.rooms["board"][0]}
        assert client.ask(request("resume", **seen, view=[""]))["how"] == "snapshot"
        assert client.message()["view"] == [[DOCUMENTS["board"]]]


@shows
def a_store_that_keeps_something_is_left_alone(store):
    lines = store.told("export")
    before = content(store.path)
    assert store.uses("import", given="".join(lines)) == store.says("the store is not empty")
    assert content(store.path) == before


@shows
def a_store_that_keeps_nothing_has_its_own_epoch(store):
    assert store.told("import", file=store.other, given='{"epoch":7,"floor":0}\n') == ["rooms 0\n"]
    first, *rooms = store.told("export")
    assert store.told("import", file=store.other, given="".join([first, *rooms])) == ["rooms 3\n"]
    assert kept(store.other).epoch == 7
    assert store.told("export", file=store.other)[1:] == rooms


@shows
def an_import_that_is_refused_makes_nothing(store):
    first, *rooms = store.told("export")
    line = "relay: line {} is of no export\n".format
    assert store.refused() == line(1)
    assert store.refused(*rooms) == line(1)
    assert store.refused(first, "\n", *rooms) == line(2)
    assert store.refused(first, *rooms, '{"room":"x","rev":1}\n') == line(5)
    assert store.refused(first, *rooms, rooms[-1][:-3]) == line(5)
    twice = "relay: two rooms have one name, or there are more than a relay may have\n"
    assert store.refused(first, *rooms, rooms[0]) == twice
    by = "by its name, revision or document\n"
    room = f"relay: line {{}} has a room that no relay may have, {by}".format
    assert store.refused(first, rooms[0].replace("Lobby", "a b")) == room(2)
    heavy = json.dumps({"room": "heavy", "rev": 1, "document": "x" * 300_000}) + "\n"
    assert store.refused(first, *rooms, heavy, rooms[0].replace("Lobby", "a b")) == room(5)


@shows
def a_store_that_a_relay_has_open_is_in_use(store):
    with store.relay(store.file):
        for tool in (["list"], ["show", "board"], ["export"], ["import"]):
            given = '{"epoch":7,"floor":0}\n'
            assert store.uses(*tool, given=given) == store.says("the file is in use"), tool


main(each=Folder)
