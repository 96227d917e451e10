"""Files that a relay refuses as its store: it ends with status 1 before it listens, says why, and
leaves the file and its folder as they were."""

import contextlib
import pathlib
import sqlite3
import subprocess
import sys
import tempfile

from stored import kept, parts
from support.play import main, shows
from support.relay import Relay, run
from support.wire import Client

PAGE = 4_096
# Large enough that an edit of one member is kept as a patch.
DOCUMENT = {"room": "", "rest": "x" * 100}
# Makes a database, in a journal mode, and is closed or killed.
OTHER = """
import os, sqlite3, sys
file, mode, end = sys.argv[1:]
base = sqlite3.connect(file)
base.execute(f"PRAGMA journal_mode = {mode}")
base.execute("CREATE TABLE meta (id INTEGER PRIMARY KEY, name TEXT)")
base.execute("INSERT INTO meta VALUES (1, 'a')")
base.commit()
if end == "closed":
    base.close()
os._exit(0)
"""


class Folder:
    """A folder with a store of two rooms."""

    def __init__(self):
        self.stack = contextlib.ExitStack()
        self.path = pathlib.Path(self.stack.enter_context(tempfile.TemporaryDirectory()))
        self.file = self.path / "rooms.db"
        with self.relay() as relay:
            for room in ("first", "second"):
                with Client(relay.port, room) as client:
                    for value, path in ((DOCUMENT, ""), (room, "/room")):
                        assert client.set(value, path)["kind"] == "done"

    def __enter__(self):
        return self

    def __exit__(self, *_):
        self.stack.close()

    def relay(self, *options):
        return Relay("--store", self.file, *options, epoch=None)

    def alter(self, *statements):
        with contextlib.closing(sqlite3.connect(self.file)) as base:
            for statement in statements:
                base.execute(statement)
            base.commit()

    def whole(self):
        """The content of the file, into which SQLite moves the log, since it writes."""
        self.alter("UPDATE meta SET id = id")
        return self.file.read_bytes()

    def put(self, content):
        """Makes this the file, without a log."""
        for part in parts(self.file):
            part.unlink()
        self.file.write_bytes(content)

    def refuses(self, words, *options, file=None):
        file = file or self.file
        before = {path: content(path) for path in self.path.rglob("*")}
        ran = run("serve", "--port", 0, "--store", file, "--turns", 1, *options)
        said = f"relay: --store {file}: {words}\n"
        assert (ran.returncode, ran.stdout, ran.stderr) == (1, "", said), ran
        after = {path: content(path) for path in self.path.rglob("*")}
        assert after == before, sorted(after.keys() ^ before.keys())

    def is_taken_up(self):
        with self.relay() as relay, Client(relay.port, "second") as client:
            assert client.watch([""])["view"] == [[{**DOCUMENT, "room": "second"}]]


def content(path):
    return path.read_bytes() if path.is_file() else None


@shows
def a_file_that_another_relay_has_open(folder):
    with folder.relay() as relay:
        folder.refuses("the file is in use")
        with Client(relay.port, "first") as client:
            assert client.set(1)["kind"] == "done"
    folder.is_taken_up()


@shows
def a_database_of_another_program(folder):
    for mode in ("DELETE", "WAL"):
        for end in ("closed", "killed"):
            other = folder.path / f"{mode}-{end}.db"
            subprocess.run([sys.executable, "-c", OTHER, other, mode, end], check=True)
            folder.refuses("the file is no store of this relay", file=other)
            with contextlib.closing(sqlite3.connect(other)) as base:
                assert base.execute("SELECT * FROM meta").fetchall() == [(1, "a")]


@shows
def a_store_with_a_table_of_another_program(folder):
    folder.alter("CREATE TABLE notes (text TEXT)")
    folder.refuses("the file is no store of this relay")


@shows
def a_file_that_is_no_database(folder):
    for text in ("x", "no database", "Small", "longer than the head of one" + "x" * PAGE):
        other = folder.path / "text"
        other.write_text(text)
        folder.refuses("the file is no store of this relay", file=other)


@shows
def a_store_of_another_version(folder):
    folder.alter("UPDATE meta SET version = 2")
    folder.refuses("the store has another version")


@shows
def a_store_whose_rows_do_not_fit(folder):
    whole = folder.whole()
    for statement in (
        "UPDATE change SET text = '{}' WHERE kind = 1",
        "UPDATE change SET number = number + 1 WHERE kind = 1",
        "UPDATE change SET kind = 9 WHERE kind = 1",
        "UPDATE change SET room = 'no room' WHERE room = 'second'",
        "UPDATE change SET room = 'third' WHERE kind = 1",
        "UPDATE change SET number = -1 WHERE kind = 0",
    ):
        folder.alter(statement)
        folder.refuses("the store is damaged")
        folder.put(whole)
    folder.is_taken_up()


@shows
def a_file_that_is_cut_or_overwritten(folder):
    whole = folder.whole()
    for damaged in (whole[:-PAGE], whole[:-PAGE] + bytes(PAGE)):
        folder.put(damaged)
        folder.refuses("the store is damaged")
    folder.put(whole)
    folder.is_taken_up()


@shows
def a_name_that_leads_to_no_file(folder):
    for file in (folder.path / "none" / "rooms.db", folder.path):
        folder.refuses("the file cannot be opened", file=file)


@shows
def more_rooms_than_there_may_be(folder):
    folder.refuses("the store has more rooms than may be: give a higher --rooms", "--rooms", 1)
    folder.is_taken_up()
    with folder.relay() as relay, Client(relay.port, "first") as client:
        assert client.set(None)["kind"] == "done"
    folder.refuses("the store has more rooms than may be: give a higher --rooms", "--rooms", 1)
    assert set(kept(folder.file).rooms) == {"first", "second"}


main(each=Folder)
