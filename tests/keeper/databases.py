"""Tests of what one kind of store does, beside the cases that all of them share (stores.py): how a
lease is lost, what a database refuses, and what names no store."""

import contextlib
import pathlib
import sqlite3
import subprocess
import tempfile

from relay_keeper.store import LeaseLost, StoreFailed
from relay_keeper.stores import BadStore, opened, shared
from stores import FIRST, SECOND, refuses, state
from support.patience import until
from support.play import main, shows
from support.postgres import cluster


@shows
def relays_share_a_database(database):
    with tempfile.TemporaryDirectory() as folder:
        for where in (f"sqlite:{folder}/rooms.db", database.database()):
            one, other = opened(where, relay="one"), opened(where, relay="other")
            assert one.take() and other.take()
            one.put(state(1, FIRST))
            assert other.get("board") is None and other.list() == []
            other.put(state(5, SECOND))
            assert one.get("board") == state(1, FIRST)
            one.close()
            other.close()


@shows
def sqlite_writes_last_over_a_loss_of_power(_):
    with tempfile.TemporaryDirectory() as folder:
        with contextlib.closing(opened(f"sqlite:{folder}/rooms.db")) as store:
            assert store.take()
            [[level]] = store._connection.execute("PRAGMA synchronous").fetchall()
            assert level == 2, level  # FULL
            with sqlite3.connect(f"{folder}/rooms.db") as beside:
                [[mode]] = beside.execute("PRAGMA journal_mode").fetchall()
            beside.close()
        assert mode == "wal", mode


@shows
def a_lock_that_was_taken_away_ends_the_writes(_):
    with tempfile.TemporaryDirectory() as folder:
        for where, lock in ((folder, "lock"), (f"sqlite:{folder}/db", "db.relay.lock")):
            with contextlib.closing(opened(where)) as store:
                assert store.take()
                pathlib.Path(folder, lock).unlink()
                refuses(LeaseLost, store.check)
                refuses(LeaseLost, lambda: store.put(state(1, FIRST)))


@shows
def a_connection_that_ends_takes_lease_and_writes_with_it(database):
    where = database.database()
    with contextlib.closing(opened(where)) as first, contextlib.closing(opened(where)) as second:
        assert first.take() and not second.take()
        database.sql("SELECT pg_terminate_backend(pid) FROM pg_locks WHERE locktype = 'advisory'")
        refuses(LeaseLost, lambda: first.put(state(1, FIRST)))
        refuses(LeaseLost, first.check)
        refuses(LeaseLost, lambda: first.get("board"))
        assert second.take() and second.put(state(1, SECOND))


@shows
def what_a_database_refuses_leaves_what_was_there(database):
    where = database.database()
    with contextlib.closing(opened(where)) as store:
        assert store.take() and store.put(state(1, FIRST))
        full = "ALTER TABLE relay_states ADD CONSTRAINT small CHECK (length(document::text) < 99)"
        database.sql(full, where)
        refuses(StoreFailed, lambda: store.put(state(2, "x" * 100)))
        assert store.get("board") == state(1, FIRST)
        store.check()
        assert store.put(state(2, SECOND))


@contextlib.contextmanager
def two_keepers(where, relay="boards"):
    with contextlib.closing(shared(where, relay, 1, 600.0)) as one:
        with contextlib.closing(shared(where, relay, 1, 600.0)) as other:
            assert one.take() and other.take()
            yield one, other


@shows
def a_room_of_several_keepers_is_written_by_the_one_that_has_it(database):
    with two_keepers(database.database()) as (one, other):
        assert one.take_room("board") and one.take_room("board") and not other.take_room("board")
        assert other.take_room("other") and one.take_epoch(7) and not other.take_epoch(7)
        assert one.put(state(1, FIRST))
        for write in (
            lambda: other.put(state(2, SECOND)),
            lambda: other.mark("board", 8, 1),
            lambda: other.set_aside("board"),
        ):
            refuses(LeaseLost, write)
        one.give_room("board")
        refuses(LeaseLost, lambda: one.put(state(2, SECOND)))
        assert other.take_room("board") and other.get("board") == state(1, FIRST)


@shows
def a_keeper_of_all_rooms_and_those_of_single_ones_keep_each_other_out(database):
    where = database.database()
    with contextlib.closing(opened(where, relay="boards")) as whole:
        with two_keepers(where):
            assert not whole.take()
        until(whole.take)  # the database takes a moment to see that they are gone
        with contextlib.closing(shared(where, "boards", 1, 600.0)) as late:
            assert not late.take()
            with two_keepers(where, "forms"):
                pass


@shows
def a_keeper_is_told_which_rooms_others_of_its_group_ask_for(database):
    where = database.database()
    with two_keepers(where) as (one, other), two_keepers(where, "forms") as (apart, _):
        one.ask_for("board")
        one.ask_for("other")
        other.check()
        assert other.asked_for() == ["board", "other"] and other.asked_for() == []
        assert apart.asked_for() == []


@shows
def a_connection_that_is_cut_takes_all_locks_with_it(database):
    with two_keepers(database.database()) as (one, other):
        assert one.take_room("board")
        one.cut()
        refuses(LeaseLost, one.check)
        refuses(LeaseLost, one.asked_for)
        refuses(LeaseLost, lambda: one.put(state(1, FIRST)))
        until(lambda: other.take_room("board"))


@shows
def of_several_hosts_the_first_that_is_as_it_is_wanted_is_taken(database):
    where = database.database().replace("host=", "target_session_attrs=read-write&host=/nowhere,")
    with contextlib.closing(opened(where)) as store:
        assert store.take() and store.put(state(1, FIRST))
    refuses(StoreFailed, lambda: opened(where.replace("read-write", "standby")).take())


@shows
def documents_can_be_asked_for_in_the_database(database):
    where = database.database()
    with contextlib.closing(opened(where)) as store:
        assert store.take() and store.put(state(1, SECOND))
    asked = "SELECT document #>> '{cards,1}' FROM relay_states WHERE room = 'board'"
    assert database.sql(asked, where) == "bread"


@shows
def a_folder_of_an_earlier_version_is_read(_):
    with tempfile.TemporaryDirectory() as folder:
        pathlib.Path(folder, "board.json").write_text('{"cards":["milk"]}\n')
        pathlib.Path(folder, "board.epoch").write_text("7\n")
        kept = opened(folder).get("board")
        assert (kept.epoch, kept.revision, kept.document) == (7, 0, FIRST), kept


@shows
def what_names_no_store_is_refused(_):
    for where, relay in (("mysql://x", None), ("", None), ("folder", "one"), ("sqlite:x", "a/b")):
        refuses(BadStore, lambda: opened(where, relay=relay))
    refuses(OSError, lambda: opened("postgresql://?nonsense=1"))
    refuses(OSError, lambda: opened("postgresql://nobody@/none?host=/nowhere").take())


@shows
def without_psycopg_a_line_names_the_package(_):
    hidden = "import sys; sys.modules['psycopg'] = None; from relay_keeper.__main__ import main; "
    words = "sys.exit(main(['list', '--store', 'postgresql://x']))"
    ran = subprocess.run(
        ["/usr/bin/python3", "-c", hidden + words], stderr=subprocess.PIPE, text=True
    )
    assert ran.returncode == 1 and ran.stderr.count("\n") == 1, ran
    assert "python3-psycopg" in ran.stderr, ran.stderr


if __name__ == "__main__":
    with cluster() as started:
        main(started)
