"""One table of cases, played to each store: files, SQLite and PostgreSQL."""

import contextlib
import tempfile
import threading

from relay_keeper.state import State, stamp
from relay_keeper.store import LeaseLost, NoState
from relay_keeper.stores import opened
from support.patience import until
from support.play import main, shows
from support.postgres import cluster

FIRST, SECOND, THIRD = {"cards": ["milk"]}, {"cards": ["milk", "bread"]}, ["x"]
# What is hard to keep: each has to come back as it was.
DOCUMENTS = [
    None,
    False,
    "",
    "\x00 \x7f \\ \" ' % ? é 漢 😀",
    9_223_372_036_854_775_807,
    -9_223_372_036_854_775_808,
    "5",
    [],
    {"": {"a/b~": [None, True, {}]}, "\x00": 1},
    "x" * 1_000_000,
]
SECOND_LONG = 1000  # milliseconds


def state(revision, document, epoch=7, room="board", at=None):
    return State(room, epoch, revision, document, revision * SECOND_LONG if at is None else at)


class Places:
    """The places where stores of one kind are."""

    def __init__(self, kind, folder, database):
        self.kind, self.folder, self.database, self.count = kind, folder, database, 0

    def where(self):
        """A new one."""
        self.count += 1
        if self.kind == "postgresql":
            return self.database.database()
        return f"{self.kind}:{self.folder}/{self.count}"

    @contextlib.contextmanager
    def store(self, **how):
        with contextlib.closing(opened(self.where(), **how)) as store:
            assert store.take()
            yield store


CASES = []


def case(test):
    CASES.append(test)
    return test


@case
def each_document_comes_back_as_it_was(places):
    with places.store() as store:
        assert store.get("board") is None and store.list() == []
        for number, document in enumerate(DOCUMENTS, 1):
            written = state(number, document)
            assert store.put(written)
            assert store.get("board") == written, document


@case
def an_older_revision_of_the_same_epoch_replaces_nothing(places):
    with places.store() as store:
        for put, is_written, kept in (
            (state(2, FIRST), True, FIRST),
            (state(1, SECOND), False, FIRST),
            (state(2, THIRD), True, THIRD),
            (state(3, SECOND), True, SECOND),
            (state(1, FIRST, epoch=8), True, FIRST),
            (state(9, SECOND, epoch=7), True, SECOND),
            (state(0, THIRD, epoch=None), True, THIRD),
            (state(0, FIRST, epoch=None), True, FIRST),
            (state(1, SECOND, epoch=9_007_199_254_740_991), True, SECOND),
        ):
            assert (store.put(put) is not None) == is_written, put
            assert store.get("board").document == kept, put


@case
def a_document_is_marked_as_that_of_another_run(places):
    with places.store() as store:
        store.mark("board", 8, 1)
        assert store.get("board") is None
        store.put(state(5, FIRST))
        for epoch, revision, has in ((8, 1, (8, 1)), (8, 3, (8, 3)), (8, 2, (8, 3))):
            store.mark("board", epoch, revision)
            kept = store.get("board")
            assert (kept.epoch, kept.revision, kept.document) == (*has, FIRST), kept


@case
def rooms_are_listed_by_name_with_their_bytes(places):
    with places.store() as store:
        for room in ("b", "a-1", "A_2"):
            store.put(state(3, "é", room=room))
        listed = store.list()
        assert [it.room for it in listed] == ["A_2", "a-1", "b"], listed
        ends = {"files": 1}  # a line of a file ends
        for it in listed:
            assert (it.epoch, it.revision, it.at) == (7, 3, 3 * SECOND_LONG), it
            assert it.bytes == 4 + ends.get(places.kind, 0), it


@case
def without_a_history_nothing_older_is_kept(places):
    with places.store(apart=0) as store:
        for number in range(1, 5):
            store.put(state(number, number))
        assert store.older("board") == []


@case
def the_newest_states_are_kept_of_a_history(places):
    with places.store(history=3, apart=0) as store:
        for number in range(1, 6):
            store.put(state(number, number))
            store.put(state(number - 1, "older"))  # leaves no trace
        older = store.older("board")
        assert [it.time for it in older] == [stamp(4000), stamp(3000)], older
        assert [store.document("board", it) for it in older] == [4, 3]
        assert store.document("board", store.find("board", "19700101T000003")) == 3
        for beginning, count in (("1970", 2), ("2000", 0)):
            try:
                store.find("board", beginning)
            except NoState as told:
                assert f"{count} states" in str(told), told
            else:
                raise AssertionError(beginning)
        assert store.older("other") == []


@case
def older_states_are_so_many_seconds_apart(places):
    with places.store(history=10, apart=3) as store:
        for number in range(1, 12):
            store.put(state(number, number))
        kept = [store.document("board", it) for it in store.older("board")]
        assert kept == [10, 7, 4, 1], kept


@case
def what_is_set_aside_stays(places):
    with places.store() as store:
        assert store.set_aside("board") is None
        store.put(state(1, FIRST))
        assert store.set_aside("board") == store.set_aside("board") == stamp(1000)
        store.put(state(2, SECOND))
        [aside] = store.older("board")
        assert aside.is_aside and store.document("board", aside) == FIRST, aside
        time = store.write_aside("board", THIRD)
        assert [it.time for it in store.older("board")] == [time, stamp(1000)]
        assert store.document("board", store.older("board")[0]) == THIRD
        store.drop_aside("board", time)
        assert store.older("board") == [aside] and store.get("board").document == SECOND


@case
def a_store_is_there_again_and_has_one_holder(places):
    where = places.where()
    with contextlib.closing(opened(where)) as first, contextlib.closing(opened(where)) as second:
        assert first.take() and not second.take()
        first.put(state(1, FIRST))
        assert second.get("board") == state(1, FIRST)
        for write in (
            lambda: second.put(state(2, SECOND)),
            lambda: second.mark("board", 8, 1),
            lambda: second.set_aside("board"),
            second.check,
        ):
            refuses(LeaseLost, write)
        assert second.get("board") == state(1, FIRST) and second.older("board") == []
        first.close()
        until(second.take)  # a database gives it back once it has seen the close
        assert second.get("board") == state(1, FIRST)
        second.check()


@case
def threads_write_side_by_side(places):
    with places.store() as store:

        def write(room):
            for revision in range(1, 21):
                store.put(state(revision, [room, revision], room=room))

        rooms = [f"room-{number}" for number in range(8)]
        threads = [threading.Thread(target=write, args=(room,)) for room in rooms]
        for thread in threads:
            thread.start()
        for thread in threads:
            thread.join()
        assert [store.get(room).document for room in rooms] == [[room, 20] for room in rooms]


@case
def what_is_not_there_is_not_made_by_reading(places):
    with contextlib.closing(opened(places.where())) as store:
        refuses(OSError, store.list)


def refuses(fault, work):
    try:
        work()
    except fault:
        return
    raise AssertionError(f"no {fault.__name__}")


def shown_of(kind, test):
    """A test of one case and one kind of store."""

    def played(database):
        with tempfile.TemporaryDirectory() as folder:
            test(Places(kind, folder, database))

    played.__name__ = f"{kind}_{test.__name__}"
    return shows(played)


if __name__ == "__main__":
    for kind in ("files", "sqlite", "postgresql"):
        for each in CASES:
            shown_of(kind, each)
    with cluster() as started:
        main(started)
