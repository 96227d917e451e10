"""Tests of how rooms that nobody is in are kept by the operator's port, which is played here, and
of when the keeper takes the relay to be in another run."""

import contextlib
from concurrent.futures import ThreadPoolExecutor

from played_port import ALL, KEPT, OTHER, play
from relay_keeper.finding import Finding
from relay_keeper.names import Chosen
from relay_keeper.pace import Pace
from relay_keeper.reading import keep_once
from relay_keeper.room import Means
from support.play import main, shows

CASES = [
    # the kept state as epoch, revision and document; the epoch that is awaited; then the state, and
    # how many documents were set aside: of a room that has OTHER at revision 4 of the run 7
    (None, 7, (7, 4, OTHER), 0),
    (None, None, (7, 4, OTHER), 0),
    ((7, 3, KEPT), 7, (7, 4, OTHER), 0),
    ((7, 5, KEPT), 7, (7, 5, KEPT), 0),
    ((5, 3, KEPT), 7, (7, 4, OTHER), 1),
    ((5, 9, OTHER), 7, (7, 4, OTHER), 0),
    ((None, 0, KEPT), 7, (7, 4, OTHER), 1),
    ((5, 3, KEPT), 6, (5, 3, KEPT), 0),
]


@shows
def a_room_is_kept_as_the_relay_gives_it():
    for kept, epoch, wanted, aside in CASES:
        with play() as here:
            if kept:
                here.keep("board", kept[2], kept[0], kept[1])
            here.port.rooms = {"board": (4, OTHER)}
            assert keep_once(here.admin, here.store, "board", epoch) == (7, 4)
            state = here.store.get("board")
            assert (state.epoch, state.revision, state.document) == wanted, (kept, state)
            assert len(here.store.older("board")) == aside, kept
            assert keep_once(here.admin, here.store, "gone", epoch) is None


@contextlib.contextmanager
def finding(here):
    """Yields what finds the rooms of the played port."""
    with ThreadPoolExecutor(1) as disk:
        means = Means("ws://127.0.0.1:1", here.store, disk, lambda: Pace(10, 5))
        yield Finding(here.admin, ALL, means)


def asked(here, method, path):
    """The number of times that that was asked for, since the last time."""
    count = [(it[0], it[1]) for it in here.port.asked].count((method, path))
    here.port.asked.clear()
    return count


@shows
async def each_revision_is_read_once():
    with play() as here, finding(here) as found:
        here.port.rooms = {"board": (4, OTHER), "empty": (0, None)}
        for revision in (4, 5):
            here.port.rooms["board"] = (revision, revision)
            for count in (1, 0, 0):
                here.port.asked.clear()
                assert await found.look()
                tags = 1 if revision == 4 and count else 0
                assert asked(here, "GET", "/rooms/board") == count + tags, here.port.asked
        assert [it.room for it in here.store.list()] == ["board"]


@shows
async def a_relay_that_does_not_answer_is_asked_again():
    """Whichever request it is that it does not answer."""
    full = (503, {"Retry-After": "1"}, "out of memory\n")
    for request in (
        ("GET", "/rooms"),
        ("GET", "/rooms/board"),
        ("GET", "/metrics"),
        ("POST", "/open"),
    ):
        for answers in ([full], [(500, {}, "")]):
            with play() as here, finding(here) as found:
                here.port.rooms = {"board": (4, OTHER)}
                here.port.first[request] = list(answers)
                assert not await found.look() and not found.ready.done(), request
                assert await found.look() and here.port.is_open, request
                assert here.store.get("board").document == OTHER and found.ready.done()


@shows
async def a_read_that_is_not_answered_is_tried_again():
    with play() as here, finding(here) as found:
        assert await found.look()
        here.port.rooms = {"board": (4, OTHER)}
        here.port.first[("GET", "/rooms/board")] = [(503, {}, "out of memory\n")]
        assert not await found.look()
        assert await found.look() and here.store.get("board").document == OTHER


@shows
async def a_run_is_met_if_a_revision_fell_or_a_room_is_gone():
    for rooms in ({"board": (1, None)}, {"other": (9, 9)}, {}):
        with play() as here, finding(here) as found:
            here.port.rooms = {"board": (4, OTHER)}
            assert await found.look() and here.port.is_open
            here.port.rooms, here.port.is_open, here.port.epoch = dict(rooms), False, 8
            assert await found.look() and here.port.is_open, rooms
            wanted = rooms.get("board", (1, OTHER))[1]
            assert here.port.rooms["board"][1] == wanted, (rooms, here.port.rooms)


@shows
async def a_run_that_nothing_told_is_met_when_a_room_is_read():
    """The room has a later revision than in the run before."""
    with play() as here, finding(here) as found:
        here.keep("second", KEPT, epoch=7)
        here.port.rooms = {"board": (4, OTHER), "second": (3, KEPT)}
        assert await found.look()
        here.port.rooms, here.port.epoch = {"board": (9, 9), "second": (3, 3)}, 8
        assert await found.look() and here.store.get("board").epoch == 7
        assert await found.look() and here.store.get("board").epoch == 8
        assert here.store.get("second").document == 3
        assert len(here.store.older("board")) == len(here.store.older("second")) == 1


@shows
async def an_open_port_without_rooms_is_opened_at_each_look():
    with play() as here, finding(here) as found:
        for _ in range(3):
            here.port.is_open = False
            assert await found.look() and here.port.is_open


@shows
async def rooms_that_are_not_chosen_are_left_alone():
    with play() as here, finding(here) as found:
        found._chosen = Chosen(["board"], [])
        here.port.rooms = {"board": (4, OTHER), "other": (4, OTHER)}
        assert await found.look()
        assert [it.room for it in here.store.list()] == ["board"]


if __name__ == "__main__":
    main()
