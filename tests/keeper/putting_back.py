"""Tests of how kept documents come back into a relay by its operator's port, which is played
here."""

from keeper import says
from played_port import KEPT, OTHER, play
from relay_keeper.admin import LONGEST, Admin, NoAnswer
from relay_keeper.names import Chosen
from relay_keeper.putting_back import PAUSES, TRIES
from support.play import main, shows

CASES = [
    # what it shows; the kept state as epoch, revision and document; the room as revision and
    # document; then the room's document, what the store says of it, and whether it was left
    ("a room that is not there", (5, 3, KEPT), None, KEPT, (7, 1), False),
    ("of no run", (None, 0, KEPT), None, KEPT, (7, 1), False),
    ("a room that was never edited", (5, 3, KEPT), (0, None), KEPT, (7, 1), False),
    ("one that another client began", (5, 3, KEPT), (2, OTHER), OTHER, (5, 3), True),
    ("one that was ended", (5, 3, KEPT), (2, None), None, (5, 3), True),
    ("one that was put back before", (5, 3, KEPT), (1, KEPT), KEPT, (7, 1), False),
    ("one of this run, which went on", (7, 3, KEPT), (9, OTHER), OTHER, (7, 3), False),
    ("a document of null", (5, 3, None), None, "no room", (5, 3), False),
]


@shows
def each_room_has_the_kept_document_unless_a_client_was_first(_):
    for what, kept, room, has, marked, is_left in CASES:
        with play() as here:
            epoch, revision, document = kept
            here.keep("board", document, epoch, revision)
            here.port.rooms = {"beside": (4, 1), **({"board": room} if room else {})}
            came = here.put_back()
            assert here.has("board") == has and here.has("beside") == 1, (what, here.port.rooms)
            assert came.left == (["board"] if is_left else []), (what, came)
            state = here.store.get("board")
            assert (state.epoch, state.revision, state.document) == (*marked, document), what
            assert not here.port.is_open, what


@shows
def a_room_that_made_place_in_this_run_is_not_put_back(here):
    here.keep("gone", epoch=7)
    here.port.rooms = {"beside": (4, 1)}
    assert here.put_back().put_back == 0 and here.has("gone") == "no room"


@shows
def a_client_that_is_faster_is_not_overwritten(here):
    """It begins the room between the list and the edit, which is guarded by the room's revision,
    or by the document of a room that was not there."""
    for room, before, tag in (("new", None, None), ("old", (0, None), '"7-0"')):
        here.keep(room)
        here.port.asked.clear()
        here.port.rooms = {room: before} if before else {}
        here.port.meanwhile = lambda: here.port.rooms.update({room: (2, OTHER)})
        assert here.put_back(Chosen([room], [])).left == [room] and here.has(room) == OTHER
        patches = [asked for asked in here.port.asked if asked[0] == "PATCH"]
        assert patches == [("PATCH", f"/rooms/{room}", tag)], patches


@shows
def only_chosen_rooms_come_back(here):
    for room in ("board-1", "board-2", "other", "third"):
        here.keep(room)
    assert here.put_back(Chosen(["third"], ["board-*", "x*"])).put_back == 3
    assert sorted(here.port.rooms) == ["board-1", "board-2", "third"]


@shows
def if_there_are_too_few_places_the_newest_documents_come_back(here):
    for number, room in enumerate(("b", "c", "a", "d")):
        here.keep(room, at=number * 1000)
    here.port.rooms, here.port.limit = {"beside": (4, 1)}, 3
    came = here.put_back()
    assert came.left == ["b", "c"] and sorted(here.port.rooms) == ["a", "beside", "d"], came
    order = [path for method, path, _ in here.port.asked if method == "PATCH"]
    assert order == ["/rooms/a", "/rooms/d"], order


@shows
def it_waits_as_long_as_the_relay_asks(here):
    full = (503, {"Retry-After": "3"}, "out of memory\n")
    here.keep("board")
    here.port.first[("PATCH", "/rooms/board")] = [full, full]
    assert here.put_back().left == [] and here.pauses == [3, 3]
    here.keep("never")
    here.port.first[("PATCH", "/rooms/never")] = [full] * TRIES
    assert here.put_back(Chosen(["never"], [])).left == ["never"]
    assert here.pauses == [3] * (2 + TRIES), here.pauses
    for room in ("third", "fourth"):
        here.keep(room)
        here.port.first[("PATCH", f"/rooms/{room}")] = [full] * TRIES
    assert here.put_back(Chosen(["third", "fourth"], [])).left == ["fourth", "third"]
    assert here.pauses == [3] * PAUSES, here.pauses


@shows
def what_the_relay_refuses_is_left(here):
    for room, status in (("heavy", 422), ("wrong", 400), ("long", 413)):
        here.keep(room)
        here.port.first[("PATCH", f"/rooms/{room}")] = [(status, {}, '{"fault":"too-heavy"}')]
    here.keep("longest", "x" * LONGEST)
    here.keep("small")
    came = here.put_back()
    assert came.left == ["heavy", "long", "longest", "wrong"] and came.put_back == 1, came
    assert ("PATCH", "/rooms/longest", None) not in here.port.asked


@shows
def what_is_no_json_in_a_store_is_left(here):
    (here.store._path / "torn.json").write_text('{"torn')
    here.keep("board")
    came = here.put_back()
    assert came.left == ["torn"] and here.has("board") == KEPT, came


@shows
def a_port_that_is_none_of_a_relay_is_named(here):
    for first in ((200, {}, "no JSON"), (200, {}, '{"a":1}'), (200, {}, "[1]"), (500, {}, "")):
        here.port.first[("GET", "/rooms")] = [first]
        try:
            here.admin.rooms()
        except NoAnswer:
            continue
        raise AssertionError(first)
    for url in ("ws://127.0.0.1:9081", "http://", "http://127.0.0.1:9081/rooms"):
        try:
            Admin(url)
        except ValueError as told:
            assert "operator's port" in str(told), told
            continue
        raise AssertionError(url)


@shows
def a_relay_that_knows_no_request_to_open_is_open(here):
    assert here.admin.open() and here.port.is_open
    for status in (404, 405):
        here.port.first[("POST", "/open")] = [(status, {}, "")]
        assert not here.admin.open()


@shows
def the_command_puts_all_back_and_opens_the_relay(here):
    here.keep("board")
    here.keep("other", OTHER)
    words = ("restore", "--store", here.store.where, "--admin", here.url)
    told, status = says(*words)
    assert status == 1 and "a keeper runs on" in told and not here.port.is_open, told
    here.store.close()
    told, status = says(*words, "--match", "b*")
    assert status == 0 and here.port.is_open, told
    assert here.has("board") == KEPT and here.has("other") == "no room"
    here.port.rooms["other"] = (5, KEPT)
    told, status = says(*words)
    assert status == 1 and "2 rooms have" not in told and "not put back: other" in told, told


@shows
def the_command_says_that_nothing_answers(here):
    here.store.close()
    told, status = says("restore", "--store", here.store.where, "--admin", "http://127.0.0.1:1")
    assert status == 1 and "does not answer" in told, told


if __name__ == "__main__":
    main(each=play)
