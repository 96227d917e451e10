"""The form and the lobby; and of each page what it does beside a client that writes other shapes,
when an edit is refused, and over a restart."""

import tempfile
import urllib.parse

from board import LISTS, PEOPLE, WORD, card, new_card
from support.patience import becomes
from support.play import shows
from support.ports import free_port
from support.relay import Relay
from support.room import Room
from tutorial import tutorial_in
from whiteboard import SEEN
from window import SEATS, Window, element, text_of
from written import fill

VALUE = f"{element('input')}.value"
NOTE = text_of(".note")
OPEN = "document.readyState === 'complete' && board.state"
WORD_SHOWN = text_of("#word")
CONFIRMED = "JSON.stringify(board.confirmed[0])"
HALL = '[{"by":"Ann","text":"The hall"}]'


@shows
async def a_field_that_somebody_writes_is_shown_with_their_name(place):
    ann, bob = await place.two("form", late=True)
    for window in (ann, bob):
        await window.until(text_of("#state"), "saved as you go")
    # Who writes again before the relay has heard of the first text meets no conflict.
    for text in ("The garden", "The yard"):
        await fill(ann, text)
    await bob.until(VALUE, "The yard")
    await bob.until(NOTE, "by Ann")
    await ann.leave()
    await bob.leave()


@shows
async def a_lobby_shows_how_many_sit_at_each_table_and_who_is_here(place):
    ann, bob = await place.two("lobby")
    people, first = f"{text_of('#people')}.slice(0, 6)", text_of("#tables p")
    for window in (ann, bob):
        await window.until(people, "2 here")
    for window, sits in ((ann, 1), (bob, 2)):
        await window.press("#tables button")
        for other in (ann, bob):
            await other.until(first, f"{sits} of 2 players")
    await ann.until(text_of("#tables button"), "Leave")
    await both_play_a_match(place, ann, bob)
    await ann.press("#tables button")
    await bob.until(first, "1 of 2 players")
    await bob.until(text_of("#match h2"), "north: Bob")
    await ann.leave()
    await bob.until(people, "1 here")
    await bob.leave()
    # Who closes the window leaves the table, and the last one ends the match.
    await becomes(Room(place.relay, "lobby-north").document, lambda document: document is None)
    lobby = await Room(place.relay, "lobby").document()
    assert lobby["tables"]["north"]["players"] == {}, lobby


@shows
async def a_tab_that_is_killed_is_gone_from_the_lobby_its_seat_and_its_match(place):
    ann, bob = await place.two("lobby")
    for window in (ann, bob):
        await window.until(f"{text_of('#people')}.slice(0, 6)", "2 here")
        await window.press("#tables button")
    await bob.until(f"{text_of('#match h2')}.length", len("north: Ann, Bob"))
    await ann.kill()
    await bob.until(text_of("#people"), "1 here: Bob")
    await bob.until(text_of("#tables p"), "1 of 2 players")
    await bob.until(text_of("#match h2"), "north: Bob")
    await bob.leave()


async def both_play_a_match(place, ann, bob):
    for window in (ann, bob):
        await window.until(f"{text_of('#match h2')}.length", len("north: Ann, Bob"))
    await ann.press("#match button")
    await bob.until(f"{text_of('#match p')}.slice(0, 13)", "Ann rolled a ")
    await place.picture(ann, "lobby")


# What anyone may write to where a page has a list, an object or a text.
SHAPES = [None, 5, "text", [None, 3, {"a": 1}, "card"]]
SHAPES += [{"x": None, "y": 1, "z": [], "v": {"name": 7, "text": [], "by": {}}}]
PAGES = {
    "board": ["", "/todo", "/doing", "/away", "/here"],
    "form": ["", "/place", "/notes"],
    "lobby": ["", "/here", "/tables", "/tables/north", "/tables/north/players"],
    "whiteboard": ["", "/shapes", "/shapes/a"],
}
PROPER = {
    "board": {"todo": ["milk", None, 5], "doing": 7, "done": [], "away": [], "here": None},
    "form": {
        "place": {"text": "The hall", "by": "Bob"},
        "time": None,
        "guests": 5,
        "notes": {"text": [], "by": {}},
    },
    "lobby": {"here": 5, "tables": {"north": {"players": {"a": 1}}, "east": None}},
    "whiteboard": {
        "shapes": {
            "a": {"kind": "note", "at": {"x": 20, "y": 30}, "text": "milk"},
            "b": None,
            "c": {"kind": 5, "at": {"x": "7", "y": -3}, "text": ["bread"]},
        }
    },
}
FIELDS = "[...document.querySelectorAll('input, textarea')].map(({ value }) => value).join()"
TEXTS = "['#people', '#tables p'].map((each) => document.querySelector(each).textContent).join()"
SHOWN = {
    "board": (f"JSON.stringify([{LISTS}, {PEOPLE}])", '[[["milk","",""],[],[]],1]'),
    "form": (FIELDS, "The hall,,,"),
    "lobby": (TEXTS, "1 here: Ann,1 of 2 players"),
    "whiteboard": (f"{SEEN}.join()", "note 20 30,rectangle 0 0,rectangle 0 0"),
}


@shows
async def a_page_goes_on_beside_a_client_that_writes_other_shapes(place):
    for name, pointers in PAGES.items():
        room = Room(place.relay, f"shapes-{name}")
        address = urllib.parse.quote(room.url, safe="")
        page = await Window.of(place.browser, name, url=address, name="Ann")
        await page.until(OPEN, "open")
        begun = {"op": "add", "path": "", "value": await room.document()}
        for pointer in pointers:
            for shape in SHAPES:
                await room.edit(begun, {"op": "add", "path": pointer, "value": shape})
        # It still shows what is written, and its presence takes the place of what is no object.
        await room.set(PROPER[name])
        await page.until(*SHOWN[name])
        await page.leave()


@shows
async def a_card_a_text_or_a_shape_takes_the_place_of_something_else(place):
    lists = {"todo": 5, "doing": [None], "done": [], "away": [], "here": {}}
    await Room(place.relay, "mend-board").set(lists)
    await Room(place.relay, "mend-form").set({"place": None})
    page = await place.window("board", "mend-board", height=560)
    await page.until(text_of("#state"), "connected")
    await page.enter(new_card(1), "milk")
    await page.until(LISTS, [["milk"], [""], []])
    await page.click(card(2, 1, ".off"))
    await page.until(LISTS, [["milk"], [], []])
    await page.leave()
    form = await place.window("form", "mend-form")
    await form.until(f"{element('input')}.disabled", False)
    await fill(form, "The hall")
    await form.until(CONFIRMED, HALL)
    await form.leave()
    await Room(place.relay, "mend-whiteboard").set({"shapes": 5})
    white = await place.window("whiteboard", "mend-whiteboard")
    await white.until(text_of("#state"), "connected")
    await white.press("[data-kind='ellipse']")
    await white.until("document.querySelector('.shape')?.dataset.kind", "ellipse")
    await white.leave()


@shows
async def a_refused_edit_is_told(place):
    """And is no unhandled rejection."""
    await Room(place.relay, "full").set({"here": {}, "tables": {"north": {"free": {}}}})
    lobby = await place.window("lobby", "full")
    await lobby.until(f"{SEATS}.length", 4)
    await lobby.press("#tables button")
    await lobby.until(WORD, "No seat is free in the north.")
    await lobby.evaluate(f"{SEATS}[1].click()")
    await lobby.until(f"{WORD_SHOWN} !== 'No seat is free in the north.'", True)
    await lobby.leave()
    await Room(place.relay, "flat").set(5)
    form = await place.window("form", "flat")
    await form.until(f"{element('input')}.disabled", False)
    await fill(form, "The hall")
    await form.until(NOTE, "Not done: the document has no place for that.")
    await form.leave()


@shows
async def what_is_typed_while_the_relay_restarts_is_not_lost(place):
    """And who was here is here again."""
    port = free_port()
    with tempfile.TemporaryDirectory() as folder:
        with Relay(port=port, epoch=1) as relay:
            shared, board, form, lobby = pages = await opened(place, folder, port)
            await board.until(PEOPLE, 1)
            await lobby.until(f"{SEATS}.length", 4)
            await lobby.press("#tables button")
            await lobby.until(text_of("#tables button"), "Leave")
            relay.end()
            for page in pages:
                await page.until("board.state !== 'open'", True)
        await shared.submit("milk")
        await board.submit("bread", "form input")
        await fill(form, "The hall")
        with Relay(port=port, epoch=2):
            await shared.until("JSON.stringify(board.confirmed)", '[[["milk"]]]')
            now = f"JSON.stringify([{LISTS}, board.pending, {PEOPLE}])"
            await board.until(now, '[[["bread"],[],[]],0,1]')
            await form.until(CONFIRMED, HALL)
            await lobby.until(text_of("#people"), "1 here: Ann")
            # Nobody sits in the new run.
            await lobby.until(text_of("#tables button"), "Sit down")
            for page in pages:
                await page.leave()


async def opened(place, folder, port):
    """The tutorial's page, and those of examples/."""
    pages = [await Window.open(place.browser, f"file://{tutorial_in(folder)}?port={port}")]
    await pages[0].have(1400, 560)
    for name, room in (("board", "restart"), ("form", "form"), ("lobby", "lobby")):
        words = {"port": port, "room": room, "name": "Ann"}
        pages.append(await Window.of(place.browser, name, height=560, **words))
    for page in pages:
        await page.until(OPEN, "open")
    return pages


@shows
async def a_lost_connection_is_told(place):
    place.relay.end()
    await place.wide.until(f"{text_of('#state')} !== 'connected'", True)
    await place.wide.leave()
