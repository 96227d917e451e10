"""Texts that somebody writes, by real keys: each is in the document, or is offered beside what
stands there."""

import contextlib

from board import LISTS, WORD, card, new_card
from both import in_both
from support.patience import becomes
from support.proxy import Proxy
from support.room import Room
from whiteboard import TEXTS
from window import ALT, CTRL, element, same, text_of

LISTED = {"todo": ["Buy milk"], "doing": [], "done": [], "away": [], "here": {}}
NOTE = {"kind": "note", "at": {"x": 400, "y": 100}, "text": ""}
FORM = {name: {"text": "", "by": ""} for name in ("place", "time", "guests", "notes")}
OPEN = {"board": "connected", "whiteboard": "connected", "form": "saved as you go"}
OFFERED = "[...document.querySelectorAll('#offers span')].map((each) => each.textContent)"
FOCUSED = "document.activeElement.closest('li')?.querySelector('.text')?.textContent ?? null"
WRITTEN = """((input) => input.matches('li input') && [
  input.closest('section').querySelector('.name').textContent, input.value
])(document.activeElement)"""
CHANGED = "Meanwhile somebody changed that card, or put it away."
# Seconds by which an edit of a page comes late, so that somebody else is faster.
LATE = 0.8


async def opened(place, page, room, document, **more):
    """A page in a room that has this document, when it is connected."""
    await Room(place.relay, place.room(room)).set(document)
    window = await place.window(page, place.room(room), **more)
    await window.until(text_of("#state"), OPEN[page])
    return window


@contextlib.asynccontextmanager
async def slow(place, page, room, document):
    """The same with a line on which each edit is late, and the room for whoever is faster."""
    proxy = Proxy(place.relay.port, late=lambda: LATE)
    window = await opened(place, page, room, document, port=await proxy.begin())
    yield window, Room(place.relay, place.room(room))
    await window.leave()
    await proxy.end()


async def choose(window, words):
    """Presses the button of an offer with these words."""
    named = f"(each) => each.textContent === '{words}'"
    await window.evaluate(f"[...document.querySelectorAll('#offers button')].find({named}).click()")


async def fill(window, text):
    """Types a text into the first field, and leaves it."""
    await window.focus("input")
    await window.type(text)
    await window.key("Tab")


@in_both
async def what_is_typed_in_a_card_is_its_text(place):
    board = await opened(place, "board", "typed", LISTED)
    await board.click(card(1, 1, ".text"))
    await board.keys(" and bread")
    same(await board.evaluate(f"{element('li input')}.value"), "Buy milk and bread")
    await place.picture(board, f"board-typed-{place.name}")
    await board.key("Enter")
    await board.until(LISTS, [["Buy milk and bread"], [], []])
    await board.enter(new_card(2), "Paint the door")
    await board.until(LISTS, [["Buy milk and bread"], ["Paint the door"], []])
    # A key opens it as well, and Escape leaves it as it was.
    await board.focus(card(1, 1))
    await board.key("Enter")
    await board.type("Nothing")
    await board.key("Escape")
    await board.until(LISTS, [["Buy milk and bread"], ["Paint the door"], []])
    await board.leave()


@in_both
async def undo_by_keys_is_the_boards_in_an_input_in_which_nothing_was_written(place):
    board = await opened(place, "board", "keys", LISTED)
    await board.enter(new_card(1), "Bread")
    await board.until(LISTS, [["Buy milk", "Bread"], [], []])
    await board.until("board.pending", 0)
    # What was typed and taken away again is the browser's.
    await board.key("x")
    await board.key("a", CTRL)
    await board.key("Delete")
    same(await board.evaluate(f"{element(new_card(1))}.value"), "")
    await board.key("z", CTRL)
    same(await board.evaluate("board.undoable"), 1)
    await board.focus(new_card(2))
    await board.key("z", CTRL)
    await board.until(LISTS, [["Buy milk"], [], []])
    await board.leave()


@in_both
async def undo_brings_back_a_card_that_was_put_away(place):
    document = {**LISTED, "todo": ["Buy milk", "Paint", "Sweep"], "away": ["Old"]}
    board = await opened(place, "board", "away", document)
    room, undo = Room(place.relay, place.room("away")), f"{element('#undo')}.disabled"
    same(await board.evaluate(undo), True)
    await board.click(card(1, 2, ".on"))
    await board.until(LISTS, [["Buy milk", "Sweep"], ["Paint"], []])
    await board.click(card(1, 1, ".off"))
    await board.until(LISTS, [["Sweep"], ["Paint"], []])
    await board.until(text_of("#away"), "2 put away")
    # Somebody else puts one away behind it.
    await room.edit({"op": "add", "path": "/away/-", "value": "Theirs"})
    await board.until(text_of("#away"), "3 put away")
    await board.click("#undo")
    await board.until(LISTS, [["Buy milk", "Sweep"], ["Paint"], []])
    await becomes(room.document, lambda seen: seen["away"] == ["Old", "Theirs"])
    await board.key("z", CTRL)
    await board.until(LISTS, [["Buy milk", "Paint", "Sweep"], [], []])
    await board.until(undo, True)
    # What was done since is undone first.
    await board.click(card(1, 3, ".off"))
    await board.until(LISTS, [["Buy milk", "Paint"], [], []])
    await board.click(card(1, 1, ".on"))
    await board.until(LISTS, [["Paint"], ["Buy milk"], []])
    await board.key("z", CTRL)
    await board.until(LISTS, [["Buy milk", "Paint"], [], []])
    await board.key("z", CTRL)
    await board.until(LISTS, [["Buy milk", "Paint", "Sweep"], [], []])
    same(await board.evaluate(WORD), None)
    await board.click(card(1, 3, ".off"))
    await board.until(text_of("#away"), "3 put away")
    # Somebody else brings one back from in front of it.
    await room.edit({"op": "remove", "path": "/away/0"})
    await board.until(text_of("#away"), "2 put away")
    await board.key("z", CTRL)
    await board.until(LISTS, [["Buy milk", "Paint", "Sweep"], [], []])
    same(await board.evaluate(WORD), None)
    await board.click(card(1, 3, ".off"))
    await board.until(text_of("#away"), "2 put away")
    await room.set([], "/away")
    await board.click("#undo")
    await board.until(WORD, "The card that was put away is not where it was left.")
    same(await board.evaluate(LISTS), [["Buy milk", "Paint"], [], []])
    await board.leave()


@in_both
async def a_card_keeps_the_focus_and_one_that_is_put_away_hands_it_on(place):
    board = await opened(place, "board", "held", {**LISTED, "todo": ["Buy milk", "Paint", "Sweep"]})
    await board.focus(card(1, 2))
    for key, text in (("Enter", "Paint it"), ("Escape", "Paint it")):
        await board.key("Enter")
        await board.type("Paint it" if key == "Enter" else "Nothing")
        await board.key(key)
        await board.until(LISTS, [["Buy milk", text, "Sweep"], [], []])
        await board.until("board.pending", 0)
        same(await board.evaluate(FOCUSED), text)
    await board.key("Delete")
    await board.until(FOCUSED, "Sweep")
    await board.key("Delete")
    await board.until(FOCUSED, "Buy milk")
    await board.key("ArrowRight", ALT)
    await board.until(LISTS, [[], ["Buy milk"], []])
    same(await board.evaluate(FOCUSED), "Buy milk")
    await board.key("Delete")
    await board.until("document.activeElement.getAttribute('aria-label')", "Add a card to Doing")
    await board.until("board.pending", 0)
    await board.leave()


@in_both
async def a_board_is_drawn_while_somebody_types_in_a_card(place):
    ann = await opened(place, "board", "drawn", {**LISTED, "todo": ["Buy milk", "Paint"]})
    bob = await place.window("board", place.room("drawn"), "Bob", width=400)
    await bob.until(LISTS, [["Buy milk", "Paint"], [], []])
    await ann.click(card(1, 1, ".text"))
    await ann.keys(" and bread")
    for _ in range(len("bread")):
        await ann.key("ArrowLeft")
    await bob.enter(new_card(1), "Sweep")
    await bob.click(card(1, 2, ".on"))
    # The card that is written is an input, so its text is in no list.
    await ann.until(LISTS, [["Sweep"], ["Paint"], []])
    same(await ann.evaluate(WRITTEN), ["To do", "Buy milk and bread"])
    await place.picture(ann, f"board-drawn-{place.name}")
    await bob.click(card(1, 1, ".on"))
    await ann.until(WRITTEN, ["Doing", "Buy milk and bread"])
    await ann.keys("rye ")
    same(await ann.evaluate(WRITTEN), ["Doing", "Buy milk and rye bread"])
    await ann.key("Enter")
    for window in (ann, bob):
        await window.until(LISTS, [["Sweep"], ["Paint", "Buy milk and rye bread"], []])
        await window.leave()


@in_both
async def what_is_typed_in_a_card_that_is_gone_is_offered(place):
    ann = await opened(place, "board", "gone", LISTED)
    bob = await place.window("board", place.room("gone"), "Bob", width=400)
    await bob.until(LISTS, [["Buy milk"], [], []])
    await ann.click(card(1, 1, ".text"))
    await ann.type("Ours")
    await bob.click(card(1, 1, ".text"))
    await bob.type("Theirs")
    await bob.key("Enter")
    await ann.until(LISTS, [["Theirs"], [], []])
    same(await ann.evaluate(WRITTEN), ["To do", "Ours"])
    await place.picture(ann, f"board-gone-{place.name}")
    await ann.key("Enter")
    await ann.until(OFFERED, ["Meanwhile somebody wrote “Theirs”. You wrote “Ours”."])
    await choose(ann, "Keep both")
    await ann.until(LISTS, [["Theirs", "Ours"], [], []])
    await ann.click(card(1, 1, ".text"))
    await ann.keys(" as well")
    await bob.click(card(1, 1, ".off"))
    await ann.until(LISTS, [["Ours"], [], []])
    same(await ann.evaluate(WRITTEN), ["To do", "Theirs as well"])
    await ann.key("Enter")
    await ann.until(OFFERED, [f"{CHANGED} You wrote “Theirs as well”."])
    same(await ann.evaluate(FOCUSED), "Ours")
    await choose(ann, "Let it go")
    for window in (ann, bob):
        await window.until(LISTS, [["Ours"], [], []])
        await window.leave()


@in_both
async def an_input_in_which_nothing_was_typed_goes_with_its_card_and_with_its_window(place):
    ann = await opened(place, "board", "nothing", {**LISTED, "todo": ["Buy milk", "Paint"]})
    room = Room(place.relay, place.room("nothing"))
    await ann.click(card(1, 1, ".text"))
    await room.edit({"op": "add", "path": "/todo/0", "value": "Sweep"})
    await ann.until(LISTS, [["Sweep", "Paint"], [], []])
    same(await ann.evaluate(WRITTEN), ["To do", "Buy milk"])
    await room.edit({"op": "remove", "path": "/todo/1"})
    await ann.until(WORD, CHANGED)
    same(await ann.evaluate(LISTS), [["Sweep", "Paint"], [], []])
    same(await ann.evaluate(FOCUSED), "Paint")
    bob = await place.window("board", place.room("nothing"), "Bob", width=400)
    await ann.click(card(1, 1, ".text"))
    same(await ann.evaluate(WRITTEN), ["To do", "Sweep"])
    await ann.lose_focus(bob)
    await ann.until(LISTS, [["Sweep", "Paint"], [], []])
    await ann.click(card(1, 1, ".text"))
    await ann.keys("!")
    await ann.lose_focus(bob)
    await place.picture(bob, f"board-other-{place.name}")
    same(await ann.evaluate(WRITTEN), ["To do", "Sweep!"])
    await ann.key("Enter")
    for window in (ann, bob):
        await window.until(LISTS, [["Sweep!", "Paint"], [], []])
        await window.leave()


@in_both
async def what_is_typed_on_a_note_is_its_text(place):
    white = await opened(place, "whiteboard", "note", {"shapes": {"a": NOTE}})
    await white.focus(".shape")
    await white.key("Enter")
    await white.keys("Bring the ladder")
    same(await white.evaluate(f"{element('textarea')}.value"), "Bring the ladder")
    await place.picture(white, f"whiteboard-typed-{place.name}")
    await white.key("Escape")
    await white.until(TEXTS, ["Bring the ladder"])
    same(await white.evaluate("document.activeElement.className"), "shape")
    await white.leave()


async def typed_late(window, text):
    """Types into what has the focus, and waits until that was sent."""
    await window.type(text)
    await window.until("board.pending > 0", True)


@in_both
async def a_field_that_two_people_write_offers_both_texts(place):
    async with slow(place, "form", "field", FORM) as (bob, room):
        value, note = f"{element('input')}.value", text_of(".note")
        for choice, kept in (("Keep yours", "The roof"), ("take theirs", "The hall")):
            await room.set({"text": "The yard", "by": "Ann"}, "/place")
            await bob.until(value, "The yard")
            await bob.focus("input")
            await typed_late(bob, "The roof")
            await room.set({"text": "The hall", "by": "Ann"}, "/place")
            await bob.until(note, "Meanwhile Ann wrote “The hall”. Keep yours or take theirs")
            same(await bob.evaluate(value), "The roof")
            await place.picture(bob, f"form-conflict-{place.name}")
            await bob.press(f".note button:nth-of-type({1 if choice == 'Keep yours' else 2})")
            await becomes(room.document, lambda seen: seen["place"]["text"] == kept)
            await bob.until("board.pending", 0)
            await bob.until(value, kept)


@in_both
async def a_note_that_two_people_write_offers_both_texts(place):
    async with slow(place, "whiteboard", "notes", {"shapes": {"a": NOTE}}) as (bob, room):
        texts = {"Keep yours": ["Ours"], "Keep both": ["Theirs", "Ours"], "Take theirs": ["Theirs"]}
        for choice, kept in texts.items():
            await room.set({"shapes": {"a": NOTE}})
            await bob.until(TEXTS, [""])
            await bob.focus(".shape")
            await bob.key("Enter")
            await typed_late(bob, "Ours")
            await room.set("Theirs", "/shapes/a/text")
            await bob.until(OFFERED, ["Meanwhile somebody wrote “Theirs”. You wrote “Ours”."])
            await bob.key("Escape")
            same(await bob.evaluate(TEXTS), ["Theirs"])
            await place.picture(bob, f"whiteboard-conflict-{place.name}")
            await choose(bob, choice)
            await becomes(room.document, lambda seen: sorted(texts_in(seen)) == sorted(kept))
            same(await bob.evaluate(OFFERED), [])


def texts_in(document):
    return [shape["text"] for shape in document["shapes"].values()]


@in_both
async def a_text_of_a_note_that_somebody_deleted_is_offered_again(place):
    async with slow(place, "whiteboard", "deleted", {"shapes": {"a": NOTE}}) as (bob, room):
        await bob.until(TEXTS, [""])
        await bob.focus(".shape")
        await bob.key("Enter")
        await typed_late(bob, "Ours")
        await room.set({}, "/shapes")
        await bob.until(OFFERED, ["That note is gone. You wrote “Ours”."])
        await choose(bob, "Put it on a new note")
        await becomes(room.document, lambda seen: texts_in(seen) == ["Ours"])


@in_both
async def whoever_writes_a_note_is_told_that_somebody_deleted_it(place):
    async with slow(place, "whiteboard", "saved", {"shapes": {"a": NOTE}}) as (bob, room):
        await bob.until(TEXTS, [""])
        await bob.focus(".shape")
        await bob.key("Enter")
        await bob.type("Ours")
        await becomes(room.document, lambda seen: texts_in(seen) == ["Ours"])
        await bob.until("board.pending", 0)
        await room.set({}, "/shapes")
        await bob.until(OFFERED, ["That note is gone. You wrote “Ours”."])
        await choose(bob, "Put it on a new note")
        await becomes(room.document, lambda seen: texts_in(seen) == ["Ours"])


@in_both
async def a_text_of_a_card_that_somebody_moved_is_saved_there(place):
    async with slow(place, "board", "moved", LISTED) as (bob, room):
        await bob.click(card(1, 1, ".text"))
        await bob.type("Buy oat milk")
        await bob.key("Enter")
        await room.edit({"op": "move", "from": "/todo/0", "path": "/done/0"})
        await bob.until("board.pending", 0)
        await bob.until(LISTS, [[], [], ["Buy oat milk"]])
        same(await bob.evaluate(WORD), None)
        await becomes(room.document, lambda seen: seen["done"] == ["Buy oat milk"])


@in_both
async def a_card_that_two_people_write_offers_both_texts(place):
    async with slow(place, "board", "both", LISTED) as (bob, room):
        texts = {"Keep yours": ["Ours"], "Keep both": ["Theirs", "Ours"], "Take theirs": ["Theirs"]}
        for choice, kept in texts.items():
            await room.set(LISTED)
            await bob.until(LISTS, [["Buy milk"], [], []])
            await bob.click(card(1, 1, ".text"))
            await bob.type("Ours")
            await bob.key("Enter")
            await room.edit({"op": "replace", "path": "/todo/0", "value": "Theirs"})
            await bob.until(OFFERED, ["Meanwhile somebody wrote “Theirs”. You wrote “Ours”."])
            same(await bob.evaluate(LISTS), [["Theirs"], [], []])
            await place.picture(bob, f"board-conflict-{place.name}")
            await choose(bob, choice)
            await becomes(room.document, lambda seen: seen["todo"] == kept)
            same(await bob.evaluate(OFFERED), [])


@in_both
async def a_text_of_a_card_that_is_gone_is_offered_again(place):
    async with slow(place, "board", "gone", LISTED) as (bob, room):
        await bob.click(card(1, 1, ".text"))
        await bob.type("Ours")
        await bob.key("Enter")
        await room.edit({"op": "move", "from": "/todo/0", "path": "/away/0"})
        why = "Meanwhile somebody changed that card, or put it away."
        await bob.until(OFFERED, [f"{why} You wrote “Ours”."])
        await choose(bob, "Add it as a card")
        await becomes(room.document, lambda seen: seen["todo"] == ["Ours"])
        same(await bob.evaluate(OFFERED), [])


@in_both
async def a_card_that_could_not_be_added_is_offered_again(place):
    async with slow(place, "board", "added", LISTED) as (bob, room):
        await bob.enter(new_card(1), "Ours")
        await room.set({"todo": 5, "doing": 5})
        await bob.until(
            OFFERED, ["Not done: the document has no place for that. You wrote “Ours”."]
        )
        await room.set(LISTED)
        await bob.until(LISTS, [["Buy milk"], [], []])
        await choose(bob, "Add it as a card")
        await becomes(room.document, lambda seen: seen["todo"] == ["Buy milk", "Ours"])
