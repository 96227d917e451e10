"""Texts that outlive the page and the relay."""

from board import LISTS, card, new_card
from both import in_both
from support.patience import becomes
from support.ports import free_port
from support.relay import Relay
from support.room import Room
from whiteboard import TEXTS
from window import address_of, element, same, text_of
from written import (
    CHANGED,
    FORM,
    LISTED,
    NOTE,
    OFFERED,
    OPEN,
    choose,
    fill,
    opened,
    slow,
    typed_late,
)

VALUE = f"{element('input')}.value"
LISTED_FORM = {**FORM, "place": {"text": "The yard", "by": "Ann"}}
ANEW = "The relay was started anew, and has not kept the document: "


@in_both
async def a_field_is_saved_while_somebody_still_writes(place):
    form = await opened(place, "form", "while", FORM)
    await form.focus("input")
    await form.keys("The roof")
    room = Room(place.relay, place.room("while"))
    await becomes(room.document, lambda seen: seen["place"] == {"text": "The roof", "by": "Ann"})
    same(await form.evaluate("document.activeElement.localName"), "input")
    await form.keys(" garden")
    await becomes(room.document, lambda seen: seen["place"]["text"] == "The roof garden")
    await form.leave()


@in_both
async def what_is_typed_when_one_navigates_away_is_saved(place):
    """In a field, in a card and on a note, with no pause and no other key."""
    room = Room(place.relay, place.room("leave"))
    await room.set({**FORM, **LISTED, "shapes": {"a": NOTE}})
    nowhere = address_of("form", port=place.relay.port, room=place.room("nowhere"))
    window = await place.window("form", place.room("leave"))
    await window.until(text_of("#state"), OPEN["form"])
    await window.focus("input")
    await window.keys("The roof")
    await window.visit(nowhere)
    await becomes(room.document, lambda seen: seen["place"]["text"] == "The roof")
    await window.visit(address_of("board", port=place.relay.port, room=place.room("leave")))
    await window.until(LISTS, [["Buy milk"], [], []])
    await window.click(card(1, 1, ".text"))
    await window.keys(" and bread")
    await window.visit(nowhere)
    await becomes(room.document, lambda seen: seen["todo"] == ["Buy milk and bread"])
    await window.visit(address_of("whiteboard", port=place.relay.port, room=place.room("leave")))
    await window.until(TEXTS, [""])
    await window.focus(".shape")
    await window.key("Enter")
    await window.keys("Bring the ladder")
    await window.visit(nowhere)
    written = lambda seen: seen["shapes"]["a"]["text"] == "Bring the ladder"
    await becomes(room.document, written)
    await window.leave()


@in_both
async def a_new_card_that_is_not_entered_is_there_again(place):
    board = await opened(place, "board", "again", LISTED)
    await board.focus(new_card(2))
    await board.keys("Paint")
    await board.again()
    await board.until(f"{element(new_card(2))}?.value", "Paint")
    await board.focus(new_card(2))
    await board.key("Enter")
    await board.until(LISTS, [["Buy milk"], ["Paint"], []])
    await board.until("board.pending", 0)
    await board.again()
    await board.until(LISTS, [["Buy milk"], ["Paint"], []])
    same(await board.evaluate(f"{element(new_card(2))}.value"), "")
    await board.leave()


@in_both
async def a_question_about_a_card_is_asked_again_after_a_reload(place):
    board = await opened(place, "board", "card-asked", LISTED)
    room = Room(place.relay, place.room("card-asked"))
    await board.click(card(1, 1, ".text"))
    await board.type("Ours")
    await room.edit({"op": "move", "from": "/todo/0", "path": "/away/0"})
    await board.key("Enter")
    await board.until(OFFERED, [f"{CHANGED} You wrote “Ours”."])
    # The card is there again, as it was seen.
    await room.edit({"op": "move", "from": "/away/0", "path": "/todo/0"})
    await board.until(LISTS, [["Buy milk"], [], []])
    for _ in range(2):
        await board.again()
        await board.until(OFFERED, ["Meanwhile somebody wrote “Buy milk”. You wrote “Ours”."])
        await board.until("board.pending", 0)
        same(await board.evaluate(LISTS), [["Buy milk"], [], []])
    await choose(board, "Keep yours")
    await board.until(LISTS, [["Ours"], [], []])
    await board.until("board.pending", 0)
    await board.again()
    await board.until(LISTS, [["Ours"], [], []])
    same(await board.evaluate(OFFERED), [])
    await board.leave()


@in_both
async def so_is_one_about_a_field(place):
    yard = {"text": "The yard", "by": "Ann"}
    async with slow(place, "form", "field-asked", {**FORM, "place": yard}) as (form, room):
        await form.focus("input")
        await typed_late(form, "The roof")
        await room.set({"text": "The hall", "by": "Ann"}, "/place")
        words = "Meanwhile Ann wrote “{}”. Keep yours or take theirs"
        await form.until(text_of(".note"), words.format("The hall"))
        await room.set(yard, "/place")
        await form.until(text_of(".note"), words.format("The yard"))
        await form.again()
        await form.until("document.querySelector('.note')?.textContent", words.format("The yard"))
        same(await form.evaluate(VALUE), "The roof")
        await form.until("board.pending", 0)
        same((await room.document())["place"], yard)
        await form.press(".note button")
        await becomes(room.document, lambda seen: seen["place"]["text"] == "The roof")


@in_both
async def so_is_one_about_a_note(place):
    async with slow(place, "whiteboard", "note-asked", {"shapes": {"a": NOTE}}) as (white, room):
        await white.until(TEXTS, [""])
        await white.focus(".shape")
        await white.key("Enter")
        await typed_late(white, "Ours")
        await room.set({}, "/shapes")
        await white.until(OFFERED, ["That note is gone. You wrote “Ours”."])
        await room.set({"a": NOTE}, "/shapes")
        again = ["Meanwhile somebody wrote “”. You wrote “Ours”."]
        await white.until(OFFERED, again)
        await white.again()
        await white.until(OFFERED, again)
        await white.until("board.pending", 0)
        same(await white.evaluate(TEXTS), [""])
        await choose(white, "Keep yours")
        await becomes(room.document, lambda seen: seen["shapes"]["a"]["text"] == "Ours")


class Restarts:
    """A relay of one's own, and a page in its room."""

    def __init__(self, place, page, document):
        self.place, self.page, self.document = place, page, document
        self.port, self.run = free_port(), 0

    def begin(self):
        self.run += 1
        self.relay = Relay(port=self.port, epoch=self.run)
        self.room = Room(self.relay, "kept")

    async def __aenter__(self):
        self.begin()
        await self.room.set(self.document)
        where = {"port": self.port, "room": "kept", "name": "Ann"}
        self.window = await self.place.kind.of(self.place.browser, self.page, **where)
        await self.window.until(text_of("#state"), OPEN[self.page])
        return self, self.window

    async def __aexit__(self, *_):
        try:
            await self.window.leave()
        finally:
            self.relay.end()

    async def away(self):
        self.relay.end()
        await self.window.until("board.state !== 'open'", True)


@in_both
async def what_is_typed_while_the_relay_is_away_outlives_the_page(place):
    async with Restarts(place, "form", LISTED_FORM) as (relay, form):
        await relay.away()
        await fill(form, "The roof")
        await form.again()
        relay.begin()
        # Somebody else was here first.
        await relay.room.set({**FORM, "place": {"text": "The hall", "by": "Bob"}})
        words = "Meanwhile Bob wrote “The hall”. Keep yours or take theirs"
        await form.until(f"document.querySelector('.note')?.textContent", words)
        same(await form.evaluate(VALUE), "The roof")
        await form.press(".note button")
        await becomes(relay.room.document, lambda seen: seen["place"]["text"] == "The roof")
        await form.again()
        await form.until(VALUE, "The roof")
        same(await form.evaluate(text_of(".note")), "by Ann")


@in_both
async def a_card_that_is_written_while_the_relay_is_away_outlives_the_page(place):
    async with Restarts(place, "board", LISTED) as (relay, board):
        await relay.away()
        await board.enter(card(1, 1, ".text"), "Ours")
        await board.enter(new_card(2), "New")
        await board.again()
        relay.begin()
        gone = "Meanwhile somebody changed that card, or put it away. You wrote “Ours”."
        saved = "A card of yours may not have been saved. You wrote “New”."
        await board.until(f"{OFFERED}.sort()", [saved, gone])
        for _ in range(2):
            await choose(board, "Add it as a card")
        await becomes(relay.room.document, lambda seen: (seen or {}).get("doing") == ["New"])
        await becomes(relay.room.document, lambda seen: seen["todo"] == ["Ours"])
        await board.until("board.pending", 0)
        await board.again()
        await board.until(LISTS, [["Ours"], ["New"], []])
        same(await board.evaluate(OFFERED), [])


@in_both
async def no_card_moves_when_the_connection_is_lost(place):
    async with Restarts(place, "board", LISTED) as (relay, board):
        for width in (1400, 400):
            await board.have(width, 800)
            tops = f"{element(card(1, 1))}.getBoundingClientRect().top"
            top = await board.evaluate(tops)
            await relay.away()
            silent = f"nothing answers at ws://127.0.0.1:{relay.port}/rooms/kept: start the relay"
            await board.until(f"{text_of('#state')}.startsWith('{silent}')", True)
            await place.picture(board, f"board-away-{width}-{place.name}")
            same(await board.evaluate(tops), top)
            same(await board.evaluate(f"{element('#state')}.title === {text_of('#state')}"), True)
            relay.begin()
            await relay.room.set(LISTED)
            await board.until(text_of("#state"), "connected")


GONE = {
    "board": ({**LISTED, "done": ["a", "b"]}, "3 cards are gone."),
    "whiteboard": ({"shapes": {"a": {**NOTE, "text": "Ours"}}}, "a shape is gone."),
    "form": (LISTED_FORM, "a field is empty now."),
}


@in_both
async def what_a_restart_took_away_is_told_and_put_back(place):
    for page, (document, words) in GONE.items():
        async with Restarts(place, page, document) as (relay, window):
            for choice in ("Let go", "Put back"):
                if choice == "Put back":
                    await relay.room.set(document)
                    await window.until("board.pending", 0)
                await relay.away()
                relay.begin()
                await window.until(OFFERED, [ANEW + words])
                await place.picture(window, f"{page}-restart-{place.name}")
                await choose(window, choice)
                await window.until(OFFERED, [])
            shown = {name: value for name, value in document.items() if name != "here"}
            await becomes(relay.room.document, lambda seen: shown.items() <= (seen or {}).items())
            await relay.room.edit()
            same(await window.evaluate(OFFERED), [])


@in_both
async def cards_that_were_put_away_are_told_to_be_gone_for_good(place):
    async with Restarts(place, "board", {**LISTED, "away": ["a"]}) as (relay, window):
        await relay.away()
        relay.begin()
        away = "a card that was put away is gone for good."
        await window.until(OFFERED, [f"{ANEW}a card is gone, and {away}"])
        await choose(window, "Put back")
        await window.until(OFFERED, [ANEW + away])
        await choose(window, "Let go")
        await window.until(OFFERED, [])


@in_both
async def what_two_restarts_took_away_is_put_back_together(place):
    first, second = {**LISTED, "done": ["a"]}, {"todo": [], "doing": ["b"], "done": []}
    async with Restarts(place, "board", first) as (relay, window):
        for document, words in ((second, "2 cards are gone."), (None, "3 cards are gone.")):
            await relay.away()
            relay.begin()
            await window.until(OFFERED, [ANEW + words])
            if document:
                await relay.room.set(document)
                await window.until(LISTS, [[], ["b"], []])
        await choose(window, "Put back")
        await window.until(OFFERED, [])
        await window.until(LISTS, [["Buy milk"], ["b"], ["a"]])
