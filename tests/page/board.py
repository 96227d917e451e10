"""The board, in two windows: these tests go on where the one before ended."""

import asyncio

from support.play import shows
from window import ALT, CTRL, SHIFT, element, middle_of, same, text_of

CARDS = "[...list.querySelectorAll('ol li .text')].map((card) => card.textContent)"
LISTS = f"[...document.querySelectorAll('section')].map((list) => {CARDS})"
PEOPLE = "document.querySelectorAll('#people li').length"
WORD = f"{element('#word')}.hidden ? null : {text_of('#word')}"
GONE = "Not done: that is gone."
POSTERS = "Call the printer about the posters, and ask whether Tuesday is early enough"
MORE = [(1, "Ask Mina for the second key"), (1, "Return the ladder")]
MORE += [(3, "Order the timber"), (2, "Plan the opening")]


def card(list, place, part=""):
    return f"section:nth-of-type({list}) ol li:nth-child({place}) {part}".strip()


def new_card(list):
    return f"section:nth-of-type({list}) form input"


async def both_show(place, *lists):
    await place.wide.until(LISTS, list(lists))
    await place.narrow.until(LISTS, list(lists))


async def in_next_frame(window, *lists):
    same(await window.next_frame(LISTS), list(lists))


@shows
async def who_is_here_is_shown(place):
    place.wide = await place.window("board", "page", late=True, height=560)
    place.narrow = await place.window("board", "page", "Bob", late=True, width=400)
    for window in (place.wide, place.narrow):
        await window.until(text_of("#state"), "connected")
        await window.until(PEOPLE, 2)


@shows
async def what_is_typed_is_there_in_the_next_frame_and_soon_in_both(place):
    await place.wide.enter(new_card(1), "Buy milk")
    await in_next_frame(place.wide, ["Buy milk"], [], [])
    await both_show(place, ["Buy milk"], [], [])
    await place.narrow.enter(new_card(1), POSTERS)
    await both_show(place, ["Buy milk", POSTERS], [], [])
    await place.narrow.enter(new_card(2), "Paint the door")
    await both_show(place, ["Buy milk", POSTERS], ["Paint the door"], [])


@shows
async def a_card_follows_the_pointer_and_is_at_its_place_before_the_relay_heard(place):
    wide, narrow = place.wide, place.narrow
    await wide.lift(card(1, 1, ".text"))
    x, y = await wide.carry(card(2, 1))
    seen_x, seen_y = await wide.next_frame(middle_of(".lifted"))
    where = f"the card is at {seen_x}, {seen_y} with the pointer at {x}, {y}"
    assert abs(seen_x - x) <= 200 and abs(seen_y - y) <= 40, where
    await place.picture(wide, "drag")
    await wide.mouse("mouseReleased", x, y)
    await in_next_frame(wide, [POSTERS], ["Buy milk", "Paint the door"], [])
    same(await narrow.evaluate(LISTS), [["Buy milk", POSTERS], ["Paint the door"], []])
    await both_show(place, [POSTERS], ["Buy milk", "Paint the door"], [])


@shows
async def a_card_is_edited_in_place(place):
    await place.narrow.enter(card(2, 1, ".text"), "Buy oat milk")
    await in_next_frame(place.narrow, [POSTERS], ["Buy oat milk", "Paint the door"], [])
    await both_show(place, [POSTERS], ["Buy oat milk", "Paint the door"], [])


@shows
async def a_text_finds_the_card_that_somebody_moved_meanwhile(place):
    wide, narrow = place.wide, place.narrow
    await narrow.click(card(2, 2, ".text"))
    await narrow.type("Paint the window")
    await wide.click(card(2, 2, ".on"))
    await wide.until(LISTS, [[POSTERS], ["Buy oat milk"], ["Paint the door"]])
    await narrow.key("Enter")
    await both_show(place, [POSTERS], ["Buy oat milk"], ["Paint the window"])


@shows
async def a_move_that_somebody_else_was_faster_with_flies_back_with_a_word(place):
    wide, narrow = place.wide, place.narrow
    await narrow.lift(card(1, 1, ".text"))
    x, y = await narrow.carry(card(3, 1))
    await wide.press(card(1, 1, ".on"))
    await narrow.mouse("mouseReleased", x, y)
    await in_next_frame(narrow, [], ["Buy oat milk"], [POSTERS, "Paint the window"])
    await narrow.until(WORD, GONE)
    await both_show(place, [], ["Buy oat milk", POSTERS], ["Paint the window"])


@shows
async def a_card_is_put_away_into_a_list_of_which_only_the_size_is_watched(place):
    await place.wide.click(card(3, 1, ".off"))
    await both_show(place, [], ["Buy oat milk", POSTERS], [])
    for window in (place.wide, place.narrow):
        await window.until(text_of("#away"), "1 put away")


@shows
async def a_card_is_moved_by_keys_and_moves_are_undone_and_done_again(place):
    wide = place.wide
    await wide.evaluate(f"{element(card(2, 2))}.focus()")
    await wide.key("ArrowUp", ALT)
    await in_next_frame(wide, [], [POSTERS, "Buy oat milk"], [])
    await wide.key("ArrowLeft", ALT)
    await in_next_frame(wide, [POSTERS], ["Buy oat milk"], [])
    focused = "document.activeElement.querySelector('.text').textContent"
    same(await wide.evaluate(focused), POSTERS)
    await both_show(place, [POSTERS], ["Buy oat milk"], [])
    await wide.until(f"{element('#undo')}.disabled", False)
    await wide.key("z", CTRL)
    await both_show(place, [], [POSTERS, "Buy oat milk"], [])
    await wide.key("z", CTRL | SHIFT)
    await both_show(place, [POSTERS], ["Buy oat milk"], [])


@shows
async def a_card_is_moved_by_a_finger(place):
    await place.narrow.say("Emulation.setTouchEmulationEnabled", enabled=True)
    await place.narrow.touch_to(card(1, 1, ".grip"), card(2, 1))
    await in_next_frame(place.narrow, [], [POSTERS, "Buy oat milk"], [])
    await both_show(place, [], [POSTERS, "Buy oat milk"], [])
    if place.folder:
        await take_pictures(place)


async def take_pictures(place):
    for where, text in MORE:
        await place.wide.enter(new_card(where), text)
    await place.narrow.until(f"{LISTS}.flat().length", 6)
    await place.wide.evaluate("document.activeElement.blur()")
    await asyncio.sleep(1)
    for window, width in ((place.wide, "wide"), (place.narrow, "narrow")):
        for scheme in ("light", "dark"):
            await window.shade(scheme)
            await place.picture(window, f"{width}-{scheme}")


@shows
async def who_leaves_is_not_shown_any_more(place):
    await place.narrow.leave()
    await place.wide.until(PEOPLE, 1)
