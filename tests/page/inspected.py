"""The page that inspects a room takes nothing away by one click."""

from both import in_both
from support.patience import becomes
from support.room import Room
from window import CTRL, element, same, text_of

LISTED = {"todo": ["Buy milk"], "title": "Shopping"}
ASKED = "This takes away the whole document (object of 2), for everybody."
IS_OPEN = f"{element('#sure')}.open"
ROOTS = [
    '[{"op":"add","path":"","value":{}}]',
    '[{"op":"replace","path":"","value":null}]',
    '[{"op":"remove","path":""}]',
    '[{"op":"move","from":"/todo","path":""}]',
    '[{"op":"copy","from":"/todo","path":""}]',
    '[{"op":"test","path":"","value":{}},{"op":"replace","path":"/title","value":""},'
    '{"op":"add","path":"","value":1}]',
]


async def try_to_edit(window, patch):
    await window.focus("#patch")
    await window.type(patch)
    await window.click("#edit button")


@in_both
async def a_click_on_edit_takes_no_document_away(place):
    room = Room(place.relay, place.room("inspected"))
    await room.set(LISTED)
    window = await place.window("inspect", place.room("inspected"))
    await window.until(text_of("#state"), "open")
    same(await window.evaluate(f"{element('#patch')}.value"), "")
    await window.click("#edit button")
    await window.until(f"{text_of('#problem')}.length > 0", True)
    same(await room.document(), LISTED)
    await window.leave()


@in_both
async def a_patch_that_takes_the_whole_document_away_is_asked_about(place):
    room = Room(place.relay, place.room("asked"))
    await room.set(LISTED)
    window = await place.window("inspect", place.room("asked"))
    await window.until(text_of("#state"), "open")
    for patch in ROOTS:
        await try_to_edit(window, patch)
        same(await window.evaluate(f"[{IS_OPEN}, {text_of('#lost')}]"), [True, ASKED])
        if patch == ROOTS[0]:
            await place.picture(window, f"inspect-asks-{place.name}")
        await window.key("Escape")
        await window.until(IS_OPEN, False)
    # By the keys too: those that ask for it do not answer the question.
    await window.focus("#patch")
    await window.type(ROOTS[1])
    await window.key("Enter", CTRL)
    same(await window.evaluate(f"[{IS_OPEN}, {text_of('#lost')}]"), [True, ASKED])
    await window.key("Escape")
    await window.until(IS_OPEN, False)
    same(await room.document(), LISTED)
    await try_to_edit(window, '[{"op":"add","path":"/todo/-","value":"bread"}]')
    await becomes(room.document, lambda seen: seen["todo"] == ["Buy milk", "bread"])
    same(await window.evaluate(IS_OPEN), False)
    await try_to_edit(window, ROOTS[1])
    await window.click("#replace")
    await becomes(room.document, lambda seen: seen is None)
    # A room without a document loses none.
    await try_to_edit(window, '[{"op":"add","path":"","value":{"todo":[]}}]')
    await becomes(room.document, lambda seen: seen == {"todo": []})
    await window.leave()
