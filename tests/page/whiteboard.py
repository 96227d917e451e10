"""The whiteboard, in two windows: these tests go on where the one before ended."""

import asyncio
import time

from board import WORD
from support.play import shows
from window import SHIFT, element, middle_of, same, text_of

SHAPE = "document.querySelectorAll('.shape')"
SEEN = f"[...{SHAPE}].map(({{ dataset, offsetLeft, offsetTop }}) => "
SEEN += "[dataset.kind, offsetLeft, offsetTop].join(' '))"
TEXTS = f"[...{SHAPE}].map((shape) => shape.querySelector('.text').textContent)"
FIRST, LAST = ".shape:first-child", ".shape:last-child"
PACED = """(async () => {
  const calls = [];
  const { soon, now } = paced(30, (value) => calls.push(value));
  const begun = performance.now();
  for (let k = 1; k <= 50; k += 1) {
    soon(k);
    await new Promise((done) => setTimeout(done, 5));
  }
  soon("last");
  now();
  const most = ((performance.now() - begun) / 1000) * 30 + 2;
  return [calls[0], calls.at(-1), calls.length <= most];
})()"""
# Seconds from an edit to its answer, of which each half is a delay of the proxy.
THERE_AND_BACK = 0.3


def tool(kind):
    return f".tools [data-kind='{kind}']"


async def drag(window, place, steps, far):
    """Presses on a shape and takes it along, without a release. Gives where the pointer is."""
    x, y = await window.middle(place)
    await window.mouse("mouseMoved", x, y)
    await window.mouse("mousePressed", x, y, buttons=1)
    for step in range(1, steps + 1):
        at = x + far[0] * step / steps, y + far[1] * step / steps
        await window.mouse("mouseMoved", *at, buttons=1)
    return at


async def both_show(place, *shapes):
    for window in (place.ann, place.bob):
        await window.until(SEEN, list(shapes))


@shows
async def a_shape_that_is_made_is_there_in_the_next_frame_and_soon_in_both(place):
    place.ann, place.bob = await place.two("whiteboard", late=True)
    for window in (place.ann, place.bob):
        await window.until(text_of("#state"), "connected")
    for kind in ("rectangle", "note"):
        await place.ann.press(tool(kind))
        await place.ann.next_frame("true")
        focused = "document.activeElement.dataset.kind"
        same(await place.ann.evaluate(focused), kind)
    seen = await place.ann.evaluate(SEEN)
    same([shape.split()[0] for shape in seen], ["rectangle", "note"])
    await both_show(place, *seen)


@shows
async def a_shape_that_is_dragged_follows_the_pointer_and_is_followed_in_the_other_window(place):
    ann, bob = place.ann, place.bob
    before, begun = await ann.evaluate("board.rev"), time.monotonic()
    x, y = await drag(ann, LAST, steps=40, far=(-400, 200))
    seen_x, seen_y = await ann.next_frame(middle_of(LAST))
    where = f"the shape is at {seen_x}, {seen_y} with the pointer at {x}, {y}"
    assert abs(seen_x - x) <= 1 and abs(seen_y - y) <= 1, where
    # Nothing was released yet.
    await bob.until(SEEN, await ann.evaluate(SEEN))
    await place.picture(ann, "whiteboard-drag")
    await ann.mouse("mouseReleased", x, y)
    await ann.until("board.pending", 0)
    made = await ann.evaluate("board.rev") - before
    most = (time.monotonic() - begun) / THERE_AND_BACK + 1
    assert 1 <= made <= most, f"{made} edits, where {most} can be answered"
    await both_show(place, *await ann.evaluate(SEEN))


@shows
async def a_drag_is_dropped_where_it_was(place):
    seen = await place.ann.evaluate(SEEN)
    x, y = await drag(place.ann, LAST, steps=5, far=(100, 0))
    await place.ann.key("Escape")
    await place.ann.mouse("mouseReleased", x, y)
    await place.ann.until("board.pending", 0)
    await both_show(place, *seen)


@shows
async def a_shape_is_dragged_by_a_finger(place):
    bob = place.bob
    rectangle, note = await bob.evaluate(SEEN)
    await bob.say("Emulation.setTouchEmulationEnabled", enabled=True)
    await bob.touch_to(LAST, "main")
    await bob.say("Emulation.setTouchEmulationEnabled", enabled=False)
    seen, (x, y) = await bob.evaluate(middle_of(LAST)), await bob.evaluate(middle_of("main"))
    assert abs(seen[0] - x) <= 2 and abs(seen[1] - y + 6) <= 2, f"{seen} at {x}, {y}"
    moved = await bob.evaluate(SEEN)
    assert moved[0] == rectangle and moved[1] != note, moved
    await both_show(place, *moved)


@shows
async def a_note_is_written_on(place):
    await place.ann.evaluate(f"{element(LAST)}.focus()")
    await place.ann.key("Enter")
    await place.ann.keys("Bring the ladder")
    await place.ann.key("Escape")
    for window in (place.ann, place.bob):
        await window.until(TEXTS, ["", "Bring the ladder"])
    same(await place.ann.evaluate("document.activeElement.className"), "shape")


@shows
async def a_shape_is_moved_and_deleted_by_keys(place):
    _, note = await place.ann.evaluate(SEEN)
    kind, x, y = note.split()
    await place.ann.press(tool("ellipse"))
    rectangle, _, ellipse = await place.ann.evaluate(SEEN)
    await both_show(place, rectangle, note, ellipse)
    await place.ann.evaluate(f"{element('.shape:nth-child(2)')}.focus()")
    await place.ann.key("ArrowRight")
    await place.ann.key("ArrowUp", SHIFT)
    moved = f"{kind} {int(x) + 10} {int(y) - 1}"
    same(await place.ann.next_frame(SEEN), [rectangle, moved, ellipse])
    await both_show(place, rectangle, moved, ellipse)
    if place.folder:
        await take_pictures(place)
    await place.ann.evaluate(f"{element(FIRST)}.focus()")
    await place.ann.key("Delete")
    same(await place.ann.next_frame(SEEN), [moved, ellipse])
    same(await place.ann.evaluate("document.activeElement.dataset.kind"), "note")
    await both_show(place, moved, ellipse)


@shows
async def a_shape_that_somebody_deletes_is_dragged_no_further(place):
    ann, bob = place.ann, place.bob
    note, _ = await ann.evaluate(SEEN)
    x, y = await drag(ann, LAST, steps=3, far=(30, 0))
    await ann.until("board.pending", 0)
    await bob.press(f"{LAST} .off")
    # Before this window has heard of it.
    await ann.mouse("mouseMoved", x + 30, y, buttons=1)
    await both_show(place, note)
    await ann.until("board.pending", 0)
    await ann.mouse("mouseMoved", x + 60, y, buttons=1)
    await ann.mouse("mouseReleased", x + 60, y)
    same(await ann.evaluate(WORD) in (None, "Not done: that is gone."), True)
    await both_show(place, note)


@shows
async def a_drag_sets_at_most_30_places_a_second(place):
    same(await place.ann.evaluate(PACED), [1, "last", True])


@shows
async def a_page_that_is_loaded_again_shows_the_same(place):
    seen = await place.ann.evaluate(SEEN)
    await place.ann.evaluate("globalThis.isOld = true")
    await place.ann.say("Page.reload")
    await place.ann.until("globalThis.isOld", None)
    await place.ann.until(SEEN, seen)
    for window in (place.ann, place.bob):
        await window.leave()


async def take_pictures(place):
    await place.ann.evaluate("document.activeElement.blur()")
    await asyncio.sleep(1)
    for window, width in ((place.ann, "wide"), (place.bob, "narrow")):
        for scheme in ("light", "dark"):
            await window.shade(scheme)
            await place.picture(window, f"whiteboard-{width}-{scheme}")
