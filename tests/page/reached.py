"""The pages under a strict policy, at wrong addresses, by keys and by ear."""

import json

from both import in_both
from support.ports import free_port
from window import ROOT, SEATS, address_of, element, same, text_of

PAGES = ["board", "form", "inspect", "lobby", "whiteboard"]
WRITTEN = """(() => {
  const script = document.createElement("script");
  script.textContent = "globalThis.ran = true";
  document.body.append(script);
  const style = document.createElement("style");
  style.textContent = "body { color: rgb(1, 2, 3) }";
  document.body.append(style);
  return [globalThis.ran ?? null, getComputedStyle(document.body).color === "rgb(1, 2, 3)"];
})()"""
STATE = "document.querySelector('#state')"
WRONG = "“my board” is no room's name: 1 to 64 of A-Z, a-z, 0-9, - and _. Open “my-board”"
OPEN = "document.readyState === 'complete' && board.state"
FOCUSED = "document.activeElement.getAttribute('aria-label')"


@in_both
async def a_page_runs_no_script_or_style_that_stands_in_it(place):
    for page in PAGES:
        text = (ROOT / f"examples/{page}.html").read_text()
        assert "<style" not in text and "<script>" not in text, page
        window = await place.window(page, place.room(f"policy-{page}"))
        await window.until(OPEN, "open")
        same(await window.evaluate(WRITTEN), [None, False])
        await window.close()


@in_both
async def a_room_that_no_relay_has_is_told_with_a_name_that_is_right(place):
    for page in PAGES:
        wrong = address_of(page, port=place.relay.port, room="my%20board")
        window = await place.kind.open(place.browser, wrong)
        await window.until(f"{STATE}?.textContent", WRONG)
        await place.picture(window, f"{page}-wrong-{place.name}")
        if page == "board":
            await window.press("#state a")
            await window.until(OPEN, "open")
        await window.close()
    wrong = address_of("board", url="http://example.org/rooms/board")
    window = await place.kind.open(place.browser, wrong)
    words = "“http://example.org/rooms/board” is no room's address: that is "
    await window.until(f"{STATE}?.textContent", f"{words}ws://HOST:PORT/rooms/NAME, or wss://.")
    await window.close()


@in_both
async def no_page_shows_the_password_of_an_address(place):
    nobody = f"127.0.0.1:{free_port()}"
    for page in PAGES:
        for address, shown in [
            (f"ws://anna:secret@{nobody}/rooms/a", f"nothing answers at ws://anna:***@{nobody}/"),
            (f"ws://anna:pa/secret@{nobody}/rooms/a", f"“ws://***@{nobody}/rooms/a” is no room's"),
        ]:
            window = await place.kind.open(place.browser, address_of(page, url=address))
            await window.until(f"{STATE}?.textContent.includes({json.dumps(shown)})", True)
            same(await window.evaluate("document.documentElement.outerHTML.match(/secret/)"), None)
            await window.close()


@in_both
async def a_button_of_the_lobby_keeps_the_focus_whatever_changes(place):
    ann, bob = [await place.window("lobby", place.room("focus"), who) for who in ("Ann", "Bob")]
    await ann.until(f"{SEATS}.length", 4)
    await bob.until(f"{text_of('#people')}.slice(0, 6)", "2 here")
    await ann.focus("#tables li:nth-child(2) button")
    for _ in range(2):
        await bob.press("#tables button")
        await ann.until(text_of("#tables p"), "1 of 2 players")
        await bob.press("#tables button")
        await ann.until(text_of("#tables p"), "0 of 2 players")
    same(await ann.evaluate(FOCUSED), "Sit down: east")
    await ann.key("Enter")
    await ann.until(text_of("#tables li:nth-child(2) p"), "1 of 2 players")
    same(await ann.evaluate(FOCUSED), "Leave: east")
    await place.picture(ann, f"lobby-{place.name}")
    # A full table keeps it as well, and seats nobody.
    await bob.focus("#tables li:nth-child(2) button")
    await bob.key("Enter")
    await ann.until(text_of("#tables li:nth-child(2) p"), "2 of 2 players")
    await ann.leave()
    await bob.leave()


@in_both
async def the_state_of_a_page_is_a_live_region(place):
    for page in PAGES:
        window = await place.window(page, place.room(f"live-{page}"))
        await window.until(OPEN, "open")
        same(await window.evaluate(f"{STATE}.getAttribute('role')"), "status")
        if page == "form":
            same(await window.evaluate(f"{element('.note')}.getAttribute('role')"), "status")
        if page == "lobby":
            same(await window.evaluate(f"{element('#people')}.getAttribute('role')"), "status")
        await window.leave()
