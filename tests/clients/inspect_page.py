#!/usr/bin/env python3
"""examples/inspect.html in a headless browser: what it shows of a room, its slider, its log and its
keys.

    inspect_page.py [FOLDER]   (screenshots go to FOLDER, in 400 and 1,400 pixels, light and dark)

RELAY names the program, BROWSER_PROGRAM the browser.
"""
import asyncio, base64, json, os, sys
from browser import Browser, Page
from server import Relay

ROOT = os.path.dirname(os.path.dirname(os.path.dirname(os.path.abspath(__file__))))
BEGUN = {"cards": ["milk", {"text": "bread", "done": False}], "title": "Shopping", "count": 0}
ROWS = "[...document.querySelectorAll('#tree .row')].map((row) => row.textContent.trim())"
HERE = "document.querySelector('#tree .here').dataset.path"
LOG = "[...document.querySelectorAll('#log summary')].map((line) => line.textContent)"


def same(seen, wanted):
    assert seen == wanted, f"{seen}, and not {wanted}"


async def edit(relay, *patch):
    await relay.request("seen", {"do": "edit", "patch": list(patch)}, "done")


async def key(page, name):
    event = f"new KeyboardEvent('keydown', {{ key: {json.dumps(name)}, bubbles: true }})"
    await page.evaluate(f"document.querySelector('#tree').dispatchEvent({event}), true")


async def shows(page, relay):
    await page.until("document.querySelector('#state')?.textContent", "open")
    same(
        await page.evaluate(ROWS),
        ["▾document: object of 3", "▸cards: list of 2", "count: 0", 'title: "Shopping"'],
    )
    # The relay writes the members of an object by their names.
    for path in ("/cards", "/count", "/title", "/title"):
        await key(page, "ArrowDown")
        same(await page.evaluate(HERE), path)


async def goes_by_keys(page):
    went = [
        ("Home", ""),
        ("ArrowRight", "/cards"),
        ("ArrowRight", "/cards"),
        ("ArrowRight", "/cards/0"),
    ]
    for name, path in [
        *went,
        ("ArrowDown", "/cards/1"),
        ("ArrowLeft", "/cards"),
        ("End", "/title"),
    ]:
        await key(page, name)
        same(await page.evaluate(HERE), path)


async def tells_of_changes(page, relay):
    await edit(
        relay,
        {"op": "replace", "path": "/count", "value": 7},
        {"op": "add", "path": "/cards/0", "value": "eggs"},
    )
    await page.until("document.querySelector('#revision').textContent", "revision 2 of 2")
    flashing = "[...document.querySelectorAll('.flash')].map((row) => row.dataset.path)"
    same(await page.evaluate(flashing), ["/cards/0", "/count"])
    await page.evaluate(
        'document.querySelector(\'#patch\').value = \'[{"op":"test","path":"/count","value":1}]\''
    )
    await page.evaluate("document.querySelector('#edit').requestSubmit()")
    problem = "document.querySelector('#problem').textContent.split(':')[0]"
    await page.until(problem, "test-failed at 0")
    said = await page.evaluate(LOG)
    assert said[0].endswith("test-failed at 0 (somebody changed that first)"), said
    assert said[1].startswith("edit") and said[1].endswith("1 operation"), said


async def asks_quietly(page):
    """A request that only asks whether the relay is there is no fault, though it is refused."""
    refusal = {"at": None, "fault": "shape", "id": 99, "kind": "refused"}
    for way, message in (("sent", {"id": 99}), ("heard", refusal)):
        await page.evaluate(f"logged({json.dumps({'way': way, 'message': message})})")
    same((await page.evaluate(LOG))[:2], ["still there 99", "are you there? 99"])
    colors = "[...document.querySelectorAll('#log li')].map((line) => getComputedStyle(line).color)"
    quiet, asked, refused = (await page.evaluate(colors))[:3]
    assert quiet == asked != refused, (quiet, asked, refused)


async def goes_back(page, relay):
    slide = "const r = document.querySelector('#revisions'); r.value = 0; r.oninput({ target: r })"
    await page.evaluate(f"(() => {{ {slide} }})()")
    same(await page.evaluate("document.querySelector('#revision').textContent"), "revision 1 of 2")
    assert "count: 0" in await page.evaluate(ROWS)
    await edit(relay, {"op": "replace", "path": "/count", "value": 8})
    await page.until("document.querySelector('#revision').textContent", "revision 1 of 3")
    await page.evaluate("document.querySelector('#live').click()")
    same(await page.evaluate("document.querySelector('#revision').textContent"), "revision 3 of 3")
    assert "count: 8" in await page.evaluate(ROWS)


async def pictures(page, folder):
    for width, height in ((400, 900), (1400, 900)):
        for scheme in ("light", "dark"):
            await page.say(
                "Emulation.setDeviceMetricsOverride",
                width=width,
                height=height,
                deviceScaleFactor=1,
                mobile=False,
            )
            features = [{"name": "prefers-color-scheme", "value": scheme}]
            await page.say("Emulation.setEmulatedMedia", features=features)
            wide = await page.evaluate("document.documentElement.scrollWidth")
            assert wide <= width, f"it is {wide} wide in {width}"
            if folder:
                taken = await page.say("Page.captureScreenshot", format="png")
                with open(f"{folder}/inspect-{width}-{scheme}.png", "wb") as out:
                    out.write(base64.b64decode(taken["data"]))


async def main(folder=None):
    relay = await Relay.begin(os.environ["RELAY"], 1, 64, 32)
    browser = await Browser.begin(os.environ["BROWSER_PROGRAM"])
    try:
        await edit(relay, {"op": "add", "path": "", "value": BEGUN})
        address = f"file://{ROOT}/examples/inspect.html?port={relay.port}&room=seen"
        page = await Page.open(browser, address)
        await shows(page, relay)
        await goes_by_keys(page)
        await tells_of_changes(page, relay)
        await asks_quietly(page)
        await goes_back(page, relay)
        await pictures(page, folder)
        await relay.end()
        await page.until("document.querySelector('#state').dataset.state === 'open'", False)
        await page.leave()
        print("examples/inspect.html shows a room, goes back in it, and tells what is said")
    finally:
        await browser.end()
        if relay.process.returncode is None:
            await relay.end()


if __name__ == "__main__":
    asyncio.run(main(*sys.argv[1:]))
