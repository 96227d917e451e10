#!/usr/bin/env python3
"""React's hooks of the JavaScript client, bundled by esbuild as an application bundles them: in a
headless Chromium with React's strict mode, and as a server draws them. Then what a bundle weighs:
react.py

RELAY names the program, BROWSER_PROGRAM the browser.
"""
import asyncio, gzip, json, os, pathlib, shutil, subprocess, sys, tempfile

HERE = pathlib.Path(__file__).resolve().parent
ROOT = HERE.parent.parent.parent
CLIENT = ROOT / "clients/javascript"
sys.path.insert(0, str(HERE.parent))
from browser import Browser, Page
from server import Relay

LARGEST = 18_950
"""Bytes of a bundle that has `connect` alone, compressed."""
ROOM = {"cards": ["milk", "bread"], "here": {}}


def install(folder):
    """The package as a registry would hand it out: with the files that it names, and no others."""
    place = folder / "node_modules/@bolsteregret/relay"
    place.mkdir(parents=True)
    shutil.copy(CLIENT / "package.json", place)
    for name in json.loads((CLIENT / "package.json").read_text())["files"]:
        copy = shutil.copytree if (CLIENT / name).is_dir() else shutil.copy
        copy(CLIENT / name, place / name)


def bundle(folder, entry, *flags):
    out = folder / f"{pathlib.Path(entry).stem}.js"
    words = [
        "esbuild",
        str(entry),
        "--bundle",
        "--jsx=automatic",
        "--log-level=warning",
        f"--outfile={out}",
        *flags,
    ]
    paths = f"{folder}/node_modules:/usr/share/nodejs"
    subprocess.run(words, check=True, env={**os.environ, "NODE_PATH": paths}, cwd=folder)
    return out


def same(seen, wanted):
    assert seen == wanted, f"{seen}, and not {wanted}"


def text(name):
    return f"document.querySelector('#{name}')?.textContent"


def click(name):
    return f"document.querySelector('#{name}').click()"


async def in_a_browser(folder, relay, browser):
    bundle(folder, HERE / "browser.jsx")
    (folder / "index.html").write_text(
        "<!doctype html><main></main><script src=browser.js></script>"
    )
    room = f"ws://127.0.0.1:{relay.port}/rooms/react"
    await relay.request(
        "react", {"do": "edit", "patch": [{"op": "add", "path": "", "value": ROOM}]}, "done"
    )
    page = await Page.open(browser, f"file://{folder}/index.html")
    await page.until("document.readyState === 'complete' && 'begin' in globalThis", True)
    await page.evaluate(f"begin({json.dumps(room)})")
    await shows_and_selects(page, relay)
    await changes(page)
    await presence(page, relay)
    await relay.end()
    await page.until(f"{text('connection')}.split(' ')[0] !== 'open'", True)
    same(await page.evaluate(text("count")), "3")
    await page.evaluate("end()")
    same(await page.evaluate("seen.boards.map(({ state }) => state).join()"), "closed,closed")
    await page.leave()
    print("hooks of React show, change and select in strict mode, and leave nothing open")


async def shows_and_selects(page, relay):
    await page.until(text("count"), "2")
    await page.until(text("connection"), "open 0")
    # Strict mode makes what a component makes twice: the first board is closed.
    same(await page.evaluate("seen.boards.map(({ state }) => state).join()"), "closed,open")
    same(await page.evaluate(text("first")), "milk")
    same(await page.evaluate(text("long")), "bread")
    before = await page.evaluate("({ ...seen.drawn })")
    replace = [{"op": "replace", "path": "/cards/0", "value": "tea"}]
    await relay.request("react", {"do": "edit", "patch": replace}, "done")
    await page.until(text("first"), "tea")
    after = await page.evaluate("({ ...seen.drawn })")
    same((after["count"], after["long"]), (before["count"], before["long"]))
    assert after["first"] > before["first"], after


async def changes(page):
    same(await page.evaluate(f"{click('add')}, {text('failed')}"), "well")
    await page.until(text("count"), "3")
    await page.evaluate(click("fail"))
    await page.until(text("failed"), "too-heavy")
    same(await page.evaluate(text("count")), "3")
    await page.evaluate(click("rename"))
    await page.until(text("connection"), "open 0")


async def presence(page, relay):
    """One who is renamed stays one, and one who goes is gone."""
    await page.until(text("here"), "Bob")
    _, [[here]] = await relay.shows("react", ["/here"])
    same([entry["name"] for entry in here.values()], ["Bob"])
    await page.evaluate(click("leave"))
    for _ in range(500):
        _, [[here]] = await relay.shows("react", ["/here"])
        if not here:
            return
        await asyncio.sleep(0.01)
    raise AssertionError(f"{here} is still here")


def on_a_server(folder):
    out = bundle(folder, HERE / "server.jsx", "--platform=node")
    told = json.loads(
        subprocess.run(["node", out], check=True, capture_output=True, text=True).stdout
    )
    same(told["boards"], 0)
    for part in (
        '<b id="count">none</b>',
        '<b id="first">nothing</b>',
        '<b id="connection">connecting 0</b>',
    ):
        assert part in told["html"], told["html"]
    print("and a server draws them, without a socket")


def weighs(folder):
    """Code that is not asked for is shaken off."""
    sizes = {}
    for name, body in {
        "connect": 'import { connect } from "@bolsteregret/relay"; globalThis.it = connect;',
        "all": 'import * as all from "@bolsteregret/relay"; globalThis.it = all;',
    }.items():
        entry = folder / f"{name}.mjs"
        entry.write_text(body)
        made = bundle(folder, entry, "--minify", "--format=esm", "--target=es2022").read_bytes()
        sizes[name] = (len(made), len(gzip.compress(made, 9)), made)
        print(f"{name}: {len(made):,} bytes minified, {sizes[name][1]:,} compressed")
    assert sizes["connect"][1] <= LARGEST, sizes["connect"][:2]
    # The time after which presence takes away an entry.
    same([b"15e4" in sizes[name][2] for name in ("connect", "all")], [False, True])


async def main():
    relay = await Relay.begin(os.environ["RELAY"], 1, 64, 32)
    browser = await Browser.begin(os.environ["BROWSER_PROGRAM"])
    with tempfile.TemporaryDirectory() as folder:
        try:
            install(pathlib.Path(folder))
            on_a_server(pathlib.Path(folder))
            weighs(pathlib.Path(folder))
            await asyncio.wait_for(in_a_browser(pathlib.Path(folder), relay, browser), 120)
        finally:
            await browser.end()
            if relay.process.returncode is None:
                await relay.end()


if __name__ == "__main__":
    asyncio.run(main())
