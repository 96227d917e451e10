"""The page of the tutorial, and React's adapter, in pages of their own."""

import functools
import http.server
import json
import pathlib
import shutil
import tempfile
import threading

from support.play import shows
from support.relay import ROOT
from support.room import Room
from window import Window, same, text_of

ITEMS = "[...document.querySelectorAll('li')].map((item) => item.textContent)"
READY = "document.readyState === 'complete' && board.state === 'open' && board.slots[0].length"
REACT = """<!doctype html>
<script src="react.production.min.js"></script>
<script src="react-dom.production.min.js"></script>
<script type="importmap">{ "imports": { "react": "./react-module.mjs" } }</script>
<p></p>
<script type="module">
  import { connect } from "./relay.mjs";
  import { useRelay } from "./react.mjs";
  const board = connect(URL, { view: ["/title", "/other"] });
  const title = board.at("/title");
  globalThis.drawn = 0;
  const Title = () => (drawn++, React.createElement("b", null, useRelay(title) ?? "nothing"));
  globalThis.root = ReactDOM.createRoot(document.querySelector("p"));
  await board.ready;
  root.render(React.createElement(Title));
  globalThis.board = board;
</script>"""


def tutorial_in(folder):
    """The page of docs/CLIENTS.md, in a folder beside the client."""
    text = (ROOT / "docs/CLIENTS.md").read_text().split("```html\n")[1].split("```")[0]
    shutil.copy(ROOT / "clients/javascript/relay.js", folder)
    page = pathlib.Path(folder, "list.html")
    page.write_text(text)
    return page


@shows
async def the_tutorials_page_is_a_shared_list(place):
    with tempfile.TemporaryDirectory() as folder:
        address = f"file://{tutorial_in(folder)}?port={place.relay.port}"
        windows = [await Window.open(place.browser, address) for _ in range(2)]
        for window in windows:
            await window.say("Runtime.enable")
            await window.until(READY, 1)
        for window, text in zip(windows, ("milk", "bread")):
            await window.submit(text)
            await window.until("board.pending", 0)
        for window in windows:
            await window.until(ITEMS, ["milk", "bread"])
        await Room(place.relay, "list").set(5, "/items")
        await windows[0].until(ITEMS, [])
        await windows[0].submit("")
        why = "what is around it is no list and no object: write that first"
        await windows[0].until(text_of("p"), f"Not added: no-container at 0: {why}.")
        for window in windows:
            await window.leave()


@shows
async def a_component_of_react_is_drawn_again_when_its_place_changes_and_only_then(place):
    room = Room(place.relay, "react")
    await room.set({"title": "Shopping", "other": 0})
    with tempfile.TemporaryDirectory() as folder:
        lay_out_react(folder, room.url)
        handler = functools.partial(Quiet, directory=folder)
        server = http.server.ThreadingHTTPServer(("127.0.0.1", 0), handler)
        threading.Thread(target=server.serve_forever, daemon=True).start()
        page = await Window.open(place.browser, f"http://127.0.0.1:{server.server_port}/")
        await use_react(page)
        await page.leave()
        server.shutdown()


def lay_out_react(folder, url):
    """Debian's React, and a page that imports the adapter."""
    client = ROOT / "clients/javascript"
    for file in (client / "relay.mjs", client / "adapters/react.mjs"):
        shutil.copy(file, folder)
    for name in ("react", "react-dom"):
        shutil.copy(f"/usr/share/nodejs/{name}/umd/{name}.production.min.js", folder)
    hooks = "export const { useCallback, useSyncExternalStore } = globalThis.React;"
    pathlib.Path(folder, "react-module.mjs").write_text(hooks)
    pathlib.Path(folder, "index.html").write_text(REACT.replace("URL", json.dumps(url)))


async def use_react(page):
    await page.say("Page.bringToFront")
    text = "document.querySelector('b')?.textContent"
    await page.until(text, "Shopping")
    await page.evaluate("board.at('/title').set('Party')")
    await page.until(text, "Party")
    drawn = await page.evaluate("drawn")
    await page.evaluate("board.edit([{ op: 'replace', path: '/other', value: 1 }])")
    await page.until("board.slots[1][0]", 1)
    same(await page.evaluate("drawn"), drawn)
    await page.evaluate("root.unmount()")


class Quiet(http.server.SimpleHTTPRequestHandler):
    extensions_map = {".mjs": "text/javascript", ".js": "text/javascript", ".html": "text/html"}

    def log_message(self, *words):
        pass
