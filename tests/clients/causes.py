#!/usr/bin/env python3
"""Tests that a page is told why it has no connection, in Chromium and in Firefox, from a page of
another origin and from a file; and how many lines each try writes to the console.

Usage: causes.py [NAME..], where RELAY names the program.
"""
import asyncio
import contextlib
import functools
import http.server
import json
import pathlib
import shutil
import sys
import tempfile
import threading

import websockets

sys.path.append(str(pathlib.Path(__file__).resolve().parents[1]))
from support.play import play, shows
from support.ports import free_port
from support.relay import ROOT, Relay
from support.room import Room

from browser import Browser, Page
from firefox import Firefox, FirefoxPage

PAGE = """<!doctype html><script src="relay.js"></script><script>
  // Whether a board is told `tries` times that it waits, or that it is closed.
  globalThis.tried = (url, tries, readOnly) => new Promise((done) => {
    const told = [];
    const times = { firstWait: 20, longestWait: 20 };
    const board = relay.connect(url, { view: [""], readOnly, onState, ...times });
    function onState(state, cause) {
      if (cause !== null) told.push([state, cause.reason, cause.status, cause.message]);
      if (told.length < tries && state !== "closed") return;
      board.close();
      setTimeout(() => done(told), 200);
    }
  });
</script>"""
TRIES = 3


class ChromiumPage(Page):
    """As a page, and counts what is written to its console in red."""

    @classmethod
    async def open(cls, browser, address):
        page = await super().open(browser, "about:blank")
        for domain in "Log", "Page":
            await page.say(f"{domain}.enable")
        await page.say("Page.navigate", url=address)
        await page.until("document.readyState === 'complete' && 'tried' in globalThis", True)
        return page

    async def read(self):
        self.errors = []
        with contextlib.suppress(websockets.exceptions.ConnectionClosed):
            async for text in self.link:
                message = json.loads(text)
                if "id" in message:
                    self.asked.pop(message["id"]).set_result(message)
                elif message["method"] == "Log.entryAdded":
                    self.note(message["params"]["entry"])

    def note(self, entry):
        if entry["level"] == "error" and "favicon" not in entry.get("url", ""):
            self.errors.append(entry["text"])


class Quiet(http.server.SimpleHTTPRequestHandler):
    """Hands out the page. Of a room it refuses each handshake with 403, and any other request with
    400, as a relay behind the same origin whose `--origin` is another one."""

    def do_GET(self):
        if not self.path.startswith("/rooms/"):
            return super().do_GET()
        self.send_response(403 if "Upgrade" in self.headers else 400)
        self.send_header("Content-Length", "0")
        self.end_headers()

    def log_message(self, *_):
        pass


@contextlib.contextmanager
def served():
    """A folder with the page, and its address on an origin of its own."""
    with tempfile.TemporaryDirectory() as folder:
        (pathlib.Path(folder) / "page.html").write_text(PAGE)
        shutil.copy(ROOT / "clients/javascript/relay.js", folder)
        handler = functools.partial(Quiet, directory=folder)
        with http.server.ThreadingHTTPServer(("127.0.0.1", 0), handler) as server:
            threading.Thread(target=server.serve_forever, daemon=True).start()
            yield f"http://127.0.0.1:{server.server_port}/page.html", f"file://{folder}/page.html"
            server.shutdown()


@contextlib.asynccontextmanager
async def relays():
    """Relays that refuse a page: one that is full, one that lets no page of its origin in, and one
    that has as many connections of its address as it may."""
    with contextlib.ExitStack() as ends:
        full = ends.enter_context(Relay("--sessions", 1, "--rooms", 4))
        foreign = ends.enter_context(Relay("--origin", "https://relay.example.org"))
        crowded = ends.enter_context(Relay("--per-peer", 1))
        async with Room(full, "a").enter(), Room(crowded, "a").enter():
            yield [f"ws://127.0.0.1:{relay.port}" for relay in (full, foreign, crowded)]


def rows(page, full, foreign, crowded):
    """An address, how it fails, what is said of it, and whether the room is only watched."""
    nobody = f"ws://127.0.0.1:{free_port()}"
    same_origin = page.replace("http", "ws", 1).replace("/page.html", "")
    here = [(f"{same_origin}/rooms/a", "refused", "(--origin)", False)]
    return [
        (f"{nobody}/rooms/a", "unreachable", "nothing answers at", False),
        (f"{crowded}/rooms/a", "unreachable", "the port and --per-peer", False),
        (f"{full}/rooms/a", "refused", "it is full (--sessions, --rooms)", False),
        (f"{foreign}/rooms/a", "refused", "it lets no page of this origin in (--origin)", False),
        (f"{full}/rooms/a?token=b", "refused", "leave out the `?` and what follows", False),
        (f"{full}/b/rooms/a", "refused", "and this path is /b/rooms/a", False),
        (f"{full}/rooms/b", "refused", "there is no room of this name yet, or it is full", True),
        *(here if page.startswith("http") else []),
    ]


async def tells(open_page, errors, questions):
    """Each page is told why. Each try writes a line, and so does each question that fails, in a
    browser that writes one for that."""
    with served() as pages:
        async with relays() as addresses:
            for address in pages:
                page = await open_page(address)
                for row in rows(address, *addresses):
                    before = len(errors(page))
                    await tells_of(page, *row)
                    lines = errors(page)[before:]
                    assert len(lines) == TRIES + questions, (row, lines)
                await page.leave()


async def tells_of(page, url, reason, words, watches):
    told = await page.evaluate(f"tried({json.dumps(url)}, {TRIES}, {json.dumps(watches)})")
    assert len(told) == TRIES, told
    for state, why, status, message in told:
        assert (state, why, status) == ("waiting", reason, None), (url, told)
        assert words in message, (url, message)


@shows
async def a_page_in_chromium_is_told_why_it_has_no_connection():
    browser = await Browser.begin("chromium")
    try:
        await tells(
            lambda address: ChromiumPage.open(browser, address), lambda page: page.errors, 1
        )
    finally:
        await browser.end()


@shows
async def so_it_is_in_firefox():
    firefox = await Firefox.begin()
    try:
        await tells(lambda address: FirefoxPage.open(firefox, address), lambda _: firefox.errors, 0)
    finally:
        await firefox.end()


if __name__ == "__main__":
    sys.exit(asyncio.run(play(names=sys.argv[1:])))
