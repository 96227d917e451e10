"""Windows of a headless Firefox, over WebDriver BiDi at its debugger's port."""

import asyncio
import base64
import itertools
import json
import os
import pathlib
import shutil
import tempfile

import websockets
from window import ALT, CTRL, FRAME, SHIFT, Acts, middle_of, same

KEYS = {"Tab": "\ue004", "Enter": "\ue007", "Escape": "\ue00c", "Delete": "\ue017"}
KEYS.update({"ArrowLeft": "\ue012", "ArrowUp": "\ue013"})
KEYS.update({"ArrowRight": "\ue014", "ArrowDown": "\ue015"})
HELD = {ALT: "\ue00a", CTRL: "\ue009", SHIFT: "\ue008"}
MOUSE = {"type": "pointer", "id": "mouse", "parameters": {"pointerType": "mouse"}}
ACTS = {"mouseMoved": "pointerMove", "mousePressed": "pointerDown", "mouseReleased": "pointerUp"}


class Firefox:
    """One process, and the connection to it."""

    @classmethod
    async def begin(cls):
        browser = cls()
        browser.folder = tempfile.mkdtemp()
        words = ["--headless", "--no-remote", "--profile", browser.folder]
        nowhere = asyncio.subprocess.DEVNULL
        browser.process = await asyncio.create_subprocess_exec(
            "firefox-esr", *words, "--remote-debugging-port=0", stdout=nowhere, stderr=nowhere
        )
        said = pathlib.Path(browser.folder, "WebDriverBiDiServer.json")
        while not (said.exists() and said.stat().st_size):
            await asyncio.sleep(0.05)
        port = json.loads(said.read_text())["ws_port"]
        address = f"ws://127.0.0.1:{port}/session"
        browser.link = await websockets.connect(address, max_size=None, ping_interval=None)
        browser.ids, browser.asked, browser.errors = itertools.count(1), {}, []
        browser.reading = asyncio.ensure_future(browser.read())
        await browser.say("session.new", capabilities={})
        await browser.say("session.subscribe", events=["log.entryAdded"])
        return browser

    async def read(self):
        """Answers by their numbers, and from the console what was thrown and caught by nobody."""
        try:
            async for text in self.link:
                message = json.loads(text)
                if message.get("id") is not None:
                    self.asked.pop(message["id"]).set_result(message)
                elif message["params"]["type"] == "javascript":
                    entry = message["params"]
                    # It logs a lost connection as an error too.
                    if entry["level"] == "error" and "ws://" not in entry["text"]:
                        self.errors.append((entry["source"]["context"], entry["text"]))
        except websockets.exceptions.ConnectionClosed:
            pass

    async def say(self, method, **words):
        number = next(self.ids)
        self.asked[number] = answer = asyncio.get_running_loop().create_future()
        await self.link.send(json.dumps({"id": number, "method": method, "params": words}))
        reply = await answer
        if reply["type"] == "error":
            raise AssertionError(f"{method}: {reply['message']}")
        return reply["result"]

    async def end(self):
        self.process.terminate()
        await self.process.wait()
        self.reading.cancel()
        shutil.rmtree(self.folder, ignore_errors=True)


class FirefoxWindow(Acts):
    @classmethod
    async def open(cls, browser, address):
        window = cls()
        window.browser = browser
        # Windows, not tabs: one that lies behind another one is shown all the same.
        made = await browser.say("browsingContext.create", type="window")
        window.context = made["context"]
        await window.visit(address)
        return window

    async def say(self, method, **words):
        return await self.browser.say(method, context=self.context, **words)

    async def visit(self, address):
        await self.say("browsingContext.navigate", url=address, wait="complete")

    async def have(self, width, height):
        size = {"width": width, "height": height}
        await self.say("browsingContext.setViewport", viewport=size)

    async def shade(self, scheme):
        pass

    async def evaluate(self, expression):
        """The value of an expression, or of what it promises; None where it fails."""
        written = f"(async () => JSON.stringify(await ({expression})) ?? 'null')()"
        words = {"expression": written, "awaitPromise": True, "target": {"context": self.context}}
        answer = await self.browser.say("script.evaluate", **words)
        return json.loads(answer["result"]["value"]) if answer["type"] == "success" else None

    async def next_frame(self, expression):
        await self.say("browsingContext.activate")
        return await self.evaluate(FRAME % expression)

    async def act(self, *sources):
        await self.say("browsingContext.activate")
        await self.say("input.performActions", actions=list(sources))

    async def key(self, key, modifiers=0):
        held = [sign for bit, sign in HELD.items() if modifiers & bit]
        downs = [{"type": "keyDown", "value": sign} for sign in (*held, KEYS.get(key, key))]
        ups = [{"type": "keyUp", "value": down["value"]} for down in reversed(downs)]
        await self.act({"type": "key", "id": "keys", "actions": [*downs, *ups]})

    async def middle(self, place):
        return await self.evaluate(middle_of(place))

    async def mouse(self, kind, x, y, **_):
        act = {"type": ACTS[kind], "button": 0}
        if kind == "mouseMoved":
            act = {"type": "pointerMove", "x": round(x), "y": round(y)}
        await self.act({**MOUSE, "actions": [act]})

    async def leave(self):
        """Nothing was thrown that nobody caught."""
        await self.close()
        same([text for context, text in self.browser.errors if context == self.context], [])

    async def lose_focus(self, other):
        """To another window, until it has a key."""
        await other.say("browsingContext.activate")

    async def close(self):
        await self.say("browsingContext.close")

    async def picture(self, file):
        await self.say("browsingContext.activate")
        await asyncio.sleep(0.4)
        shot = await self.say("browsingContext.captureScreenshot")
        pathlib.Path(file).write_bytes(base64.b64decode(shot["data"]))
