"""Windows of a headless Chromium, and the acts that windows of both browsers have."""

import asyncio
import base64
import json
import pathlib
import sys

from support.relay import ROOT

sys.path.append(str(ROOT / "tests/clients"))
from browser import Page

FRAME = "new Promise((done) => {act}(() => {act}(() => done(%s))))"
FRAME = FRAME.replace("{act}", "requestAnimationFrame")
MIDDLE = (
    "(({ x, y, width, height }) => [x + width / 2, y + height / 2])(%s.getBoundingClientRect())"
)
CODES = {"Tab": 9, "Enter": 13, "Escape": 27, "Delete": 46}
CODES.update({"ArrowLeft": 37, "ArrowUp": 38, "ArrowRight": 39, "ArrowDown": 40})
ALT, CTRL, SHIFT = 1, 2, 8
SEATS = "document.querySelectorAll('#tables button')"


def element(place):
    return f"document.querySelector({json.dumps(place)})"


def middle_of(place):
    return MIDDLE % element(place)


def text_of(place):
    return f"{element(place)}.textContent"


def address_of(page, **query):
    """A page of examples/, with these words behind its address."""
    words = "&".join(f"{name}={value}" for name, value in query.items())
    return f"file://{ROOT}/examples/{page}.html?{words}"


class Acts:
    """The acts of somebody in a window of either browser, by keys and by the mouse."""

    @classmethod
    async def of(cls, browser, page, width=1400, height=800, **query):
        window = await cls.open(browser, address_of(page, **query))
        await window.have(width, height)
        return window

    async def until(self, expression, wanted):
        for _ in range(1000):
            seen = await self.evaluate(expression)
            if seen == wanted:
                return
            await asyncio.sleep(0.02)
        raise AssertionError(f"{seen}, and not {wanted}")

    async def click(self, place):
        await self.evaluate(f"{element(place)}.scrollIntoView({{ block: 'nearest' }})")
        x, y = await self.at_rest(place)
        await self.mouse("mouseMoved", x, y)
        await self.mouse("mousePressed", x, y, buttons=1)
        await self.mouse("mouseReleased", x, y)

    async def at_rest(self, place):
        """The middle of what stands still: a card that was moved flies for a while."""
        before = None
        for _ in range(100):
            now = await self.middle(place)
            if now == before:
                break
            before = now
            await asyncio.sleep(0.05)
        return now

    async def keys(self, text):
        """Presses the key of each sign, so the page hears of it before the sign is there."""
        for sign in text:
            await self.key(sign)

    async def type(self, text):
        """In the place of what stands in the input; it is not entered yet."""
        await self.key("a", CTRL)
        await self.keys(text)

    async def enter(self, place, text):
        await self.click(place)
        await self.type(text)
        await self.key("Enter")

    async def submit(self, text, place="input"):
        """By a script, so also while the page is away."""
        value = f"{element(place)}.value = {json.dumps(text)}"
        await self.evaluate(f"{value}, document.querySelector('form').requestSubmit()")

    async def press(self, place):
        """By a script, whatever lies above."""
        await self.evaluate(f"{element(place)}.click()")

    async def focus(self, place):
        await self.evaluate(f"{element(place)}.focus()")

    async def again(self):
        """The same page, after its address was visited anew."""
        await self.visit(await self.evaluate("location.href"))

    async def lift(self, place):
        x, y = await self.middle(place)
        await self.mouse("mouseMoved", x, y)
        await self.mouse("mousePressed", x, y, buttons=1)
        await self.mouse("mouseMoved", x + 4, y + 8, buttons=1)

    async def carry(self, other):
        """Above another card."""
        x, y = await self.middle(other)
        await self.mouse("mouseMoved", x, y - 6, buttons=1)
        return x, y - 6


class Window(Acts, Page):
    """A window of Chromium."""

    async def have(self, width, height):
        await self.say("Page.enable")
        await self.say("Runtime.enable")
        # Each window keeps its focus while the other one is used, as on two machines.
        await self.say("Emulation.setFocusEmulationEnabled", enabled=True)
        size = {"width": width, "height": height, "deviceScaleFactor": 1, "mobile": False}
        await self.say("Emulation.setDeviceMetricsOverride", **size)
        await self.shade("light")

    async def shade(self, scheme):
        features = [{"name": "prefers-color-scheme", "value": scheme}]
        await self.say("Emulation.setEmulatedMedia", features=features)

    async def leave(self):
        """Nothing was thrown that nobody caught."""
        same(self.told.get("Runtime.exceptionThrown"), None)
        await self.close()

    async def lose_focus(self, other):
        """To another window, until it has a key."""
        await self.say("Emulation.setFocusEmulationEnabled", enabled=False)
        await other.say("Page.bringToFront")

    async def close(self):
        await Page.leave(self)

    async def kill(self):
        """As the system does it: the page can say nothing more."""
        crashed = asyncio.ensure_future(self.say("Page.crash"))
        await asyncio.sleep(0.1)
        crashed.cancel()

    async def middle(self, place):
        """The point where a thing is when it has come to rest. A window behind another one has no
        frames."""
        await self.say("Page.bringToFront")
        resting = "Promise.all(document.getAnimations().map((each) => each.finished))"
        await self.evaluate(f"{resting}.then(() => true)")
        return await self.evaluate(middle_of(place))

    async def mouse(self, kind, x, y, **words):
        words = {"x": x, "y": y, "button": "left", "clickCount": 1, **words}
        await self.say("Input.dispatchMouseEvent", type=kind, **words)

    async def visit(self, address):
        self.told.pop("Page.loadEventFired", None)
        await self.say("Page.navigate", url=address)
        while "Page.loadEventFired" not in self.told:
            await asyncio.sleep(0.01)

    async def key(self, key, modifiers=0):
        await self.say("Page.bringToFront")
        words = {"key": key, "windowsVirtualKeyCode": CODES.get(key, ord(key[0].upper()))}
        words |= {"code": key if key in CODES else f"Key{key.upper()}", "modifiers": modifiers}
        if not key.isalpha():
            words["code"] = "Space" if key == " " else ""
        text = {"Enter": "\r", "Tab": ""}.get(key, key if len(key) == 1 else "")
        if modifiers & (ALT | CTRL):
            text, words["commands"] = "", ["selectAll"] if key == "a" else []
        await self.say("Input.dispatchKeyEvent", type="rawKeyDown", **words)
        if text:
            await self.say("Input.dispatchKeyEvent", type="char", text=text, **words)
        await self.say("Input.dispatchKeyEvent", type="keyUp", **words)

    async def touch_to(self, place, other):
        """With a finger."""
        (x, y), (far_x, far_y) = await self.middle(place), await self.middle(other)
        touch = "Input.dispatchTouchEvent"
        await self.say(touch, type="touchStart", touchPoints=[{"x": x, "y": y}])
        for step in range(1, 11):
            at = {"x": x + (far_x - x) * step / 10, "y": y + (far_y - 6 - y) * step / 10}
            await self.say(touch, type="touchMove", touchPoints=[at])
        await self.say(touch, type="touchEnd", touchPoints=[])

    async def next_frame(self, expression):
        await self.say("Page.bringToFront")
        return await self.evaluate(FRAME % expression)

    async def picture(self, file):
        await self.say("Page.bringToFront")
        await asyncio.sleep(0.4)
        shot = await self.say("Page.captureScreenshot", format="png")
        pathlib.Path(file).write_bytes(base64.b64decode(shot["data"]))


def same(seen, wanted):
    if seen != wanted:
        raise AssertionError(f"{seen}, and not {wanted}")
