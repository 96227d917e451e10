"""Pages of a headless Chromium, over its debugger's port."""
import asyncio, itertools, json, os, shutil, tempfile, urllib.parse, urllib.request
import websockets


class Browser:
    """A headless Chromium, which listens for a debugger."""

    @classmethod
    async def begin(cls, program):
        browser = cls()
        browser.folder = tempfile.mkdtemp()
        flags = [
            "--headless=new",
            "--disable-gpu",
            "--remote-debugging-port=0",
            f"--user-data-dir={browser.folder}",
        ]
        flags += [
            "--disable-background-timer-throttling",
            "--disable-renderer-backgrounding",
            "--remote-allow-origins=*",
        ]
        flags += ["--no-sandbox"] if os.getuid() == 0 else []
        nowhere = asyncio.subprocess.DEVNULL
        browser.process = await asyncio.create_subprocess_exec(
            program, *flags, stdout=nowhere, stderr=nowhere
        )
        told = f"{browser.folder}/DevToolsActivePort"
        while not (os.path.exists(told) and os.path.getsize(told)):
            await asyncio.sleep(0.05)
        browser.port = int(open(told).readline())
        return browser

    async def end(self):
        self.process.terminate()
        await self.process.wait()
        shutil.rmtree(self.folder, ignore_errors=True)


class Page:
    @classmethod
    async def open(cls, browser, address):
        page = cls()
        target = f"http://127.0.0.1:{browser.port}/json/new?{urllib.parse.quote(address, safe='')}"
        asking = urllib.request.Request(target, method="PUT")
        told = json.load(await asyncio.to_thread(urllib.request.urlopen, asking))
        page.link = await websockets.connect(told["webSocketDebuggerUrl"], max_size=None)
        page.ids, page.asked, page.told = itertools.count(1), {}, {}
        page.reading = asyncio.ensure_future(page.read())
        return page

    async def read(self):
        """Answers by their numbers, and of each event the newest one."""
        try:
            async for text in self.link:
                message = json.loads(text)
                if "id" in message:
                    self.asked.pop(message["id"]).set_result(message)
                else:
                    self.told[message["method"]] = message["params"]
        except websockets.exceptions.ConnectionClosed:
            pass

    async def say(self, method, **words):
        number = next(self.ids)
        self.asked[number] = answer = asyncio.get_running_loop().create_future()
        await self.link.send(json.dumps({"id": number, "method": method, "params": words}))
        reply = await answer
        if "error" in reply:
            raise AssertionError(f"{method}: {reply['error']['message']}")
        return reply["result"]

    async def evaluate(self, expression):
        """The value of an expression, or of what it promises; None if the page is loaded anew
        meanwhile."""
        words = {"expression": expression, "awaitPromise": True, "returnByValue": True}
        try:
            answer = await self.say("Runtime.evaluate", **words)
        except AssertionError:
            return None
        return answer["result"].get("value")

    async def until(self, expression, wanted):
        for _ in range(1000):
            seen = await self.evaluate(expression)
            if seen == wanted:
                return
            await asyncio.sleep(0.02)
        raise AssertionError(f"{seen}, and not {wanted}")

    async def leave(self):
        closing = asyncio.ensure_future(self.say("Page.close"))
        await asyncio.wait([closing, self.reading], return_when=asyncio.FIRST_COMPLETED)
        closing.cancel()
        self.reading.cancel()
        await self.link.close()
