"""Pages of a headless Firefox, over WebDriver BiDi (https://w3c.github.io/webdriver-bidi)."""
import asyncio, itertools, json, os, shutil, tempfile
import websockets


class Firefox:
    @classmethod
    async def begin(cls, program="firefox-esr"):
        firefox = cls()
        firefox.folder = tempfile.mkdtemp()
        words = ["--headless", "--no-remote", "--remote-debugging-port=0"]
        nowhere = asyncio.subprocess.DEVNULL
        firefox.process = await asyncio.create_subprocess_exec(
            program,
            *words,
            f"--profile={firefox.folder}",
            stdout=nowhere,
            stderr=nowhere,
            env={**os.environ, "HOME": firefox.folder},
        )
        told = f"{firefox.folder}/WebDriverBiDiServer.json"
        for _ in range(1200):
            if os.path.exists(told) and os.path.getsize(told):
                break
            await asyncio.sleep(0.05)
        port = json.load(open(told))["ws_port"]
        firefox.link = await websockets.connect(f"ws://127.0.0.1:{port}/session", max_size=None)
        firefox.ids, firefox.asked, firefox.errors = itertools.count(1), {}, []
        firefox.reading = asyncio.ensure_future(firefox.read())
        await firefox.say("session.new", capabilities={})
        await firefox.say("session.subscribe", events=["log.entryAdded"])
        return firefox

    async def read(self):
        """Answers by their numbers, and what is written to the console in red."""
        try:
            async for text in self.link:
                message = json.loads(text)
                if "id" in message:
                    self.asked.pop(message["id"]).set_result(message)
                elif message.get("params", {}).get("level") == "error":
                    self.errors.append(message["params"]["text"])
        except websockets.exceptions.ConnectionClosed:
            pass

    async def say(self, method, **words):
        number = next(self.ids)
        self.asked[number] = answer = asyncio.get_running_loop().create_future()
        await self.link.send(json.dumps({"id": number, "method": method, "params": words}))
        told = await answer
        assert told["type"] == "success", told
        return told["result"]

    async def end(self):
        self.reading.cancel()
        await self.link.close()
        self.process.terminate()
        await self.process.wait()
        shutil.rmtree(self.folder, ignore_errors=True)


class FirefoxPage:
    @classmethod
    async def open(cls, firefox, address):
        page = cls()
        page.firefox = firefox
        page.context = (await firefox.say("browsingContext.create", type="tab"))["context"]
        await firefox.say(
            "browsingContext.navigate", context=page.context, url=address, wait="complete"
        )
        return page

    async def evaluate(self, expression):
        """The value of an expression, or of what it promises."""
        told = await self.firefox.say(
            "script.evaluate",
            expression=f"(async () => JSON.stringify(await ({expression})))()",
            target={"context": self.context},
            awaitPromise=True,
        )
        assert told["type"] == "success", told
        return json.loads(told["result"]["value"])

    async def leave(self):
        await self.firefox.say("browsingContext.close", context=self.context)
