"""Both clients, played in the same way: the one in Python, and the one in JavaScript in Node and in
a browser."""
import asyncio, itertools, json, os, sys
from browser import Page

ROOT = os.path.dirname(os.path.dirname(os.path.dirname(os.path.abspath(__file__))))
sys.path.insert(0, f"{ROOT}/clients/python")
import relay_client


WATCHES = "watch"
"""Behind its words: a player that only watches."""


class InPython:
    def __init__(self, url, view, *more):
        self.handed = []  # slots that were handed out, and what they were then
        waits = {"first_wait": 0.01, "longest_wait": 0.1, "on_state": lambda state, cause: None}
        waits["read_only"] = WATCHES in more
        self.board = relay_client.connect(
            url, view=view, on_change=self.keep, once="/once", **waits
        )
        self.counter = relay_client.connect(url, view=["/count"], **waits)
        self.changer = relay_client.connect(url, view=["/changed", "/log"], **waits)

    def keep(self, change):
        self.handed = self.handed[-20:] + [(change.slots, json.dumps(change.slots))]

    async def edit(self, patch, how):
        return await self.answer(self.board, patch, how)

    async def answer(self, board, patch, how):
        """The outcome of an edit: on the revision of the board's slots if it is `based`, or
        `once`."""
        based = {"base": board.rev}
        options = {"based": based, "once": {"once": True}}.get(how, {})
        seen = {**based, "of": board.epoch} if how == "based" else options
        try:
            return {**seen, "rev": await board.edit(patch, **options)}
        except relay_client.Refused as refused:
            return {**seen, "fails": "Refused", "fault": refused.fault}
        except relay_client.Unknown as unknown:
            return {**seen, "fails": "Unknown", "known": unknown.rev}

    async def count(self, logged):
        """Reads the count and writes the next one, until nobody was faster."""
        await self.counter.ready
        while True:
            [[count]] = self.counter.slots
            patch = [{"op": "replace", "path": "/count", "value": count + 1}, logged]
            answer = await self.answer(self.counter, patch, "based")
            if answer.get("fault") != "stale":
                return answer
            await self.counter.watch(["/count"])

    async def change(self, tag):
        """Raises a number and leaves a tag, by a draft."""

        def make(draft):
            draft["log"].append(tag)
            draft["changed"] += 1

        try:
            return {"rev": await self.changer.change(make, tries=1000)}
        except (relay_client.Refused, relay_client.Unknown) as error:
            return {"fails": type(error).__name__, "fault": getattr(error, "fault", None)}

    async def watch(self, view):
        await self.board.watch(view)

    async def look(self):
        board = self.board
        spoiled = any(json.dumps(slots) != text for slots, text in self.handed)
        return {
            "view": board.view,
            "slots": board.slots,
            "rev": board.rev,
            "state": board.state,
            "spoiled": spoiled,
        }

    async def leave(self):
        await self.board.close()
        await self.counter.close()
        await self.changer.close()


class InJavaScript:
    async def edit(self, patch, how):
        return await self.ask(do="edit", patch=patch, how=how)

    async def count(self, logged):
        return await self.ask(do="count", logged=logged)

    async def change(self, tag):
        return await self.ask(do="change", tag=tag)

    async def watch(self, view):
        await self.ask(do="watch", view=view)

    async def look(self):
        return await self.ask(do="look")


class InProcess(InJavaScript):
    """A program that is asked by lines, as tests/clients/player.js is."""

    @classmethod
    async def begin(cls, program, url, view, *more):
        player = cls()
        words, pipe = [*program, url, json.dumps(view), *more], asyncio.subprocess.PIPE
        player.process = await asyncio.create_subprocess_exec(
            *words, stdin=pipe, stdout=pipe, limit=2**24
        )
        player.ids, player.asked = itertools.count(1), {}
        player.reading = asyncio.ensure_future(player.read())
        return player

    async def read(self):
        async for line in self.process.stdout:
            answer = json.loads(line)
            self.asked.pop(answer.pop("id")).set_result(answer)

    async def ask(self, **words):
        number = next(self.ids)
        self.asked[number] = asyncio.get_running_loop().create_future()
        self.process.stdin.write(json.dumps({"id": number, **words}).encode() + b"\n")
        return await self.asked[number]

    async def leave(self):
        self.process.stdin.close()
        await self.process.wait()
        self.reading.cancel()


class InNode(InProcess):
    """tests/clients/player.js."""

    @classmethod
    async def begin(cls, node, url, view, *more):
        return await super().begin([*node, f"{ROOT}/tests/clients/player.js"], url, view, *more)


class InGo(InProcess):
    """tests/clients/go, as clients/go/build makes it."""

    @classmethod
    async def begin(cls, program, url, view, *more):
        return await super().begin([program], url, view, *more)


class InJava(InProcess):
    """tests/clients/Player.java, by the program that clients/java/build makes."""

    @classmethod
    async def begin(cls, program, url, view, *more):
        return await super().begin([program, "Player"], url, view, *more)


async def in_each_language(url, view, *more):
    """A player for each client. Go's and Java's are the programs that GO_PLAYER and JAVA_PLAYER
    name; without one its client is left out."""
    node = os.environ.get("NODE_WORDS", "node").split()
    found = [InPython(url, view, *more), await InNode.begin(node, url, view, *more)]
    if go := os.environ.get("GO_PLAYER"):
        found.append(await InGo.begin(go, url, view, *more))
    if java := os.environ.get("JAVA_PLAYER"):
        found.append(await InJava.begin(java, url, view, *more))
    return found


class InBrowser(InJavaScript):
    """tests/clients/player.html."""

    @classmethod
    async def begin(cls, browser, url, view):
        player = cls()
        player.page = await Page.open(browser, f"file://{ROOT}/tests/clients/player.html")
        await player.page.until("document.readyState === 'complete' && 'play' in globalThis", True)
        await player.page.evaluate(
            f"globalThis.player = play(relay, {json.dumps(url)}, {json.dumps(view)}), true"
        )
        return player

    async def ask(self, **words):
        return await self.page.evaluate(f"player({json.dumps(words)})")

    async def leave(self):
        await self.page.leave()
