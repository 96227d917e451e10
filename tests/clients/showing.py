"""The Python client with edits that show at once: does what `show` and `lines` of jobs.js do."""
import json
from contextlib import asynccontextmanager
from players import relay_client
from relay_client.transport import websocket


class ShowingInPython:
    def __init__(self, url, view):
        # How the slots were over time, which edits had been asked for, and which of those had been
        # taken back.
        self.lines = []
        self.asked, self.run = [], None
        waits = {"first_wait": 0.01, "longest_wait": 0.1, "on_state": lambda state, cause: None}
        told = {"on_change": lambda change: self.line(), "on_taken_back": self.taken_back}
        self.board = relay_client.connect(url, view=view, open_link=self.noting, **told, **waits)

    @asynccontextmanager
    async def noting(self, url):
        async with websocket({}, 10)(url) as link:
            yield Noting(link, self)

    def line(self):
        board, back = self.board, [k for k, edit in enumerate(self.asked) if edit["back"]]
        shown = {
            "view": board.view,
            "slots": board.slots,
            "confirmed": board.confirmed,
            "rev": board.rev,
            "epoch": board.epoch,
        }
        # A copy: no later change writes to slots.
        counts = {"pending": board.pending, "asked": len(self.asked), "back": back}
        self.lines.append(json.loads(json.dumps({**shown, **counts})))

    def taken_back(self, patch, cause):
        tag = patch[-1]["value"]
        [k] = [k for k, edit in enumerate(self.asked) if edit["patch"][-1]["value"] == tag]
        self.asked[k]["back"] = True
        if self.lines:
            self.lines[-1]["back"].append(k)  # the last line was written without it

    async def ask(self, do, **words):
        return await {"show": self.show, "lines": self.told}[do](**words)

    async def show(self, patch, based):
        await self.board.ready
        edit = {"patch": patch, "back": False, "done": None}
        self.asked.append(edit)
        try:
            answer = self.board.edit(
                patch, optimistic=True, **({"base": self.board.rev} if based else {})
            )
            edit["done"] = await answer
        except (relay_client.Refused, relay_client.Unknown) as error:
            return {"fails": type(error).__name__}
        edit["epoch"] = self.run
        return {"rev": edit["done"]}

    async def told(self):
        lines, self.lines = self.lines, []
        board = self.board
        last = {
            "slots": board.slots,
            "confirmed": board.confirmed,
            "pending": board.pending,
            "state": board.state,
        }
        return {"lines": lines, "edits": self.asked, "last": last}

    async def leave(self):
        await self.board.close()


class Noting:
    """A connection that notes to which run of the relay it leads."""

    def __init__(self, link, player):
        self.link, self.player = link, player
        self.send, self.abort = link.send, link.abort

    async def __aiter__(self):
        async for text in self.link:
            message = json.loads(text)
            if message["kind"] == "welcome":
                self.player.run = message["epoch"]
            yield text
