#!/usr/bin/env python3
"""The Python client, driven by the lines of docs/CONFORMANCE.md."""
import asyncio, json, os, sys
from contextlib import asynccontextmanager

HERE = os.path.dirname(os.path.abspath(__file__))
sys.path.insert(0, os.environ.get("PYTHON_CLIENT", f"{HERE}/../../../clients/python"))
import relay_client

HOUR = 3600
TIMES = {"first_wait": 0.001, "longest_wait": 0.001, "quiet": HOUR, "patience": HOUR}
"""No time is played, so none may pass: neither before another connection, nor until the client asks
whether the relay is there."""
SETTLED = 50
"""Rounds of the event loop after which everything has followed that follows without time."""


def tell(**line):
    print(json.dumps(line), flush=True)


class Link:
    def __init__(self):
        self.heard = asyncio.Queue()  # None ends it

    async def __aiter__(self):
        while (text := await self.heard.get()) is not None:
            yield text

    async def send(self, text):
        tell(says=text)

    def abort(self):
        self.heard.put_nowait(None)


class Driver:
    def __init__(self):
        self.board, self.link, self.handshake = None, None, None
        self.former = None  # the connection that was lost or left last

    @asynccontextmanager
    async def open_link(self, url):
        self.handshake = asyncio.get_running_loop().create_future()
        tell(opens=url)
        await self.handshake
        self.link = link = Link()
        try:
            yield link
        finally:
            if self.link is link:
                tell(leaves=True)
                self.former, self.link = link, None

    async def connect(self, url, view, readOnly=False):
        options = {"read_only": readOnly, "open_link": self.open_link, **TIMES}
        self.board = relay_client.connect(url, view=view, **options)

    async def accept(self):
        self.handshake.set_result(None)

    async def fail(self, status=None):
        reason = "unreachable" if status is None else "refused"
        self.handshake.set_exception(relay_client.HandshakeFailed(reason, status))

    async def hear(self, text):
        self.link.heard.put_nowait(text)

    async def late(self, text):
        self.former.heard.put_nowait(text)

    async def cut(self):
        self.former, self.link = self.link, None
        self.former.heard.put_nowait(None)

    async def edit(self, key, patch, **more):
        try:
            done = self.board.edit(patch, **more)
        except (TypeError, ValueError) as error:
            tell(ends=key, invalid=str(error))
        else:
            asyncio.ensure_future(self.ends(key, "done", done))

    async def endRoom(self, key):
        asyncio.ensure_future(self.ends(key, "done", self.board.end()))

    async def will(self, key, patch):
        asyncio.ensure_future(self.ends(key, "willing", self.left(patch)))

    async def left(self, patch):
        await self.board.will(patch)
        return True

    async def watch(self, key, view):
        asyncio.ensure_future(self.ends(key, "shown", self.board.watch(view)))

    async def ends(self, key, word, asked):
        try:
            tell(ends=key, **{word: await asked})
        except relay_client.Refused as refused:
            tell(ends=key, refused=refused.fault, at=refused.at, rev=refused.rev)
        except relay_client.Unknown:
            tell(ends=key, unknown=True)
        except relay_client.Superseded:
            tell(ends=key, superseded=True)
        except relay_client.Closed:
            tell(ends=key, closed=True)

    async def look(self):
        board = self.board
        tell(
            held={
                "view": board.view,
                "slots": board.confirmed,
                "rev": board.rev,
                "epoch": board.epoch,
                "shown": board.slots,
            }
        )

    async def end(self):
        await self.board.close()


async def main():
    driver = Driver()
    tell(traits=["optimistic", "late", "read-only", "end-room", "wills"])
    while line := await asyncio.to_thread(sys.stdin.readline):
        words = json.loads(line)
        await getattr(driver, words.pop("do"))(**words)
        for _ in range(SETTLED):
            await asyncio.sleep(0)


asyncio.run(main())
