"""A good client, which keeps to the protocol: one room of a relay, asked over connections of its
own. It needs Debian's python3-websockets."""

import json

import websockets


class Room:
    def __init__(self, relay, name):
        self.url = relay.url(name)

    def enter(self):
        return websockets.connect(self.url, max_size=None)

    async def ask(self, request, kind):
        """The first message of a kind that comes after one request."""
        async with self.enter() as link:
            await link.send(json.dumps({"id": 1, **request}))
            async for text in link:
                message = json.loads(text)
                if message["kind"] == kind:
                    return message

    async def edit(self, *operations):
        return await self.ask({"do": "edit", "patch": operations}, "done")

    async def set(self, document, path=""):
        return await self.edit({"op": "add", "path": path, "value": document})

    async def shows(self, view):
        """The revision, and the slots that a fresh watcher is shown."""
        snapshot = await self.ask({"do": "watch", "view": view}, "snapshot")
        return snapshot["rev"], snapshot["view"]

    async def document(self):
        return (await self.shows([""]))[1][0][0]

    async def raise_to(self, rev):
        """Edits that change nothing, up to that revision."""
        begun, _ = await self.shows([])
        async with self.enter() as link:
            await link.recv()
            for _ in range(begun, rev):
                await link.send(json.dumps({"id": 1, "do": "edit", "patch": []}))
                await link.recv()
