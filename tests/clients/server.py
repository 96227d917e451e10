"""The relay, started again and again, behind a proxy that cuts connections."""

import pathlib
import sys

sys.path.append(str(pathlib.Path(__file__).resolve().parents[1]))
from support import relay
from support.proxy import Proxy
from support.room import Room


class Relay:
    """One run of `relay serve`."""

    @classmethod
    async def begin(cls, program, epoch, history, outbox, port=0):
        begun, sizes = cls(), ("--history", history, "--outbox", outbox)
        begun.run = relay.Relay(*sizes, of=program, epoch=epoch, port=port)
        begun.process, begun.port = begun.run.process, begun.run.port
        return begun

    async def end(self):
        self.run.end()

    async def request(self, room, request, kind):
        return await Room(self.run, room).ask(request, kind)

    async def raise_to(self, room, rev):
        await Room(self.run, room).raise_to(rev)

    async def shows(self, room, view):
        return await Room(self.run, room).shows(view)
