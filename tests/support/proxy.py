"""A proxy on the loopback, which delays what passes and cuts connections."""

import asyncio


class Proxy:
    """Passes bytes on to `port`, if there is one, until it is told to cut. `late` and `back` say of
    each connection how many seconds later a piece arrives at the relay, and at the client."""

    def __init__(self, port=None, late=lambda: 0, back=lambda: 0):
        self.port, self.links, self.late, self.back = port, set(), late, back

    async def begin(self):
        """Gives the port on which it listens."""
        self.listener = await asyncio.start_server(self._link, "127.0.0.1", 0)
        return self.listener.sockets[0].getsockname()[1]

    async def _link(self, reader, writer):
        try:
            far_reader, far_writer = await asyncio.open_connection("127.0.0.1", self.port)
        except (OSError, TypeError):
            writer.transport.abort()
            return
        ends = (writer.transport, far_writer.transport)
        self.links.add(ends)
        try:
            there = pass_on(reader, far_writer, self.late())
            await asyncio.gather(there, pass_on(far_reader, writer, self.back()))
        finally:
            self.links.discard(ends)

    def cut(self, chance=lambda: True, near=lambda: False):
        """Cuts links, each if the chance has it. What is on the way is lost; but where only the
        near end is cut, what the relay was sent gets there, perhaps when the client is back."""
        for ends in list(self.links):
            if chance():
                for end in ends[:1] if near() else ends:
                    end.abort()

    async def end(self):
        self.listener.close()
        self.cut()
        while self.links:
            await asyncio.sleep(0.01)


async def pass_on(reader, writer, delay):
    """Each piece arrives so many seconds after it was sent, in order, and so does the end."""
    clock, pieces = asyncio.get_running_loop().time, asyncio.Queue()
    delivering = asyncio.ensure_future(deliver(pieces, writer, clock))
    try:
        while some := await reader.read(4096):
            pieces.put_nowait((clock() + delay, some))
    except OSError:
        pass
    pieces.put_nowait((clock() + delay, None))
    await delivering


async def deliver(pieces, writer, clock):
    while True:
        moment, some = await pieces.get()
        await asyncio.sleep(max(0, moment - clock()))
        if some is None:
            break
        try:
            writer.write(some)
            await writer.drain()
        except OSError:
            break
    writer.close()
