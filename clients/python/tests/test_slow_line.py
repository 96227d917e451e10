"""Slots that take longer than the patience of a connection, and peers that are gone without a word.
All times are scaled."""
import asyncio, contextlib, json, unittest
import websockets
from fake import URL, FakeRelay, done, refused, relay_client, snapshot, unawaited, watching, welcome
from relay_client.patience import Patience

QUIET, PATIENCE = 0.2, 0.1
TIMES = {"quiet": QUIET, "patience": PATIENCE, "first_wait": 0.01, "longest_wait": 0.01}
LONG = "x" * 400_000
RATE = 400_000
"""Bytes a second on the slow line. So the slots take a second, and the connection has a patience of
0.3."""
SET = {"op": "replace", "path": "/n", "value": 2}


async def play_relay(socket, *path):
    """Answers as a relay with one document that nobody changes. Every other request is refused, as
    the client's question is."""
    messages = [welcome(1)]
    with contextlib.suppress(websockets.exceptions.ConnectionClosed):
        while True:
            for message in messages:
                await socket.send(json.dumps(message))
            request = json.loads(await socket.recv())
            watches = request.get("do") == "watch"
            messages = (
                [watching(request["id"]), snapshot(1, [[LONG]])]
                if watches
                else [refused(request["id"], "shape")]
            )


class SlowLine:
    """Passes bytes on to a port, `RATE` of them a second on the way to the client."""

    def __init__(self, port):
        self.port, self.connections = port, 0

    async def link(self, reader, writer):
        self.connections += 1
        far_reader, far_writer = await asyncio.open_connection("127.0.0.1", self.port)
        await asyncio.gather(
            self.pass_on(reader, far_writer, 0), self.pass_on(far_reader, writer, 1 / RATE)
        )

    async def pass_on(self, reader, writer, each):
        try:
            while some := await reader.read(4096):
                await asyncio.sleep(each * len(some))
                writer.write(some)
                await writer.drain()
        except OSError:
            pass
        writer.close()


@contextlib.asynccontextmanager
async def slow_line():
    async with websockets.serve(play_relay, "127.0.0.1", 0, compression=None) as server:
        line = SlowLine(server.sockets[0].getsockname()[1])
        listener = await asyncio.start_server(line.link, "127.0.0.1", 0)
        line.url = f"ws://127.0.0.1:{listener.sockets[0].getsockname()[1]}/rooms/slow"
        try:
            yield line
        finally:
            listener.close()


def connected(relay, **times):
    return relay_client.connect(
        URL, view=["/n"], open_link=relay.open_link, first_wait=0, longest_wait=0, **times
    )


async def promised(relay, number):
    """The relay's next connection, on which slots are due. The only request of each is its
    watch."""
    await relay.until_link(number)
    await relay.say(welcome(1))
    await relay.say(watching(relay.last["id"]))


async def lasts(link):
    """The seconds that a connection lasts on which nothing comes any more."""
    loop = asyncio.get_running_loop()
    began = loop.time()
    while not link.aborted:
        assert loop.time() < began + 10
        await asyncio.sleep(0.002)
    return loop.time() - began


class Slow(unittest.IsolatedAsyncioTestCase):
    async def test_slots_that_take_longer_than_the_patience_arrive(self):
        async with slow_line() as line, relay_client.connect(
            line.url, view=["/long"], **TIMES
        ) as board:
            self.assertEqual(await asyncio.wait_for(board.ready, 20), [[LONG]])
            self.assertLessEqual(line.connections, 4)

    async def test_nothing_is_asked_while_slots_are_due(self):
        relay = FakeRelay()
        board = connected(relay, quiet=0.05, patience=1)
        await promised(relay, 1)
        await asyncio.sleep(0.2)
        self.assertEqual([request["do"] for request in relay.link.sent], ["watch"])
        await relay.say(snapshot(1, [[1]]))
        await asyncio.sleep(0.1)
        self.assertEqual(relay.last, {"id": 2})
        await board.close()

    async def test_a_request_behind_slots_that_are_due_is_not_late(self):
        """Its answer comes behind them, and has its whole patience from then on."""
        relay = FakeRelay()
        board = connected(relay, quiet=0.4, patience=0.2)
        await promised(relay, 1)
        answer = board.edit([SET])
        await asyncio.sleep(0.3)
        await relay.say(snapshot(1, [[1]]))
        await asyncio.sleep(0.1)
        self.assertFalse(relay.links[0].aborted)
        await relay.say(done(2, 2))
        self.assertEqual(await asyncio.wait_for(answer, 1), 2)
        await board.close()


class Gone(unittest.IsolatedAsyncioTestCase):
    """A connection that is dead in one direction is found, later with each one in a row."""

    async def given_up(self, relay, number):
        """The seconds that the connection of that number lasts, on which slots are promised."""
        await promised(relay, number)
        return await lasts(relay.link)

    async def test_slots_that_were_promised_and_never_come(self):
        relay = FakeRelay()
        board = connected(relay, quiet=0.1, patience=0.05)
        lasted = [await self.given_up(relay, number) for number in (1, 2, 3)]
        for seconds, shortest in zip(lasted, (0.1, 0.2, 0.4)):
            self.assertGreater(seconds, shortest)
        await board.close()

    async def test_the_patience_is_the_first_one_again_once_slots_came(self):
        relay = FakeRelay()
        board = connected(relay, quiet=0.1, patience=0.05)
        for number in (1, 2, 3):
            await self.given_up(relay, number)
        await promised(relay, 4)
        await relay.say(snapshot(1, [[1]]))
        unawaited(board.edit([SET]))
        self.assertLess(await lasts(relay.link), 0.35)
        await board.close()

    def test_the_patience_is_bounded(self):
        patience = Patience(20, 10)
        self.assertEqual((patience.for_answers, patience.for_slots), (10, 30))
        for _ in range(100):
            patience.lost()
        self.assertEqual((patience.for_answers, patience.for_slots), (320, 960))


if __name__ == "__main__":
    unittest.main()
