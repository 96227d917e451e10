"""A relay that a test plays by hand, over a connection that is no socket."""
import asyncio, json, os, sys
from contextlib import asynccontextmanager

sys.path.insert(0, os.path.dirname(os.path.dirname(os.path.abspath(__file__))))
import relay_client

URL = "ws://127.0.0.1:1/rooms/play"


class FakeLink:
    def __init__(self):
        self.heard = asyncio.Queue()  # texts for the client; None ends the connection
        self.sent = []
        self.aborted = False

    async def __aiter__(self):
        while (text := await self.heard.get()) is not None:
            yield text

    async def send(self, text):
        self.sent.append(json.loads(text))

    def abort(self):
        self.aborted = True
        self.heard.put_nowait(None)


class FakeRelay:
    """Each handshake is answered by the next of `answers`, as an exception; or let in, once there
    is none."""

    def __init__(self, *answers):
        self.answers, self.links = list(answers), []

    @asynccontextmanager
    async def open_link(self, url):
        if self.answers:
            raise self.answers.pop(0)
        self.links.append(FakeLink())
        yield self.links[-1]

    @property
    def link(self):
        return self.links[-1]

    async def say(self, *messages):
        for message in messages:
            self.link.heard.put_nowait(json.dumps(message))
        await settle()

    async def cut(self):
        self.link.heard.put_nowait(None)
        await settle()

    async def until_link(self, count):
        for _ in range(500):
            if len(self.links) >= count:
                return await settle()
            await asyncio.sleep(0.002)
        raise AssertionError(f"{len(self.links)} connections, and not {count}")

    async def begin(self, view, slots, rev=1, epoch=7, **options):
        """A board that is open, with these slots."""
        board = relay_client.connect(
            URL, view=view, open_link=self.open_link, first_wait=0, longest_wait=0, **options
        )
        await self.until_link(1)
        await self.say(welcome(rev, epoch))
        await self.say(watching(self.last["id"]), snapshot(rev, slots))
        assert board.state == "open", board.state
        return board

    @property
    def last(self):
        return self.link.sent[-1]


async def settle():
    for _ in range(20):
        await asyncio.sleep(0)


def unawaited(future):
    """Of a future whose outcome is not what a test is about."""
    future.add_done_callback(lambda future: future.cancelled() or future.exception())


def welcome(rev=0, epoch=7, session=1):
    return {"epoch": epoch, "kind": "welcome", "rev": rev, "session": session}


def watching(number):
    return {"id": number, "kind": "watching"}


def snapshot(rev, slots):
    return {"kind": "snapshot", "rev": rev, "view": slots}


def patch(rev, *operations):
    return {"kind": "patch", "patch": list(operations), "rev": rev}


def done(number, rev):
    return {"id": number, "kind": "done", "rev": rev}


def refused(number, fault, at=None, **more):
    return {"at": at, "fault": fault, "id": number, "kind": "refused", **more}
