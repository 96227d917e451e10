"""Failures at which nobody looks: asyncio reports each, but for those that the board has told."""
import asyncio, gc, unittest
from fake import FakeRelay, refused, relay_client, settle, snapshot, watching, welcome

TEST = [{"op": "test", "path": "/n", "value": 2}]


def set_n(draft):
    draft["n"] = 2


def bug(draft):
    raise TypeError("a bug")


class Ignored(unittest.IsolatedAsyncioTestCase):
    async def begin(self, **options):
        self.reported = []
        asyncio.get_running_loop().set_exception_handler(
            lambda loop, context: self.reported.append(str(context["exception"]).split()[0])
        )
        self.relay = FakeRelay()
        self.board = await self.relay.begin(["/n"], [[1]], **options)
        self.addAsyncCleanup(self.board.close)

    async def ignore(self, fault, ask):
        """Returns what is reported of what is asked for, is refused, and is forgotten."""
        ask()
        await settle()
        await self.relay.say(refused(self.relay.last["id"], fault, 0))
        gc.collect()
        await settle()
        told, self.reported = self.reported, []
        return told

    async def test_what_fails_is_reported(self):
        await self.begin()
        board = self.board
        for fault, ask in [
            ("test-failed", lambda: board.edit(TEST)),
            ("test-failed", lambda: board.edit(TEST, optimistic=True)),
            ("too-heavy", lambda: board.at("/n").set(2)),
            ("too-heavy", lambda: board.change(set_n, guard="none")),
            ("shape", lambda: board.will(TEST)),
        ]:
            self.assertEqual(await self.ignore(fault, ask), [fault])

    async def test_a_bug_that_shows_when_the_slots_come_is_reported(self):
        await self.begin()
        backs, relay = [], FakeRelay()
        told = {"on_taken_back": lambda *told: backs.append(told)}
        open_link = {"open_link": relay.open_link}
        board = relay_client.connect("ws://h/rooms/a", view=["/n"], **open_link, **told)
        self.addAsyncCleanup(board.close)
        board.change(bug)
        await relay.until_link(1)
        await relay.say(welcome(1))
        await relay.say(watching(relay.last["id"]), snapshot(1, [[1]]))
        gc.collect()
        await settle()
        self.assertEqual((self.reported, backs), (["a"], []))

    async def test_what_the_board_was_told_of_is_not(self):
        backs = []
        await self.begin(on_taken_back=lambda patch, cause: backs.append(cause.fault))
        board = self.board
        shown = lambda: board.edit(TEST, optimistic=True)
        self.assertEqual(await self.ignore("test-failed", shown), [])
        made = lambda: board.change(set_n, guard="none")
        self.assertEqual(await self.ignore("too-heavy", made), [])
        self.assertEqual(backs, ["test-failed", "too-heavy"])
        plain = lambda: board.edit(TEST)
        self.assertEqual(await self.ignore("test-failed", plain), ["test-failed"])
