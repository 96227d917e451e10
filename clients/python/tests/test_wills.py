"""Wills, with a relay that the test plays: what the conformance suite does not ask."""
import asyncio, unittest
from fake import FakeRelay, done, refused, relay_client
from fake import settle, snapshot, unawaited, watching, welcome

GONE = [{"op": "remove", "path": "/here/ann"}]
BEGIN = {"here": {}}


class Wills(unittest.IsolatedAsyncioTestCase):
    async def asyncSetUp(self):
        self.relay = FakeRelay()

    async def begin(self, **options):
        return await self.relay.begin(["/here"], [[{}]], **options)

    async def leave(self, board, patch=GONE):
        left = board.will(patch)
        await settle()
        await self.relay.say({"id": self.relay.last["id"], "kind": "willing"})
        await left

    async def test_it_is_left_again_behind_what_begins_the_room_and_asks_for_the_slots(self):
        relay = FakeRelay()
        options = {"view": ["/here"], "begin": BEGIN, "open_link": relay.open_link, "first_wait": 0}
        async with relay_client.connect("ws://127.0.0.1:1/rooms/a", **options) as board:
            await relay.until_link(1)
            await relay.say(welcome())
            begins, watches = (request["id"] for request in relay.link.sent)
            await relay.say(done(begins, 1), watching(watches), snapshot(1, [[{}]]))
            left = board.will(GONE)
            await settle()
            await relay.say({"id": relay.last["id"], "kind": "willing"})
            await left
            waits = board.edit([], base=1)
            unawaited(waits)
            await settle()
            await relay.cut()
            await relay.until_link(2)
            await relay.say(welcome(1))
            words = [request["do"] for request in relay.link.sent]
            self.assertEqual(words, ["edit", "resume", "will", "edit"])
            self.assertEqual(relay.link.sent[2]["patch"], GONE)

    async def test_of_a_board_that_is_closed_it_fails_and_asks_for_nothing(self):
        board = await self.begin()
        left = board.will(GONE)
        await settle()
        await board.close()
        for will in (left, board.will([])):
            with self.assertRaises(relay_client.Closed):
                await will
        self.assertEqual([request["do"] for request in self.relay.link.sent], ["watch", "will"])

    async def test_sync_waits_for_it(self):
        board = await self.begin()
        left = board.will(GONE)
        unawaited(left)
        synced = asyncio.ensure_future(board.sync())
        await settle()
        self.assertEqual([request["do"] for request in self.relay.link.sent], ["watch", "will"])
        await self.relay.say(refused(self.relay.last["id"], "shape"))
        self.assertEqual(self.relay.last["do"], "watch")
        await self.relay.say(watching(self.relay.last["id"]), snapshot(1, [[{}]]))
        self.assertEqual(await synced, [[{}]])
        await board.close()

    async def test_what_is_no_json_is_an_error_of_the_call(self):
        board = await self.begin()
        with self.assertRaises(TypeError):
            board.will([{"op": "add", "path": "/here/ann", "value": object()}])
        await board.close()

    async def test_one_that_was_withdrawn_is_left_again_as_an_empty_patch(self):
        board = await self.begin()
        await self.leave(board)
        await self.leave(board, [])
        await self.relay.cut()
        await self.relay.until_link(2)
        await self.relay.say(welcome(1))
        self.assertEqual(self.relay.last["patch"], [])
        await board.close()


if __name__ == "__main__":
    unittest.main()
