"""A room that is given its document on each connection, with a relay that the test plays."""
import asyncio, unittest
from fake import (
    URL,
    FakeRelay,
    done,
    refused,
    relay_client,
    settle,
    snapshot,
    unawaited,
    watching,
    welcome,
)

EMPTY = {"cards": []}
BEGIN = [{"op": "test", "path": "", "value": None}, {"op": "add", "path": "", "value": EMPTY}]
PUSH = [{"op": "add", "path": "/cards/-", "value": "tea"}]


class Begin(unittest.IsolatedAsyncioTestCase):
    async def asyncSetUp(self):
        self.relay = FakeRelay()
        waits = {"first_wait": 0, "longest_wait": 0}
        self.board = relay_client.connect(
            URL, view=["/cards"], begin=EMPTY, open_link=self.relay.open_link, **waits
        )

    async def asyncTearDown(self):
        await self.board.close()

    def sent(self):
        return [request.get("patch", request["do"]) for request in self.relay.link.sent]

    async def enter(self, count, rev, epoch):
        await self.relay.until_link(count)
        await self.relay.say(welcome(rev, epoch))

    async def test_it_comes_before_the_view_and_before_edits_that_waited(self):
        unawaited(self.board.edit(PUSH))
        await self.enter(1, 0, 7)
        self.assertEqual(self.sent(), [BEGIN, "watch", PUSH])

    async def test_a_room_that_has_a_document_keeps_it(self):
        await self.enter(1, 4, 7)
        await self.relay.say(refused(1, "test-failed", 0), watching(2), snapshot(4, [[["milk"]]]))
        self.assertEqual((self.board.state, await self.board.ready), ("open", [[["milk"]]]))

    async def test_what_is_edited_during_a_restart_goes_in_behind_it(self):
        await self.enter(1, 0, 7)
        await self.relay.say(done(1, 1), watching(2), snapshot(1, [[[]]]))
        await self.relay.cut()
        unawaited(self.board.edit(PUSH))
        await self.enter(2, 0, 8)
        self.assertEqual(self.sent(), [BEGIN, "resume", PUSH])

    async def test_an_edit_that_is_sent_again_goes_in_behind_it(self):
        await self.enter(1, 0, 7)
        await self.relay.say(done(1, 1), watching(2), snapshot(1, [[[]]]))
        unawaited(self.board.edit(PUSH, base=1))
        await settle()
        await self.relay.cut()
        await self.enter(2, 1, 7)
        self.assertEqual(self.sent(), [BEGIN, "resume", PUSH])

    async def test_another_refusal_ends_the_board(self):
        states = []
        self.board._on_state = lambda *told: states.append(told)
        answer = self.board.edit(PUSH)
        await self.enter(1, 0, 7)
        await self.relay.say(refused(1, "too-heavy", 1))
        [(state, cause)] = states
        self.assertEqual((state, cause.fault, cause.at), ("closed", "too-heavy", 1))
        with self.assertRaisesRegex(relay_client.Refused, "too-heavy"):
            await self.board.ready
        with self.assertRaises(relay_client.Unknown):
            await answer

    async def test_it_is_no_step_of_undo(self):
        await self.enter(1, 0, 7)
        await self.relay.say(done(1, 1), watching(2), snapshot(1, [[[]]]))
        self.assertIsNone(await asyncio.wait_for(self.board.undo(), 1))
        self.assertEqual(self.board.pending, 0)

    async def test_what_is_no_json_is_refused_by_the_call(self):
        with self.assertRaisesRegex(ValueError, "^/begin/cards/0: "):
            relay_client.connect(
                URL, view=[""], begin={"cards": [1.5]}, open_link=self.relay.open_link
            )


if __name__ == "__main__":
    unittest.main()
