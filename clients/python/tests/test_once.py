"""Edits that are sent again by a counter, and done once: with a relay that the test plays."""
import unittest
from fake import FakeRelay, done, patch, refused, relay_client, settle, snapshot, watching, welcome


def push(value):
    return [{"op": "add", "path": "/cards/-", "value": value}]


def missing(number):
    return refused(number, "missing", 0)


class Once(unittest.IsolatedAsyncioTestCase):
    async def begin(self, **options):
        self.relay = FakeRelay()
        self.board = await self.relay.begin(["/cards"], [[[]]], once="/counters", **options)
        self.addAsyncCleanup(self.board.close)

    async def counted(self, value):
        """An edit that is on its way behind its counter."""
        edited = self.board.edit(push(value), once=True, optimistic=True)
        await settle()
        [added] = self.relay.last["patch"]
        self.assertEqual((added["op"], added["value"]), ("add", 0))
        self.path = added["path"]
        self.assertTrue(self.path.startswith("/counters/"))
        await self.relay.say(done(self.relay.last["id"], 2))
        self.check(self.relay.last, 0, push(value))
        return edited

    def check(self, request, count, patch):
        test = {"op": "test", "path": self.path, "value": count}
        replace = {"op": "replace", "path": self.path, "value": count + 1}
        self.assertEqual(request["patch"], [test, replace, *patch])
        self.assertNotIn("base", request)

    async def back(self, epoch=7):
        """Loses the connection, and comes back to slots that are as they were. Gives what is sent
        behind the resume."""
        links = len(self.relay.links)
        await self.relay.cut()
        await self.relay.until_link(links + 1)
        await self.relay.say(welcome(5, epoch))
        resume, *sent = self.relay.link.sent
        if epoch == 7:
            await self.relay.say({"how": "nothing", "id": resume["id"], "kind": "resumed"})
        else:
            await self.relay.say({"how": "snapshot", "id": resume["id"], "kind": "resumed"})
            await self.relay.say(snapshot(5, [[[]]]))
        return sent

    async def test_one_is_on_its_way_at_a_time_and_what_is_behind_it_waits(self):
        await self.begin()
        first = await self.counted(1)
        second, behind = self.board.edit(push(2), once=True), self.board.edit(push(3))
        await settle()
        self.check(self.relay.last, 0, push(1))
        await self.relay.say(done(self.relay.last["id"], 3))
        self.assertEqual(await first, 3)
        raised, last = self.relay.link.sent[-2:]
        self.check(raised, 1, push(2))
        self.assertEqual(last["patch"], push(3))
        await self.relay.say(done(raised["id"], 4), done(last["id"], 5))
        self.assertEqual((await second, await behind), (4, 5))

    async def test_one_that_was_done_before_is_not_done_again(self):
        await self.begin()
        edited = await self.counted(1)
        [again] = await self.back()
        self.check(again, 0, push(1))
        await self.relay.say(refused(again["id"], "test-failed", 0))
        self.assertEqual(self.relay.last["do"], "watch")
        await self.relay.say(watching(self.relay.last["id"]), snapshot(6, [[[1]]]))
        self.assertEqual((await edited, self.board.slots, self.board.pending), (6, [[[1]]], 0))
        self.board.edit(push(2), once=True).cancel()
        await settle()
        self.check(self.relay.last, 1, push(2))

    async def test_one_that_was_not_done_is_done_then(self):
        await self.begin()
        edited = await self.counted(1)
        [again] = await self.back()
        add = {"op": "add", "path": "/0/0/-", "value": 1}
        await self.relay.say(done(again["id"], 6), patch(6, add))
        self.assertEqual((await edited, self.board.slots), (6, [[[1]]]))

    async def test_a_refusal_of_what_was_sent_before_stays_one(self):
        await self.begin()
        edited = await self.counted(1)
        [again] = await self.back()
        await self.relay.say(refused(again["id"], "too-heavy", 2))
        # The first one may still be read: until the counter has gone on.
        self.assertFalse(edited.done())
        self.check(self.relay.last, 0, [])
        await self.relay.say(done(self.relay.last["id"], 6))
        with self.assertRaises(relay_client.Refused) as caught:
            await edited
        self.assertEqual((caught.exception.fault, caught.exception.at), ("too-heavy", 0))

    async def test_a_counter_that_was_taken_away_is_followed_by_another_one(self):
        await self.begin()
        edited = await self.counted(1)
        before = self.path
        await self.relay.say(missing(self.relay.last["id"]))
        [added] = self.relay.last["patch"]
        self.assertNotEqual(added["path"], before)
        await self.relay.say(done(self.relay.last["id"], 3))
        self.path = added["path"]
        self.check(self.relay.last, 0, push(1))
        await self.relay.say(done(self.relay.last["id"], 4))
        self.assertEqual(await edited, 4)

    async def test_another_run_has_another_counter(self):
        await self.begin()
        sent = await self.counted(1)
        waits = self.board.edit(push(2), once=True)
        [added] = await self.back(epoch=8)
        with self.assertRaises(relay_client.Unknown):
            await sent
        self.assertNotEqual(added["patch"][0]["path"], self.path)
        self.path = added["patch"][0]["path"]
        await self.relay.say(done(added["id"], 6))
        self.check(self.relay.last, 0, push(2))
        await self.relay.say(done(self.relay.last["id"], 7))
        self.assertEqual(await waits, 7)

    async def test_a_counter_whose_answer_was_lost_is_not_used(self):
        await self.begin()
        self.board.edit(push(1), once=True).cancel()
        await settle()
        [lost] = self.relay.last["patch"]
        [added] = await self.back()
        self.assertNotEqual(added["patch"][0]["path"], lost["path"])

    async def test_without_a_place_for_the_counter_the_error_says_what_to_do(self):
        await self.begin()
        edited = self.board.edit(push(1), once=True)
        await settle()
        await self.relay.say(missing(self.relay.last["id"]))
        with self.assertRaisesRegex(
            relay_client.Refused, "needs an object at '/counters'.*`begin`"
        ):
            await edited
        with self.assertRaisesRegex(TypeError, "an edit with a base"):
            self.board.edit(push(1), once=True, base=1)
        self.board._counter = None
        with self.assertRaisesRegex(TypeError, 'once="/once"'):
            self.board.edit(push(1), once=True)


if __name__ == "__main__":
    unittest.main()
