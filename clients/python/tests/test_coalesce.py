"""`Place.set`: one value of a place is on its way at a time, and of those that wait the newest is
sent."""
import asyncio, unittest
from fake import FakeRelay, done, patch, refused, relay_client, settle, unawaited


def values(link):
    """The operations of the edits that were sent."""
    edits = [request["patch"] for request in link.sent if request["do"] == "edit"]
    return [f"{one['op']} {one['path']} {one.get('value')}" for edit in edits for one in edit]


def sets(place, value):
    return {"op": "replace", "path": f"/{place}/0", "value": value}


class Coalesced(unittest.IsolatedAsyncioTestCase):
    async def test_of_the_values_that_are_set_while_one_is_on_its_way_the_newest_is_sent(self):
        relay = FakeRelay()
        board = await relay.begin(["/n"], [[0]])
        place = board.at("/n")
        made = [place.set(1)]
        await settle()
        for value in (2, 3, 4):
            made.append(place.set(value))
            self.assertEqual((place.value, place.confirmed, board.pending), (value, 0, 2))
            await settle()
        self.assertEqual(values(relay.link), ["replace /n 1"])
        await relay.say(done(relay.last["id"], 2), patch(2, sets(0, 1)))
        self.assertEqual(values(relay.link), ["replace /n 1", "replace /n 4"])
        self.assertEqual((place.value, board.pending), (4, 1))
        made[2].cancel()
        await relay.say(done(relay.last["id"], 3), patch(3, sets(0, 4)))
        self.assertEqual((place.confirmed, board.pending), (4, 0))
        self.assertEqual([await made[k] for k in (0, 1, 3)], [2, 3, 3])
        await board.close()

    async def test_places_apart_do_not_hold_each_other_up(self):
        relay = FakeRelay()
        board = await relay.begin(["/x", "/y"], [[0], [0]])
        for value in (1, 2, 3):
            for pointer in ("/x", "/y"):
                unawaited(board.at(pointer).set(value))
            await settle()
        self.assertEqual(values(relay.link), ["replace /x 1", "replace /y 1"])
        self.assertEqual((board.slots, board.pending), ([[3], [3]], 4))
        first, second = (request["id"] for request in relay.link.sent[-2:])
        await relay.say(done(first, 2), patch(2, sets(0, 1)))
        self.assertEqual(values(relay.link)[2:], ["replace /x 3"])
        await relay.say(done(second, 3), patch(3, sets(1, 1)))
        self.assertEqual(values(relay.link)[3:], ["replace /y 3"])
        await board.close()

    async def test_what_is_asked_for_behind_a_value_sends_it(self):
        relay = FakeRelay()
        board = await relay.begin(["/n", "/o"], [[0], [{"x": 0}]])
        for value in (1, 2):
            unawaited(board.at("/n").set(value))
            await settle()
        unawaited(board.edit([{"op": "remove", "path": "/n"}]))
        await settle()
        wanted = ["replace /n 1", "replace /n 2", "remove /n None"]
        self.assertEqual(values(relay.link), wanted)
        # Of two places of which one is in the other, too; and what is not undone is apart.
        for value in (1, 2):
            unawaited(board.at("/o/x").set(value))
            await settle()
        unawaited(board.at("/o").set({"x": 3}))
        unawaited(board.at("/o").set({"x": 4}, undo=False))
        unawaited(board.at("/o").set({"x": 5}, undo=False))
        wanted = ["replace /o/x 1", "replace /o/x 2", "replace /o {'x': 3}"]
        await settle()
        self.assertEqual(values(relay.link)[3:], wanted)
        await relay.say(
            *(done(request["id"], 2 + k) for k, request in enumerate(relay.link.sent[1:]))
        )
        self.assertEqual(values(relay.link)[6:], ["replace /o {'x': 5}"])
        await board.close()

    async def test_a_value_that_is_refused_is_taken_back_with_those_that_it_stood_for(self):
        relay, taken = FakeRelay(), []
        told = lambda patch, cause: taken.append((patch[0]["value"], cause.fault))
        board = await relay.begin(["/n"], [[0]], on_taken_back=told)
        made = [board.at("/n").set(value) for value in (1, 2, 3)]
        await settle()
        # Nothing is sent before the loop goes on.
        self.assertEqual(values(relay.link), ["replace /n 3"])
        await relay.say(refused(relay.last["id"], "missing", 0))
        for answer in made:
            with self.assertRaises(relay_client.Refused):
                await answer
        self.assertEqual((taken, board.slots), ([(3, "missing")], [[0]]))
        await board.close()

    async def test_what_adds_is_sent_each_time(self):
        relay = FakeRelay()
        board = await relay.begin(["/list"], [[[]]])
        for value in ("a", "b"):
            unawaited(board.at("/list/-").set(value))
        await settle()
        self.assertEqual(values(relay.link), ["add /list/- a", "add /list/- b"])
        await board.close()

    async def test_undo_takes_back_all_that_was_sent_as_one(self):
        relay = FakeRelay()
        board = await relay.begin(["/n"], [[0]])
        for value in (1, 2, 3):
            unawaited(board.at("/n").set(value))
            await settle()
        for rev, value in ((2, 1), (3, 3)):
            await relay.say(done(relay.last["id"], rev), patch(rev, sets(0, value)))
        self.assertEqual((board.slots, board.undoable), ([[3]], 2))
        unawaited(asyncio.ensure_future(board.undo()))
        await settle()
        self.assertEqual(board.slots, [[1]])
        await board.close()


if __name__ == "__main__":
    unittest.main()
