"""Undo: of random patches, and of a board's own edits."""
import asyncio, json, os, random, sys, unittest
from fake import (
    FakeRelay,
    done,
    patch,
    refused,
    relay_client,
    settle,
    snapshot,
    unawaited,
    watching,
)

sys.path.insert(0, f"{os.path.dirname(os.path.abspath(__file__))}/../../../tests/agreement")
import cases
from relay_client.known import known_by
from relay_client.patch import DoesNotFit, applied, found
from relay_client.pointers import tokens
from relay_client.undo import fits, inverse

CASES = 3000


class Inverses(unittest.TestCase):
    def test_an_inverse_leads_back_and_notices_what_others_did(self):
        """By a view of a part of the document too: what can be undone by it is undone in the whole
        document."""
        chance, undone, noticed = random.Random(5), 0, 0
        for _ in range(CASES):
            document = cases.value(chance, 4)
            view = (
                [""]
                if chance.random() < 0.5
                else [cases.spelled(cases.walk(chance, document)) for _ in range(3)]
            )
            edit, after = cases.patched(chance, document)
            if after is document:
                continue
            undoing = inverse(known_by(view, [shows(document, pointer) for pointer in view]), edit)
            if undoing is None:
                if view == [""]:
                    self.assertEqual(text(after), text(document), (document, edit))
                continue
            undone += 1
            self.assertEqual(
                text(applied(after, undoing.patch)), text(document), (document, view, edit, undoing)
            )
            # Somebody else changes something behind it: the inverse is refused, or changes nothing
            # of theirs.
            other, changed = cases.patched(chance, after)
            if undoing.puts_back and not fits(changed, undoing.patch):
                noticed += 1
            try:
                applied(changed, undoing.patch)
            except DoesNotFit:
                noticed += 1
        self.assertGreater(undone, CASES // 4)
        self.assertGreater(noticed, CASES // 40)


def shows(document, pointer):
    try:
        return [found(document, tokens(pointer))]
    except DoesNotFit:
        return []


def text(value):
    return json.dumps(value, sort_keys=True)


class OnABoard(unittest.IsolatedAsyncioTestCase):
    async def asyncSetUp(self):
        self.relay = FakeRelay()
        self.board = await self.relay.begin(["/n", "/cards"], [[1], [["milk", "tea"]]])
        self.rev = 1

    async def asyncTearDown(self):
        await self.board.close()

    async def answer(self, *told):
        """The relay does the newest edit, and tells of it."""
        self.rev += 1
        await settle()
        await self.relay.say(done(self.relay.last["id"], self.rev), patch(self.rev, *told))

    async def edit(self, operation, *told):
        editing = self.board.edit([operation])
        await self.answer(*told)
        await editing

    async def test_undo_and_redo(self):
        await self.edit(
            {"op": "replace", "path": "/n", "value": 2},
            {"op": "replace", "path": "/0", "value": [2]},
        )
        undoing = asyncio.ensure_future(self.board.undo())
        await settle()
        self.assertEqual(
            self.relay.last["patch"],
            [{"op": "test", "path": "/n", "value": 2}, {"op": "replace", "path": "/n", "value": 1}],
        )
        self.assertEqual(self.board.slots[0], [1])
        await self.answer({"op": "replace", "path": "/0", "value": [1]})
        self.assertEqual(await undoing, 3)
        redoing = asyncio.ensure_future(self.board.redo())
        await settle()
        self.assertEqual(self.relay.last["patch"][1], {"op": "replace", "path": "/n", "value": 2})
        await self.answer({"op": "replace", "path": "/0", "value": [2]})
        self.assertEqual(await redoing, 4)
        self.assertEqual(await self.board.redo(), None)

    async def test_an_element_comes_back_between_its_neighbours(self):
        await self.edit({"op": "remove", "path": "/cards/0"}, {"op": "remove", "path": "/1/0/0"})
        unawaited(asyncio.ensure_future(self.board.undo()))
        await settle()
        guarded = [
            {"op": "test", "path": "/cards/0", "value": "tea"},
            {"op": "add", "path": "/cards/0", "value": "milk"},
        ]
        self.assertEqual(self.relay.last["patch"], guarded)

    async def test_what_somebody_changed_since_is_not_undone(self):
        await self.edit(
            {"op": "replace", "path": "/n", "value": 2},
            {"op": "replace", "path": "/0", "value": [2]},
        )
        undoing = asyncio.ensure_future(self.board.undo())
        await settle()
        await self.relay.say(refused(self.relay.last["id"], "test-failed", 0))
        with self.assertRaises(relay_client.Refused) as raised:
            await undoing
        self.assertEqual(raised.exception.fault, "changed")
        self.assertEqual((self.board.slots[0], self.board.pending), ([2], 0))
        self.assertEqual(await self.board.undo(), None)

    async def test_a_member_comes_back_on_a_base_alone(self):
        await self.edit(
            {"op": "remove", "path": "/n"}, {"op": "replace", "path": "/0", "value": []}
        )
        undoing = asyncio.ensure_future(self.board.undo())
        await settle()
        self.assertEqual(
            (self.relay.last["base"], self.relay.last["patch"]),
            (2, [{"op": "add", "path": "/n", "value": 1}]),
        )
        # Somebody put another one there.
        await self.relay.say(refused(self.relay.last["id"], "stale", rev=3))
        await self.relay.say(watching(self.relay.last["id"]), snapshot(3, [[7], [[]]]))
        with self.assertRaises(relay_client.Refused) as raised:
            await undoing
        self.assertEqual(raised.exception.fault, "changed")

    async def test_an_edit_that_the_slots_did_not_show_alone_is_passed_over(self):
        await self.edit(
            {"op": "replace", "path": "/n", "value": 2},
            {"op": "replace", "path": "/0", "value": [2]},
        )
        self.board.edit([{"op": "replace", "path": "/n", "value": 3}], optimistic=True)
        await settle()
        self.rev = 9
        await self.relay.say(done(self.relay.last["id"], 9), snapshot(9, [[3], [[]]]))
        self.board.edit([{"op": "replace", "path": "/n", "value": 4}], undo=False, optimistic=True)
        await self.answer({"op": "replace", "path": "/0", "value": [4]})
        unawaited(asyncio.ensure_future(self.board.undo()))
        await settle()
        self.assertEqual(self.relay.last["patch"][0], {"op": "test", "path": "/n", "value": 2})


if __name__ == "__main__":
    unittest.main()
