"""Changes by drafts and of lists, with a relay that the test plays."""
import asyncio, unittest
from fake import (
    FakeRelay,
    done,
    patch,
    refused,
    relay_client,
    settle,
    snapshot,
    unawaited,
    watching,
)

CARDS = [{"id": "m", "text": "milk"}, {"id": "b", "text": "bread"}]


class Changes(unittest.IsolatedAsyncioTestCase):
    async def begin(self, view, slots, **options):
        self.relay = FakeRelay()
        self.board = await self.relay.begin(view, slots, **options)
        self.addAsyncCleanup(self.board.close)

    async def refuse(self, fault, at, rev, slots):
        """Refuses what was sent last, and shows other slots to who watches then."""
        more = {"rev": rev} if fault == "stale" else {}
        await self.relay.say(refused(self.relay.last["id"], fault, at, **more))
        for _ in range(500):
            if self.relay.last["do"] == "watch":
                break
            await asyncio.sleep(0.002)  # many who are refused take turns
        await self.relay.say(watching(self.relay.last["id"]), snapshot(rev, slots))

    def sent(self):
        return [
            " ".join(one[name] for name in ("op", "from", "path") if name in one)
            for one in self.relay.last["patch"]
        ]

    async def test_it_shows_at_once_and_is_sent_as_one_patch(self):
        await self.begin(["/cards", "/title"], [[["milk", "bread"]], ["Plan"]])

        def make(draft):
            draft["cards"].append("eggs")
            del draft["cards"][1]
            draft["title"] += "!"

        changed = self.board.change(make)
        self.assertEqual(
            (self.board.slots, self.board.pending), ([[["milk", "eggs"]], ["Plan!"]], 1)
        )
        await settle()
        self.assertEqual(
            self.sent(),
            ["test /cards/1", "test /title", "replace /title", "remove /cards/1", "add /cards/-"],
        )
        await self.relay.say(done(self.relay.last["id"], 2))
        self.assertEqual(await changed, 2)
        # If nothing is changed nothing is sent.
        number = self.relay.last["id"]
        self.assertEqual(await self.board.change(lambda draft: len(draft["cards"])), 1)
        self.assertEqual(self.relay.last["id"], number)

    async def test_one_that_was_made_of_an_older_list_is_made_anew(self):
        backs = []
        await self.begin(
            ["/n"], [[1]], on_taken_back=lambda patch, cause: backs.append(cause.fault)
        )
        changed = self.board.change(lambda draft: draft.update(n=draft["n"] + 1))
        await settle()
        await self.refuse("test-failed", 0, 5, [[7]])
        self.assertEqual(
            (self.board.slots, self.relay.last["patch"][1]["value"], backs), ([[8]], 8, [])
        )
        await self.relay.say(done(self.relay.last["id"], 6))
        self.assertEqual(await changed, 6)

    async def test_another_refusal_is_told_once_and_so_is_the_last(self):
        backs = []
        told = lambda patch, cause: backs.append(cause.fault)
        await self.begin(["/n"], [[1]], on_taken_back=told)
        add = lambda draft: draft.update(n=draft["n"] + 1)
        heavy = self.board.change(add)
        await settle()
        await self.relay.say(refused(self.relay.last["id"], "too-heavy", 1))
        late = self.board.change(add, tries=2)
        await settle()
        await self.refuse("test-failed", 0, 5, [[7]])
        await self.relay.say(refused(self.relay.last["id"], "test-failed", 0))
        for failed, fault in ((heavy, "too-heavy"), (late, "test-failed")):
            with self.assertRaises(relay_client.Refused) as caught:
                await failed
            self.assertEqual(caught.exception.fault, fault)
        self.assertEqual((backs, self.board.slots), (["too-heavy", "test-failed"], [[7]]))
        with self.assertRaisesRegex(ValueError, "a guard is"):
            self.board.change(add, guard="all")

    async def test_one_by_the_revision_waits_for_the_edits_before_it(self):
        await self.begin(["/n"], [[1]])
        self.board.at("/n").set(5)
        changed = self.board.change(lambda draft: draft.update(n=draft["n"] + 1), guard="base")
        await settle()
        self.assertNotIn("base", self.relay.last)
        replace = {"op": "replace", "path": "/0/0", "value": 5}
        await self.relay.say(done(self.relay.last["id"], 2), patch(2, replace))
        await self.relay.say(watching(self.relay.last["id"]), snapshot(2, [[5]]))
        self.assertEqual((self.relay.last["base"], self.sent()), (2, ["replace /n"]))
        await self.refuse("stale", None, 4, [[5]])
        self.assertEqual(self.relay.last["base"], 4)
        await self.relay.say(done(self.relay.last["id"], 5))
        self.assertEqual(await changed, 5)

    async def test_before_the_first_slots_it_waits_for_them(self):
        self.relay = FakeRelay()
        board = relay_client.connect("ws://h/rooms/a", view=["/n"], open_link=self.relay.open_link)
        changed = board.change(lambda draft: draft.update(n=2), guard="none")
        await board.close()
        with self.assertRaises(relay_client.Closed):
            await changed

    async def test_a_list_follows_the_elements_that_were_shown(self):
        await self.begin(["/list"], [[["a", "b", "c"]]])
        place = self.board.at("/list")
        removed = place.remove(1)
        await settle()
        self.assertEqual(
            (self.sent(), place.value), (["test /list/1", "remove /list/1"], ["a", "c"])
        )
        await self.refuse("test-failed", 0, 5, [[["z", "a", "b", "c"]]])
        self.assertEqual(self.sent(), ["test /list/2", "remove /list/2"])
        await self.refuse("test-failed", 0, 6, [[["z"]]])
        with self.assertRaisesRegex(
            relay_client.Refused, "changed: element 1 is not there any more"
        ):
            await removed
        unawaited(place.push("x", "y"))
        unawaited(place.insert(1, "w"))
        unawaited(place.insert(4, "v"))
        unawaited(place.move(0, 2))
        await settle()
        self.assertEqual(place.value, ["w", "x", "z", "y", "v"])
        self.assertEqual(
            self.relay.link.sent[-4]["patch"],
            [{"op": "add", "path": "/list/-", "value": value} for value in "xy"],
        )
        with self.assertRaises(IndexError):
            place.remove(9)

    async def test_elements_by_a_key_are_found_wherever_they_are(self):
        await self.begin(["/cards"], [[CARDS]])
        cards = self.board.at("/cards").by_key("id")
        self.assertEqual(
            (cards.get("b")["text"], cards.index("m"), cards.get("x"), cards.index("x")),
            ("bread", 0, None, -1),
        )
        cards.change("b", lambda card: card.update(done=True))
        await settle()
        self.assertEqual(self.sent(), ["test /cards/1/id", "add /cards/1/done"])
        await self.refuse("test-failed", 0, 5, [[[{"id": "e"}, *CARDS]]])
        self.assertEqual(self.sent(), ["test /cards/2/id", "add /cards/2/done"])
        await self.relay.say(done(self.relay.last["id"], 6))
        for act, sent in [
            (
                lambda: cards.move("b", "m"),
                ["test /cards/2/id", "test /cards/1/id", "move /cards/2 /cards/1"],
            ),
            (lambda: cards.move("e", None), ["test /cards/0/id", "move /cards/0 /cards/-"]),
            (lambda: cards.insert({"id": "x"}, "m"), ["test /cards/1/id", "add /cards/1"]),
            (lambda: cards.remove("b"), ["test /cards/0/id", "remove /cards/0"]),
        ]:
            unawaited(act())
            await settle()
            self.assertEqual(self.sent(), sent)
        for gone in (lambda: cards.remove("y"), lambda: cards.move("x", "y")):
            with self.assertRaisesRegex(
                relay_client.Refused, 'missing: no element has the key "y"'
            ):
                gone()
        # A key that an element has already, and none.
        for element, said in [({"id": "m"}, '"m"'), ({"text": "tea"}, "null"), ("tea", "null")]:
            with self.assertRaisesRegex(relay_client.Refused, f"key: {said} is no new key"):
                cards.insert(element, None)


if __name__ == "__main__":
    unittest.main()
