"""Boards that only watch, and rooms that are ended, with a relay that the test plays."""
import asyncio, unittest
from fake import (
    URL,
    FakeRelay,
    done,
    patch,
    refused,
    relay_client,
    settle,
    snapshot,
    unawaited,
    watching,
    welcome,
)
from relay_client import HandshakeFailed
from relay_client.pointers import watching as address_of

PUSH = [{"op": "add", "path": "/cards/-", "value": "tea"}]
END = [{"op": "replace", "path": "", "value": None}]


class ReadOnly(unittest.IsolatedAsyncioTestCase):
    async def asyncSetUp(self):
        self.relay, self.told = FakeRelay(), []
        options = {"begin": {"cards": []}, "read_only": True, "on_change": self.told.append}
        self.board = await self.relay.begin(["/cards", "/n"], [[["milk"]], [1]], **options)

    async def asyncTearDown(self):
        await self.board.close()

    async def refuses(self, asked):
        with self.assertRaises(relay_client.Refused) as caught:
            await asked
        self.assertEqual(caught.exception.fault, "read-only")

    async def test_each_edit_fails_at_once_and_nothing_is_shown_or_sent(self):
        before = len(self.told)
        place = self.board.at("/cards")
        await self.refuses(self.board.edit(PUSH))
        await self.refuses(self.board.edit(PUSH, optimistic=True, base=1))
        await self.refuses(self.board.change(lambda draft: draft["cards"].append("tea")))
        await self.refuses(self.board.change(lambda draft: self.fail("called"), guard="base"))
        await self.refuses(place.push("tea"))
        await self.refuses(place.by_key("id").remove("a"))
        await self.refuses(self.board.at("/n").set(2))
        await self.refuses(self.board.at("/n").update(lambda n: n + 1))
        await self.refuses(self.board.end())
        await self.refuses(self.board.undo())
        await self.refuses(self.board.redo())
        self.assertEqual((len(self.told), self.board.pending), (before, 0))
        self.assertEqual([request["do"] for request in self.relay.link.sent], ["watch"])

    async def test_it_fails_while_the_connection_is_lost_and_resumes_as_ever(self):
        await self.relay.cut()
        await self.refuses(self.board.edit(PUSH))
        await self.relay.until_link(2)
        await self.relay.say(welcome(1))
        self.assertEqual([request["do"] for request in self.relay.link.sent], ["resume"])
        await self.relay.say(
            {"how": "patch", "id": self.relay.last["id"], "kind": "resumed"},
            patch(2, {"op": "add", "path": "/0/0/1", "value": "tea"}),
        )
        self.assertEqual(self.board.slots, [[["milk", "tea"]], [1]])

    async def test_it_fails_before_there_is_a_connection(self):
        relay = FakeRelay()
        options = {"view": ["/cards"], "read_only": True, "open_link": relay.open_link}
        async with relay_client.connect("ws://127.0.0.1:1/rooms/play", **options) as board:
            await self.refuses(board.edit(PUSH))
            await self.refuses(board.change(lambda draft: self.fail("called")))
            await self.refuses(board.end())
            await self.refuses(board.at("/cards").update(lambda cards: self.fail("called")))

    def test_its_address_has_a_part_behind_the_name(self):
        for url, address in (
            ("ws://127.0.0.1:8080/rooms/a", "ws://127.0.0.1:8080/rooms/a/watch"),
            ("wss://example.org/x/rooms/a?token=b", "wss://example.org/x/rooms/a/watch?token=b"),
        ):
            self.assertEqual(address_of(url), address)


class NotThereYet(unittest.IsolatedAsyncioTestCase):
    """The relay answers 404 to who only watches a room that nobody began."""

    def connect(self, relay, url=URL, **options):
        self.told = []
        own = {"first_wait": 0, "longest_wait": 0, "open_link": relay.open_link, **options}
        on_state = lambda state, cause: self.told.append((state, cause))
        return relay_client.connect(url, view=["/n"], on_state=on_state, **own)

    async def test_who_only_watches_waits_until_the_room_is_there(self):
        relay = FakeRelay(*(HandshakeFailed("refused", 404) for _ in range(3)))
        async with self.connect(relay, read_only=True) as board:
            await relay.until_link(1)
            await relay.say(welcome(1))
            await relay.say(watching(relay.last["id"]), snapshot(1, [[5]]))
            self.assertEqual((board.slots, await board.ready), ([[5]], [[5]]))
        states = [state for state, _ in self.told]
        self.assertEqual(states, ["waiting", "connecting"] * 3 + ["open", "closed"])
        cause = self.told[0][1]
        self.assertEqual((type(cause), cause.status), (HandshakeFailed, 404))
        self.assertEqual(
            str(cause),
            f"{URL}/watch refuses the connection, with 404: there is no room of this name yet, or "
            "what answers there has no rooms, or is the --admin port",
        )

    async def test_so_it_is_behind_a_path_of_a_proxy(self):
        relay = FakeRelay(*(HandshakeFailed("refused", 404) for _ in range(3)))
        async with self.connect(relay, "ws://h/b/rooms/a", read_only=True):
            await relay.until_link(1)
        self.assertIn("ws://h/b/rooms/a/watch refuses the connection", str(self.told[0][1]))

    async def test_its_pauses_are_those_of_a_lost_connection(self):
        relay = FakeRelay(*(HandshakeFailed("refused", 404) for _ in range(8)))
        begun = asyncio.get_running_loop().time()
        waits = {"first_wait": 0.02, "longest_wait": 0.04}
        async with self.connect(relay, read_only=True, **waits):
            await relay.until_link(1)
        # Of 0.02 and 7 of 0.04 seconds each is half at least.
        self.assertGreater(asyncio.get_running_loop().time() - begun, 0.15)

    async def test_any_other_404_is_of_a_wrong_address_and_ends_a_board(self):
        for url, options, words in [
            (URL, {}, "what answers there has no rooms, or is the --admin port"),
            ("ws://h/b/rooms/a", {}, "a room is at /rooms/NAME, and this path is /b/rooms/a"),
            ("ws://h/rooms/a?b=c", {"read_only": True}, "leave out the `?` and what follows"),
            # A room named `watch`, behind a path. Its address tells no more than that.
            ("ws://h/rooms/rooms/watch", {}, ""),
        ]:
            relay = FakeRelay(HandshakeFailed("refused", 404))
            async with self.connect(relay, url, **options) as board:
                with self.assertRaises(HandshakeFailed) as caught:
                    await asyncio.wait_for(board.ready, 5)
                self.assertEqual(self.told, [("closed", caught.exception)], url)
                self.assertTrue(str(caught.exception).endswith(words), caught.exception)


class End(unittest.IsolatedAsyncioTestCase):
    async def asyncSetUp(self):
        self.relay = FakeRelay()

    async def test_it_is_an_edit_of_the_revision_that_is_held(self):
        board = await self.relay.begin(["/cards"], [[["milk"]]], rev=4)
        ending = unawaited_task(board.end())
        await settle()
        request = self.relay.last
        self.assertEqual((request["patch"], request["base"]), (END, 4))
        await self.relay.say(done(request["id"], 5))
        self.assertEqual(await ending, 5)
        await board.close()

    async def test_it_is_refused_where_somebody_edited_since(self):
        board = await self.relay.begin(["/cards"], [[["milk"]]], rev=4)
        ending = unawaited_task(board.end())
        await settle()
        await self.relay.say(refused(self.relay.last["id"], "stale", rev=5))
        with self.assertRaises(relay_client.Refused) as caught:
            await ending
        self.assertEqual((caught.exception.fault, caught.exception.rev), ("stale", 5))
        await board.close()

    async def test_it_waits_for_the_first_slots(self):
        options = {"view": ["/cards"], "open_link": self.relay.open_link}
        board = relay_client.connect("ws://127.0.0.1:1/rooms/play", **options)
        ending = unawaited_task(board.end())
        await self.relay.until_link(1)
        await self.relay.say(welcome(3))
        self.assertEqual([request["do"] for request in self.relay.link.sent], ["watch"])
        watching = {"id": self.relay.last["id"], "kind": "watching"}
        await self.relay.say(watching, snapshot(3, [[["milk"]]]))
        self.assertEqual((self.relay.last["patch"], self.relay.last["base"]), (END, 3))
        await board.close()
        with self.assertRaises(relay_client.Unknown):
            await ending

    async def test_it_fails_where_the_board_is_closed(self):
        board = await self.relay.begin(["/cards"], [[["milk"]]])
        await board.close()
        with self.assertRaises(relay_client.Closed):
            await board.end()


def unawaited_task(asked):
    task = asyncio.ensure_future(asked)
    unawaited(task)
    return task


if __name__ == "__main__":
    unittest.main()
