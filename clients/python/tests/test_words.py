"""Pointers of keys, barriers, parents, edits whose fate is not known, and what errors say to do."""
import asyncio, inspect, logging, unittest
from fake import (
    URL,
    FakeRelay,
    done,
    patch,
    refused,
    relay_client,
    settle,
    snapshot,
    watching,
    welcome,
)
from relay_client import Unknown, pointer

ADD = [{"op": "add", "path": "/cards/-", "value": "tea"}]


class Words(unittest.IsolatedAsyncioTestCase):
    def test_a_pointer_of_keys_escapes_them(self):
        self.assertEqual(pointer(), "")
        self.assertEqual(pointer("cards", 0, "-"), "/cards/0/-")
        self.assertEqual(pointer("a/b", "m~n", "", "~1"), "/a~1b/m~0n//~01")
        for bad in [-1, 0.5, None, True, ["a"], {}]:
            with self.assertRaisesRegex(TypeError, "is no key"):
                pointer("a", bad)

    async def test_sync_waits_for_all_that_was_said(self):
        relay = FakeRelay()
        board = await relay.begin(["/cards"], [[[]]])
        edited = board.edit(ADD, optimistic=True)
        synced = asyncio.ensure_future(board.sync())
        await settle()
        self.assertEqual(relay.last["do"], "edit")
        await relay.say(refused(relay.last["id"], "missing", 0))
        self.assertEqual(relay.last["do"], "watch")
        await relay.say(watching(relay.last["id"]), snapshot(9, [[["eggs"]]]))
        self.assertEqual((await synced, board.rev), ([[["eggs"]]], 9))
        with self.assertRaises(relay_client.Refused):
            await edited
        await board.close()
        with self.assertRaises(relay_client.Closed):
            await board.sync()

    async def test_sync_waits_for_an_update_that_is_made_anew(self):
        relay = FakeRelay()
        board = await relay.begin(["/n"], [[1]])
        updated = asyncio.ensure_future(board.at("/n").update(lambda n: n + 1))
        synced = asyncio.ensure_future(board.sync())
        await settle()
        await relay.say(refused(relay.last["id"], "stale", None, rev=2))
        await relay.say(watching(relay.last["id"]), snapshot(2, [[7]]))
        self.assertEqual((relay.last["base"], synced.done()), (2, False))
        await relay.say(done(relay.last["id"], 3))
        self.assertEqual((await updated, relay.last["do"]), (3, "watch"))
        await relay.say(watching(relay.last["id"]), snapshot(3, [[8]]))
        self.assertEqual(await synced, [[8]])
        await board.close()

    async def test_set_makes_parents_on_what_was_seen(self):
        relay = FakeRelay()
        board = await relay.begin(["/a"], [[{}]])
        place = board.at("/a/b/c")
        made = place.set(1, parents=True)
        await settle()
        self.assertEqual(relay.last["patch"], [{"op": "add", "path": "/a/b", "value": {"c": 1}}])
        self.assertEqual((relay.last["base"], place.value, place.confirmed), (1, 1, None))
        await relay.say(refused(relay.last["id"], "stale", None, rev=2))
        await relay.say(watching(relay.last["id"]), snapshot(2, [[{"b": {"d": 0}}]]))
        self.assertEqual(relay.last["patch"], [{"op": "add", "path": "/a/b/c", "value": 1}])
        await relay.say(
            done(relay.last["id"], 3), patch(3, {"op": "add", "path": "/0/0/b/c", "value": 1})
        )
        self.assertEqual((await made, place.confirmed), (3, 1))
        # If they are there it is an edit as any other.
        place.set(2, parents=True).cancel()
        await settle()
        self.assertNotIn("base", relay.last)
        await board.close()

    async def test_what_can_be_undone_is_counted(self):
        relay = FakeRelay()
        board = await relay.begin(["/n"], [[1]])
        board.at("/n").set(2)
        await settle()
        self.assertEqual((board.undoable, board.redoable), (0, 0))
        replace = {"op": "replace", "path": "/0/0", "value": 2}
        await relay.say(done(relay.last["id"], 2), patch(2, replace))
        self.assertEqual((board.undoable, board.redoable), (1, 0))
        await board.close()

    async def test_an_edit_that_is_stale_when_it_is_sent_again_is_unknown_at_a_revision(self):
        relay = FakeRelay()
        board = await relay.begin(["/cards"], [[[]]])
        edited = board.edit(ADD, base=1)
        await settle()
        await relay.cut()
        await relay.until_link(2)
        await relay.say(welcome(5))
        resume, again = relay.link.sent
        await relay.say({"how": "nothing", "id": resume["id"], "kind": "resumed"})
        await relay.say(refused(again["id"], "stale", None, rev=5))
        with self.assertRaisesRegex(Unknown, "at revision 5") as caught:
            await edited
        self.assertEqual((caught.exception.rev, Unknown().rev), (5, None))
        await board.close()

    async def test_without_a_relay_a_warning_says_what_to_do(self):
        relay = FakeRelay(*(relay_client.HandshakeFailed("unreachable") for _ in range(3)))
        with self.assertLogs("relay_client", logging.WARNING) as logged:
            board = relay_client.connect(URL, view=[""], open_link=relay.open_link, first_wait=0)
            await relay.until_link(1)
        await board.close()
        advice = "start the relay there, or check the address, the port and --per-peer"
        says = f"nothing answers at {URL}: {advice}"
        self.assertEqual(
            [line.getMessage() for line in logged.records], [f"{says}; it is tried again"]
        )
        secure = str(relay_client.HandshakeFailed("unreachable", url="wss://h/rooms/a"))
        plain = "or take ws://: the relay itself has no TLS"
        self.assertEqual(secure, f"nothing answers at wss://h/rooms/a: {advice}, {plain}")
        refuses = "refuses the connection, with 404:"
        for url, words in [
            ("ws://h/b/rooms/a", "a room is at /rooms/NAME, and this path is /b/rooms/a"),
            ("ws://h/rooms/a?b=c", "leave out the `?` and what follows"),
            ("ws://h/rooms/a", "what answers there has no rooms, or is the --admin port"),
            ("ws://h/rooms/watch", "what answers there has no rooms, or is the --admin port"),
            (
                "ws://h/rooms/a/watch",
                "there is no room of this name yet, or "
                "what answers there has no rooms, or is the --admin port",
            ),
            ("ws://h/rooms/a/watch?b=c", "leave out the `?` and what follows"),
        ]:
            failed = relay_client.HandshakeFailed("refused", 404, url=url)
            self.assertEqual(str(failed), f"{url} {refuses} {words}")
        for status, words in [
            (200, ": what answers there has no rooms, or is the --admin port"),
            (401, ": the name or the password is missing or wrong"),
            (403, ": it lets no page of this origin in (--origin)"),
            (429, ": too many requests or connections of this address"),
            (502, ""),
            (503, ": it is full (--sessions, --rooms), --closed, or stopping"),
        ]:
            failed = relay_client.HandshakeFailed("refused", status, url=URL)
            self.assertEqual(str(failed), f"{URL} refuses the connection, with {status}{words}")
        missing = relay_client.Refused("missing", 0)
        self.assertIn("missing at 0: nothing stands there: look again", str(missing))


if __name__ == "__main__":
    unittest.main()

    async def test_no_message_has_the_password_of_an_address(self):
        for url, shown in [
            ("ws://anna:secret@127.0.0.1:1/rooms/a", "ws://anna:***@127.0.0.1:1/rooms/a"),
            ("wss://anna:s:cr@secret@h/rooms/a", "wss://anna:***@h/rooms/a"),
            # A slash has to be escaped. Where it is not, the message is of an address all the same.
            ("ws://anna:1/secret@h/rooms/a", "ws://anna:***@h/rooms/a"),
            ("ws://secret@h:8080/rooms/a", "ws://***@h:8080/rooms/a"),
            ("ws://h:8080/rooms/a", "ws://h:8080/rooms/a"),
        ]:
            silent = relay_client.HandshakeFailed("unreachable", detail=f"{url} is wrong")
            relay = FakeRelay(silent, relay_client.HandshakeFailed("refused", 404))
            options = {"view": [""], "open_link": relay.open_link, "first_wait": 0}
            with self.assertLogs("relay_client", logging.WARNING) as logged:
                board = relay_client.connect(url, **options)
                with self.assertRaises(relay_client.HandshakeFailed) as failed:
                    await board.ready
            self.assertEqual(len(logged.output), 2)
            told = [line.getMessage() for line in logged.records] + [str(failed.exception)]
            self.assertTrue(told[0].startswith(f"nothing answers at {shown}: start "), told)
            self.assertIn(f"({shown} is wrong)", told[0])
            self.assertTrue(told[1].startswith(f"{shown} refuses the connection, with 404"), told)
            self.assertNotIn("secret", "".join(told))
        for url in [
            "ws://anna:secret/1@h/rooms/a",
            "ws://anna:secret@h/a",
            "ws://anna:secret@h/rooms/a/watch",
            "anna:secret@h/rooms/a",
        ]:
            with self.assertRaises(ValueError) as wrong:
                relay_client.connect(url, view=[""])
            self.assertNotIn("secret", str(wrong.exception))
            self.assertIn("***@h/", str(wrong.exception))

    def test_connect_names_each_option(self):
        options = inspect.signature(relay_client.Board).parameters
        for name in options.keys() - {"url", "view"}:
            self.assertIn(f"`{name}`", relay_client.connect.__doc__)
