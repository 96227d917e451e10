"""Texts that would end the connection are not sent."""
import asyncio, json, unittest
from fake import URL, FakeRelay, refused, relay_client, settle, welcome

LONGEST = 1_056_768
PUSH = [{"op": "add", "path": "/cards/-", "value": "tea"}]


class Long(unittest.IsolatedAsyncioTestCase):
    async def asyncSetUp(self):
        self.relay, self.board = FakeRelay(), None

    async def asyncTearDown(self):
        await self.board.close()

    async def ends(self, **options):
        """A board whose first request would end each of its connections."""
        self.board = relay_client.connect(
            URL, open_link=self.relay.open_link, first_wait=0, longest_wait=0, **options
        )
        waits = self.board.edit(PUSH)
        await self.relay.until_link(1)
        await self.relay.say(welcome(0))
        with self.assertRaisesRegex(relay_client.Refused, "^too-long: a request"):
            await soon(self.board.ready)
        with self.assertRaises(relay_client.Closed):
            await soon(waits)
        link = self.relay.link
        self.assertEqual(
            (self.board.state, link.sent, link.aborted, len(self.relay.links)),
            ("closed", [], True, 1),
        )

    async def test_a_document_to_begin_with_ends_the_board(self):
        await self.ends(view=["/cards"], begin="x" * LONGEST)

    async def test_a_first_view_ends_the_board(self):
        await self.ends(view=["/" + "x" * LONGEST])

    async def test_bytes_are_counted_as_they_are_sent(self):
        """Of characters of one, two, three and four bytes: a text that is as long as it may be, and
        one that is a byte longer."""
        self.board = await self.relay.begin(["/cards"], [[[]]])
        for character in ["x", "\u00e9", "\u20ac", "\U0001f600"]:
            longest = self.longest(character)
            await self.is_sent(longest)
            with self.assertRaisesRegex(relay_client.Refused, "^too-long: a request") as caught:
                await soon(self.board.edit(written(self.longest(character) + "x"), base=1))
            self.assertEqual(self.relay.last["patch"], written(longest))
        self.assertEqual((self.board.state, len(self.relay.links)), ("open", 1))

    def longest(self, character):
        """A text of that character, with which the next edit is as long as it may be."""
        request = {"id": self.relay.last["id"] + 1, "do": "edit", "patch": written("")}
        left = LONGEST - len(json.dumps(request, separators=(",", ":")))
        width = len(character.encode())
        return "x" * (left % width) + character * (left // width)

    async def is_sent(self, value):
        answer = self.board.edit(written(value))
        await settle()
        self.assertEqual(self.relay.last["patch"], written(value))
        await self.relay.say(refused(None, "too-long"))
        with self.assertRaisesRegex(relay_client.Refused, "^too-long: a request"):
            await soon(answer)


def soon(answer):
    return asyncio.wait_for(answer, 5)


def written(value):
    return [{"op": "add", "path": "", "value": value}]


if __name__ == "__main__":
    unittest.main()
