"""Views, patches and bases of another form than a call takes: each is an error of the call, which
says what to pass, and nothing is sent."""
import unittest
from fake import URL, FakeRelay, relay_client, settle

PATCH = [{"op": "test", "path": "", "value": None}]


class Forms(unittest.IsolatedAsyncioTestCase):
    async def asyncSetUp(self):
        self.relay = FakeRelay()
        self.board = await self.relay.begin(["/a"], [[]])

    async def asyncTearDown(self):
        await settle()
        self.assertEqual(len(self.relay.link.sent), 1, self.relay.link.sent)
        await self.board.close()

    async def test_a_view_is_a_list(self):
        for view, wanted in (
            ("/a", r"a list of pointers as \['/a'\], not '/a'$"),
            ({"size": "/a"}, r"a list of pointers as \['/cards'\], not an object$"),
            (None, ".*, not None$"),
            (7, ".*, not 7$"),
        ):
            with self.assertRaisesRegex(TypeError, f"^`connect` takes a view, {wanted}"):
                relay_client.connect(URL, view=view)
            with self.assertRaisesRegex(TypeError, f"^`watch` takes a view, {wanted}"):
                await self.board.watch(view)

    async def test_a_patch_is_a_list(self):
        for patch in (PATCH[0], {}, "[]", None, 0):
            for name in ("edit", "will"):
                wanted = f'^`{name}` takes a list of operations, as .{{"op": "add", .*, not '
                with self.assertRaisesRegex(TypeError, wanted):
                    getattr(self.board, name)(patch)

    async def test_a_base_is_a_revision(self):
        for base, error in (
            (-1, ValueError),
            (2**53, ValueError),
            ("1", TypeError),
            (1.0, TypeError),
            (True, TypeError),
        ):
            with self.assertRaisesRegex(error, f"^a base is a revision, .*not {base!r}$"):
                self.board.edit(PATCH, base=base)


if __name__ == "__main__":
    unittest.main()
