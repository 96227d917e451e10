"""Documents of another shape than an application expects: anybody may write anything anywhere."""
import asyncio, contextlib, importlib.util, io, os, unittest
from fake import FakeRelay, patch, refused, relay_client, settle, unawaited

ROOT = os.path.dirname(os.path.dirname(os.path.dirname(os.path.dirname(os.path.abspath(__file__)))))
SHAPES = [None, True, 0, 7, "", "text", [], [1], [[1]], [{"0": 1}], {}, {"0": 1}]
SHAPES += [{"todo": 7, "here": None}, {"todo": {"0": None}}]
POINTERS = ["", "/todo", "/todo/0", "/todo/0/title", "/here", "/here/ann", "/0", "/-"]


class Shapes(unittest.IsolatedAsyncioTestCase):
    async def asyncSetUp(self):
        self.thrown = []
        asyncio.get_running_loop().set_exception_handler(
            lambda loop, context: self.thrown.append(context)
        )

    async def asyncTearDown(self):
        self.assertEqual(self.thrown, [])

    async def test_setting_a_part_of_a_slot_replaces_it(self):
        relay = FakeRelay()
        board = await relay.begin(["/cards"], [[["milk", "tea"]]])
        card = board.at("/cards/0")
        card.set("eggs")
        self.assertEqual((card.value, board.slots), ("eggs", [[["eggs", "tea"]]]))
        await settle()
        self.assertEqual(
            relay.last["patch"], [{"op": "replace", "path": "/cards/0", "value": "eggs"}]
        )
        board.at("/cards/2").set("salt")
        self.assertEqual(board.slots, [[["eggs", "tea", "salt"]]])
        await settle()
        self.assertEqual(relay.last["patch"], [{"op": "add", "path": "/cards/2", "value": "salt"}])
        await board.close()

    async def test_every_value_can_be_looked_at_and_set(self):
        """A `LookupError` says that the view does not show it, and nothing else is thrown."""
        for view in (["/todo", "/here"], [""], [{"size": "/todo"}, "/here/ann"]):
            for shape in SHAPES:
                await self.use(view, shape)

    async def use(self, view, shape):
        slots = [[shape]] * len(view) if "size" not in view[0] else [[], [shape]]
        relay = FakeRelay()
        board = await relay.begin(view, slots)
        for pointer in POINTERS:
            place = board.at(pointer)
            with contextlib.suppress(LookupError):
                place.subscribe(lambda value: None)
                unawaited(place.set("new"))
        move = {"op": "move", "from": "/todo/0", "path": "/here/ann"}
        unawaited(board.edit([move], optimistic=True))
        await settle()
        for number, slot in enumerate(slots):
            await relay.say(
                patch(
                    2 + number,
                    {"op": "replace", "path": f"/{number}", "value": [None] if slot else []},
                )
            )
        for request in relay.link.sent[1:]:
            await relay.say(refused(request["id"], "no-container", 0))
        self.assertEqual((board.pending, board.state), (0, "open"))
        await board.close()

    async def test_the_board_in_a_terminal_shows_a_list_only(self):
        for slot, shown in [([], "no list of cards"), ([["milk", 7, None]], "milk, 7, None")] + [
            ([shape], "no list of cards") for shape in (None, 7, "text", {"0": 1})
        ]:
            with self.subTest(slot=slot), contextlib.redirect_stdout(io.StringIO()) as out:
                terminal().show(relay_client.Change([slot], [slot], 3, 0, None))
                self.assertEqual(out.getvalue(), f"3 saved: {shown}\n")


def terminal():
    """examples/board.py, as a module."""
    spec = importlib.util.spec_from_file_location("terminal", f"{ROOT}/examples/board.py")
    module = importlib.util.module_from_spec(spec)
    spec.loader.exec_module(module)
    return module


if __name__ == "__main__":
    unittest.main()
