"""The command `relay-client`, as another process. The relay is one that the test plays over a
socket; the examples of `--help` are played to the program that RELAY names."""
import asyncio, json, os, re, signal, sys, tempfile, unittest
from contextlib import asynccontextmanager

import websockets

from fake import done, patch, refused, relay_client, snapshot, watching, welcome

PACKAGE = os.path.dirname(os.path.dirname(os.path.abspath(relay_client.__file__)))
ENVIRONMENT = {**os.environ, "PYTHONPATH": PACKAGE}
PIPE = asyncio.subprocess.PIPE
PATIENCE = 60
SHOWN = {"": {"n": 1}, "/n": 1, "/name": "Zoë"}
CHANGE = patch(8, {"op": "replace", "path": "/0", "value": [2]})
INSERT = '[{"op":"add","path":"/cards/0","value":"tea"}]'
NO_ROOM_YET = (
    "there is no room of this name yet, or what answers there has no rooms, or is the --admin port"
)


class Relay:
    """Shows `SHOWN` at revision 7 on each connection, as if it had been restarted. It answers each
    edit by the next of `answers`, and ends the connection if there is none."""

    def __init__(self, *answers):
        self.answers, self.edits, self.sockets, self.targets = list(answers), [], [], []

    async def serve(self, socket):
        self.sockets.append(socket)
        self.targets.append(getattr(socket, "path", None) or socket.request.path)
        await self.say(welcome(7, epoch=len(self.sockets)))
        async for text in socket:
            request = json.loads(text)
            if "view" in request:
                await self.show(request)
            else:
                self.edits.append(request)
                if not self.answers:
                    return
                await self.say({**self.answers.pop(0), "id": request["id"]})

    async def show(self, request):
        number, view = request["id"], request["view"]
        resumed = {"how": "snapshot", "id": number, "kind": "resumed"}
        slots = [[SHOWN[pointer]] if pointer in SHOWN else [] for pointer in view]
        if len(view) > 16:
            await self.say(refused(number, "too-many"))
        else:
            reply = watching(number) if request["do"] == "watch" else resumed
            await self.say(reply, snapshot(7, slots))

    async def say(self, *messages):
        for message in messages:
            await self.sockets[-1].send(json.dumps(message))

    @asynccontextmanager
    async def listening(self, port=0):
        async with websockets.serve(self.serve, "127.0.0.1", port) as server:
            yield address(server)


class NoRooms:
    """Answers each handshake with 404, and counts them."""

    def __init__(self):
        self.asked = 0

    async def refuse(self, reader, writer):
        await reader.readuntil(b"\r\n\r\n")
        writer.write(b"HTTP/1.1 404 Not Found\r\nContent-Length: 0\r\nConnection: close\r\n\r\n")
        writer.close()
        self.asked += 1

    @asynccontextmanager
    async def listening(self):
        async with await asyncio.start_server(self.refuse, "127.0.0.1", 0) as server:
            yield address(server)

    async def until_asked(self, count):
        while self.asked < count:
            await asyncio.sleep(0.01)


def address(server):
    return f"ws://127.0.0.1:{server.sockets[0].getsockname()[1]}/rooms/play"


async def begin(*words, stdout=PIPE):
    """Hears interrupts also where the caller ignores them, as a shell's background job does."""
    command = [sys.executable, "-m", "relay_client", *words]
    how = {"stdin": PIPE, "stdout": stdout, "stderr": PIPE, "env": ENVIRONMENT}
    how["preexec_fn"] = lambda: signal.signal(signal.SIGINT, signal.SIG_DFL)
    return await asyncio.create_subprocess_exec(*command, **how)


async def ended(program, typed=b""):
    """Its status, and what it printed to both."""
    printed, said = await asyncio.wait_for(program.communicate(typed), PATIENCE)
    return program.returncode, (printed or b"").decode(), said.decode()


async def run(*words, typed=b""):
    return await ended(await begin(*words), typed)


@asynccontextmanager
async def served():
    """The port of the program that RELAY names."""
    words = [os.environ["RELAY"], "serve", "--port", "0"]
    server = await asyncio.create_subprocess_exec(*words, stdout=PIPE)
    try:
        line = (await asyncio.wait_for(server.stdout.readline(), PATIENCE)).decode()
        yield line.split()[1]
    finally:
        server.kill()
        await server.wait()


class Get(unittest.IsolatedAsyncioTestCase):
    async def test_each_value_has_a_line(self):
        async with Relay().listening() as url:
            self.assertEqual(await run("get", url), (0, '{"n":1}\n', ""))
            self.assertEqual(await run("get", url, "/name", "/n"), (0, '"Zoë"\n1\n', ""))

    async def test_a_pointer_to_nothing_is_refused_and_no_line_is_printed(self):
        async with Relay().listening() as url:
            status, printed, said = await run("get", url, "/n", "/m")
        self.assertEqual((status, printed), (1, ""))
        self.assertEqual(said, "relay-client: refused: missing, at pointer 1 (the first is 0)\n")

    async def test_a_view_that_the_relay_refuses_is_refused(self):
        async with Relay().listening() as url:
            outcome = await run("get", url, *["/n"] * 17)
        self.assertEqual(outcome, (1, "", "relay-client: refused: too-many\n"))

    async def test_a_room_is_entered_only_to_watch_it(self):
        relay = Relay()
        async with relay.listening() as url:
            self.assertEqual(await run("get", f"{url}/watch", "/n"), (0, "1\n", ""))
            self.assertEqual(await run("get", url, "/n"), (0, "1\n", ""))
        self.assertEqual(relay.targets, ["/rooms/play/watch"] * 2)

    async def test_that_there_is_no_room_is_said_at_once(self):
        async with NoRooms().listening() as url:
            for address in (url, f"{url}/watch"):
                status, printed, said = await run("get", address, "/n", "--timeout", "50")
                self.assertEqual((status, printed), (3, ""))
                words = f"relay-client: {url}/watch refuses the connection, with 404: {NO_ROOM_YET}"
                self.assertTrue(said.startswith(words), said)

    @unittest.skipUnless(os.environ.get("RELAY"), "RELAY names no program")
    async def test_a_name_that_is_mistyped_begins_no_room(self):
        async with served() as port:
            url = f"ws://127.0.0.1:{port}/rooms/play"
            program = await begin("watch", url)
            self.assertIn(NO_ROOM_YET, (await program.stderr.readline()).decode())
            for _ in range(2):
                status, printed, said = await run("get", url)
                self.assertEqual((status, printed), (3, ""))
                self.assertIn(NO_ROOM_YET, said)
            edit = await run("edit", url, '[{"op":"add","path":"","value":{"n":1}}]')
            self.assertEqual(edit, (0, '{"rev":1}\n', ""))
            self.assertEqual(await run("get", url, "/n"), (0, "1\n", ""))
            line = await asyncio.wait_for(program.stdout.readline(), PATIENCE)
            self.assertEqual(line, b'{"rev":1,"slots":[[{"n":1}]]}\n')
            program.send_signal(signal.SIGINT)
            self.assertEqual((await ended(program))[0], 0)


class Edit(unittest.IsolatedAsyncioTestCase):
    async def test_the_new_revision_is_printed(self):
        relay = Relay(done(0, 8), done(0, 9))
        async with relay.listening() as url:
            self.assertEqual(await run("edit", url, INSERT), (0, '{"rev":8}\n', ""))
            outcome = await run("edit", "--base", "8", url, "-", typed=INSERT.encode())
        self.assertEqual(outcome, (0, '{"rev":9}\n', ""))
        self.assertEqual([it["patch"] for it in relay.edits], [json.loads(INSERT)] * 2)
        self.assertEqual([it.get("base") for it in relay.edits], [None, 8])

    async def test_a_refusal_is_said_in_words(self):
        relay = Relay(refused(0, "missing", 0), refused(0, "stale", rev=9))
        async with relay.listening() as url:
            first, second = await run("edit", url, INSERT), await run(
                "edit", url, INSERT, "--base", "8"
            )
        missing = "relay-client: refused: missing, at operation 0 (the first is 0)\n"
        self.assertEqual(first, (1, "", missing))
        self.assertEqual(
            second, (1, "", "relay-client: refused: stale, the room is at revision 9\n")
        )

    async def test_a_lost_answer_is_no_answer(self):
        async with Relay().listening() as url:
            status, printed, said = await run("edit", url, INSERT)
        self.assertEqual((status, printed), (3, ""))
        self.assertIn(
            "the connection was lost before the answer: the edit may have been done", said
        )


class Watch(unittest.IsolatedAsyncioTestCase):
    async def test_each_change_has_a_line_until_ctrl_c(self):
        relay = Relay()
        async with relay.listening() as url:
            program = await begin("watch", url, "/n", "/m")
            line = await asyncio.wait_for(program.stdout.readline(), PATIENCE)
            self.assertEqual(line, b'{"rev":7,"slots":[[1],[]]}\n')
            await relay.say(CHANGE)
            line = await asyncio.wait_for(program.stdout.readline(), PATIENCE)
            self.assertEqual(line, b'{"rev":8,"slots":[[2],[]]}\n')
            program.send_signal(signal.SIGINT)
            self.assertEqual(await ended(program), (0, "", ""))

    async def test_it_ends_once_nobody_reads_it_also_without_a_change(self):
        async with Relay().listening() as url:
            reading, writing = os.pipe()
            program = await begin("watch", url, "/n", stdout=writing)
            os.close(writing)
            line = await asyncio.get_running_loop().run_in_executor(None, os.read, reading, 100)
            self.assertEqual(line, b'{"rev":7,"slots":[[1]]}\n')
            os.close(reading)
            self.assertEqual(await ended(program), (0, "", ""))

    async def test_it_goes_on_after_a_lost_connection(self):
        relay = Relay()
        async with relay.listening() as url:
            program = await begin("watch", url, "/n")
            await asyncio.wait_for(program.stdout.readline(), PATIENCE)
            await relay.say(CHANGE)
            await relay.sockets[0].close()
            lines = [await asyncio.wait_for(program.stdout.readline(), PATIENCE) for _ in range(2)]
            self.assertEqual(lines, [b'{"rev":8,"slots":[[2]]}\n', b'{"rev":7,"slots":[[1]]}\n'])
            program.send_signal(signal.SIGINT)
            self.assertEqual((await ended(program))[0], 0)

    async def test_it_waits_for_a_room_that_is_not_there_yet(self):
        none, relay = NoRooms(), Relay()
        async with none.listening() as url:
            program = await begin("watch", url, "/n", "--timeout", "0.1")
            await asyncio.wait_for(none.until_asked(3), PATIENCE)
        port = int(url.rpartition("/rooms/")[0].rpartition(":")[2])
        async with relay.listening(port):
            line = await asyncio.wait_for(program.stdout.readline(), PATIENCE)
            self.assertEqual(line, b'{"rev":7,"slots":[[1]]}\n')
            program.send_signal(signal.SIGINT)
            status, printed, said = await ended(program)
        self.assertEqual((status, printed, relay.targets), (0, "", ["/rooms/play/watch"]))
        self.assertEqual(said.count(f"with 404: {NO_ROOM_YET}"), 1, said)
        self.assertIn("; it is tried again\n", said)

    async def test_it_ends_once_nobody_reads_it_also_while_it_waits(self):
        none = NoRooms()
        async with none.listening() as url:
            reading, writing = os.pipe()
            program = await begin("watch", f"{url}/watch", stdout=writing)
            os.close(writing)
            await asyncio.wait_for(none.until_asked(2), PATIENCE)
            os.close(reading)
            status, _, said = await ended(program)
        self.assertEqual((status, said.count("relay-client")), (0, 0), said)


class Words(unittest.IsolatedAsyncioTestCase):
    async def test_words_that_are_wrong_are_a_matter_of_usage(self):
        url = "ws://127.0.0.1:1/rooms/play"
        for words, said in [
            ([], "required"),
            (["put", url], "invalid choice"),
            (["get", "ws://127.0.0.1:1/room"], "an address ends with /rooms/NAME"),
            (["edit", f"{url}/watch", "[]"], "leave out `/watch`: who only watches edits nothing"),
            (["watch", f"{url}/watch/watch"], "an address ends with /rooms/NAME"),
            (["get", url, "n"], "'n' is no JSON Pointer"),
            (["watch", url, "--timeout", "0"], "0 is no time"),
            (["edit", url, "[{"], "no JSON"),
            (["edit", url, '[{"value":1.5}]'], "/0/value: 1.5 is no whole number"),
            (["edit", url, '[{"value":1.0}]'], "/0/value: 1.0 has a fraction: write 1"),
            (["edit", url, '[{"value":1e300}]'], "/0/value: 1e+300 is no whole number"),
            (["edit", url, '{"op":"add"}'], "a patch is a list of operations"),
            (["edit", url, "[1]"], "operation 0 (the first is 0) is no object with"),
            (["edit", url, '[{"op":["add"]}]'], "operation 0 (the first is 0) is no object"),
            (["edit", url, '[{"op":"put","path":""}]'], "is no object with an `op` of add,"),
            (["edit", url, '[{"op":"add","path":"/a"}]'], "(the first is 0) needs `value`"),
            (["edit", url, '[{"op":"move","path":""}]'], "(the first is 0) needs `from`"),
            (["edit", url, '[{"op":"remove","path":1}]'], "`path` is no text"),
            (["edit", url, '[{"op":"remove","path":"n"}]'], "'n' is no JSON Pointer"),
            (["edit", url, "[]", "--base", "-1"], "-1 is no revision"),
        ]:
            status, printed, told = await run(*words)
            self.assertEqual((status, printed), (2, ""), words)
            self.assertIn(said, told)

    async def test_a_404_is_of_an_address_of_no_room_but_for_what_only_reads(self):
        async with NoRooms().listening() as url:
            for words in [
                ["edit", url, INSERT],
                ["get", f"{url}?x=1"],
                ["watch", f"{url}/watch?x=1"],
            ]:
                status, printed, told = await run(*words)
                self.assertEqual((status, printed), (2, ""), words)
                self.assertIn("refuses the connection, with 404: ", told)

    @unittest.skipUnless(os.environ.get("RELAY"), "RELAY names no program")
    async def test_an_address_of_no_room_is_a_matter_of_usage(self):
        async with served() as port:
            every = [["get"], ["watch"], ["edit", INSERT]]
            before = "with 404: a room is at /rooms/NAME, and this path is /b/"
            for path, said, those in [
                ("/rooms/play?x=1", "with 404: leave out the `?` and what follows", every),
                # What only reads takes a path before it for a proxy's, and the room for none yet.
                ("/b/rooms/play", before, every[2:]),
            ]:
                for words in those:
                    url = f"ws://127.0.0.1:{port}{path}"
                    status, printed, told = await run(words[0], url, *words[1:])
                    self.assertEqual((status, printed), (2, ""), words)
                    self.assertIn(said, told)

    async def test_no_relay_is_said_at_once(self):
        for words in [["get"], ["watch"], ["edit", INSERT]]:
            url = "ws://127.0.0.1:1/rooms/play"
            status, printed, said = await run(words[0], url, *words[1:])
            self.assertEqual((status, printed), (3, ""))
            self.assertIn(f"relay-client: nothing answers at {url}", said)

    async def test_no_message_has_the_password_of_an_address(self):
        for words in [["get"], ["watch"], ["edit", INSERT]]:
            for address, shown, status in [
                ("ws://anna:secret@127.0.0.1:1/rooms/a", "ws://anna:***@127.0.0.1:1/rooms/a", 3),
                ("ws://anna:secret@h/a", "ws://anna:***@h/a", 2),
            ]:
                ended, printed, said = await run(words[0], address, *words[1:])
                self.assertEqual((ended, printed), (status, ""))
                self.assertIn(shown, said)
                self.assertNotIn("secret", said)
        ended, printed, said = await run("edit", "ws://anna:secret@h/rooms/a/watch", INSERT)
        self.assertIn("ws://anna:***@h/rooms/a/watch: leave out `/watch`", said)

    async def test_a_relay_that_says_nothing_is_waited_for_as_long_as_the_timeout(self):
        async def silent(socket):
            await socket.wait_closed()

        relay = Relay()
        relay.serve = silent
        async with relay.listening() as url:
            for words in [["get"], ["watch"], ["edit", INSERT]]:
                status, printed, said = await run(words[0], url, *words[1:], "--timeout", "0.5")
                self.assertEqual((status, printed), (3, ""))
                self.assertIn("relay-client: no answer within 0.5 seconds", said)


EXAMPLE = re.compile(r"^  (?:relay-client|echo) (?:.*\|\n)?.*$", re.MULTILINE)
PRINTED = ['{"rev":1}\n', '{"n":1}\n', "1\n", '{"rev":1,"slots":[[1]]}\n', '{"rev":2}\n']
"""The output that the relay's protocol has for each, in a new room."""


class Help(unittest.IsolatedAsyncioTestCase):
    @unittest.skipUnless(os.environ.get("RELAY"), "RELAY names no program")
    async def test_its_examples_run_as_they_stand(self):
        status, told, _ = await run("--help")
        examples = EXAMPLE.findall(told)
        self.assertEqual((status, len(examples)), (0, len(PRINTED)))
        async with served() as port:
            for example, printed in zip(examples, PRINTED):
                outcome = await self.typed(example.replace(":8080/", f":{port}/"))
                self.assertEqual(outcome, (0, printed, ""), example)

    async def typed(self, line):
        """Into a shell that has the command."""
        with tempfile.TemporaryDirectory() as folder:
            command = os.path.join(folder, "relay-client")
            with open(command, "w") as file:
                file.write(f'#!/bin/sh\nexec "{sys.executable}" -m relay_client "$@"\n')
            os.chmod(command, 0o755)
            found = {**ENVIRONMENT, "PATH": f"{folder}:{os.environ['PATH']}"}
            shell = await asyncio.create_subprocess_shell(line, env=found, stdout=PIPE, stderr=PIPE)
            return await ended(shell, None)


if __name__ == "__main__":
    unittest.main()
