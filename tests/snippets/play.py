"""Runs the snippets of documents in Python, each in a room of its own of one relay (RELAY names the
program), and compares what it prints with the block `text` behind it; then uses the board in a
terminal, examples/board.py, and the usage of board.js: play.py DOCUMENT...

A snippet may use `url`, `board` and `show`, as docs/CLIENTS.md says, and await. One that runs an
event loop is a program, which goes on until Ctrl-C: it has to edit its room, what it prints last
has to be what the room shows, and Ctrl-C has to end it without a traceback.
"""
import ast, asyncio, os, re, signal, subprocess, sys

ROOT = os.path.dirname(os.path.dirname(os.path.dirname(os.path.abspath(__file__))))
PACKAGE = f"{ROOT}/clients/python"
sys.path[:0] = [PACKAGE, f"{ROOT}/tests/clients"]
import relay_client
from server import Relay

BLOCK = re.compile(r"^```(\w+)\n(.*?)^```$", re.MULTILINE | re.DOTALL)
BEGUN = {"cards": ["milk", "bread"], "title": "Shopping", "count": 0}
PATIENCE = 60


class Wrong(Exception):
    pass


class Snippet:
    def __init__(self, place, body, prints):
        self.place, self.body, self.prints = place, body, prints

    @property
    def is_program(self):
        return "asyncio.run(" in self.body


def snippets(document):
    with open(document) as file:
        text = file.read()
    blocks = list(BLOCK.finditer(text))
    for block, behind in zip(blocks, [*blocks[1:], None]):
        if block[1] in ("python", "py"):
            line = text.count("\n", 0, block.start()) + 2
            prints = behind[2] if behind and behind[1] == "text" else None
            yield Snippet(f"{os.path.relpath(document, ROOT)}, line {line}", block[2], prints)


async def run(snippet, relay, room):
    """In a room that has begun."""
    url = f"ws://127.0.0.1:{relay.port}/rooms/{room}"
    async with relay_client.connect(url, view=["/cards", "/title", "/count"]) as board:
        await board.edit([{"op": "add", "path": "", "value": BEGUN}], undo=False)
        await until(lambda: board.rev == 1)
        if snippet.is_program:
            await run_program(snippet, relay, room)
        else:
            await run_part(snippet, url, board)


async def run_part(snippet, url, board):
    lines = []
    show = lambda *things: lines.append(" ".join(map(str, things)) + "\n")
    body = snippet.body.replace("ws://127.0.0.1:8080/", url[: url.index("rooms/")])
    code = compile(body, snippet.place, "exec", ast.PyCF_ALLOW_TOP_LEVEL_AWAIT)
    names = {"url": url, "board": board, "show": show, "print": show}
    awaits = eval(code, names)
    if awaits is not None:
        await asyncio.wait_for(awaits, PATIENCE)
    if names["board"] is not board:
        await names["board"].close()
    if snippet.prints is not None and "".join(lines) != snippet.prints:
        raise Wrong(f"it prints\n{''.join(lines)}and not\n{snippet.prints}")


async def run_program(snippet, relay, room):
    body = re.sub(
        r"ws://127\.0\.0\.1:8080/rooms/\w+",
        f"ws://127.0.0.1:{relay.port}/rooms/{room}",
        snippet.body,
    )
    words, pipe = [sys.executable, "-u", "-c", body], asyncio.subprocess.PIPE
    program = await asyncio.create_subprocess_exec(
        *words, stdout=pipe, stderr=pipe, env={**os.environ, "PYTHONPATH": PACKAGE}
    )
    try:
        while True:
            line = (await asyncio.wait_for(program.stdout.readline(), PATIENCE)).decode()
            rev, slots = await relay.shows(room, ["/cards"])
            if not line:
                raise Wrong(f"it ends with {await program.wait()}")
            if rev > 1 and line == f"{rev} {slots}\n":
                return await interrupt(program)
    finally:
        await ended(program)


async def interrupt(program, wanted=0):
    program.send_signal(signal.SIGINT)
    _, said = await asyncio.wait_for(program.communicate(), PATIENCE)
    if program.returncode != wanted or said:
        raise Wrong(f"Ctrl-C ends it with {program.returncode}: {said.decode()}")


TYPED = [
    (None, ["1 saved: "]),
    ("milk", ["1 saving: milk", "2 saved: milk"]),
    ("bread", ["2 saving: milk, bread", "3 saved: milk, bread"]),
    ("undo", ["3 saving: milk", "4 saved: milk"]),
    ("undo", ["4 saving: ", "5 saved: "]),
    ("undo", ["nothing to undo"]),
]
"""The lines that are typed into examples/board.py, and what it prints then."""


async def board_in_terminal(relay, room):
    words = [sys.executable, f"{ROOT}/examples/board.py", str(relay.port), room]
    pipe = asyncio.subprocess.PIPE
    return await asyncio.create_subprocess_exec(*words, stdin=pipe, stdout=pipe, stderr=pipe)


async def leave_board(relay):
    program = await board_in_terminal(relay, "left")
    try:
        await asyncio.wait_for(program.stdout.readline(), PATIENCE)
        await interrupt(program, -signal.SIGINT)
    finally:
        await ended(program)


async def use_board(relay):
    program = await board_in_terminal(relay, "board")
    try:
        for typed, prints in TYPED:
            program.stdin.write(b"" if typed is None else f"{typed}\n".encode())
            for wanted in prints:
                line = (await asyncio.wait_for(program.stdout.readline(), PATIENCE)).decode()
                if line != f"{wanted}\n":
                    raise Wrong(f"it prints {line!r} at {typed}, and not {wanted!r}")
        # The last line is added before it ends.
        rest, _ = await asyncio.wait_for(program.communicate(b"tea"), PATIENCE)
        if program.returncode != 0 or await relay.shows("board", ["/todo"]) != (6, [[["tea"]]]):
            raise Wrong(f"it ends with {program.returncode}: {rest!r}")
    finally:
        await ended(program)
    print("examples/board.py shows at once what is typed, and undoes it")


async def refuse_words():
    """Of both boards in a terminal: other words than a port and a room's name get the usage."""
    for words in ([sys.executable, "board.py"], ["node", "board.js"]):
        program = [*words[:-1], f"{ROOT}/examples/{words[-1]}"]
        for wrong in ([], ["port"], ["8080", "bad room"], ["8080", "board", "more"]):
            ran = subprocess.run([*program, *wrong], capture_output=True, text=True)
            said = ran.stdout + ran.stderr
            if not ran.returncode or "PORT [ROOM]" not in said or "    at " in said:
                raise Wrong(f"{words[-1]} says of {wrong}: {ran.returncode}: {said}")
    print("both boards in a terminal print their usage")


async def ended(program):
    if program.returncode is None:
        program.kill()
    await program.wait()


async def until(holds):
    for _ in range(PATIENCE * 100):
        if holds():
            return
        await asyncio.sleep(0.01)
    raise Wrong("the room does not begin")


async def main(*documents):
    relay, number = await Relay.begin(os.environ["RELAY"], 1000, 64, 32), 0
    try:
        for document in documents:
            first = number
            for number, snippet in enumerate(snippets(document), number + 1):
                await checked(snippet.place, run(snippet, relay, f"p{number}"))
            if number > first:
                print(
                    f"{os.path.relpath(document, ROOT)}: {number - first} snippets run in Python",
                    flush=True,
                )
        await checked("examples/board.py", use_board(relay))
        await checked("examples/board.py", leave_board(relay))
        await checked("examples/", refuse_words())
    finally:
        await relay.end()
    if not number:
        sys.exit("no snippets")


async def checked(place, playing):
    try:
        await playing
    except Exception as wrong:
        raise SystemExit(f"{place}: {type(wrong).__name__}: {wrong}") from wrong


if __name__ == "__main__":
    asyncio.run(main(*sys.argv[1:]))
