#!/usr/bin/env python3
"""The first list of a board in a terminal: shows its cards as they change, and adds each line that
is typed. A line `undo` takes the last one back.

    python3 examples/board.py PORT [ROOM]

It needs the package websockets (Debian: python3-websockets).
"""
import asyncio, os, re, signal, sys

sys.path.insert(0, f"{os.path.dirname(os.path.abspath(__file__))}/../clients/python")
import relay_client

EMPTY = {"todo": [], "doing": [], "done": [], "away": [], "here": {}}


def show(change):
    """Shows what is typed at once, as `saving` until the relay has shown it."""
    word, shown = "saving:" if change.pending else "saved:", map(str, cards(change.slots))
    print(change.rev, word, ", ".join(shown), flush=True)


def cards(slots):
    """Anybody may put another value there: then the board has no list."""
    [slot] = slots
    return slot[0] if slot and isinstance(slot[0], list) else ["no list of cards"]


def taken_back(patch, cause):
    print("not done:", cause, flush=True)


async def undo(board):
    try:
        if await board.undo() is None:
            print("nothing to undo", flush=True)
    except (relay_client.Refused, relay_client.Unknown) as error:
        print("not undone:", error, flush=True)


async def main(port, room="board"):
    url = f"ws://127.0.0.1:{port}/rooms/{room}"
    told = {"on_change": show, "on_taken_back": taken_back}
    async with relay_client.connect(url, view=["/todo"], begin=EMPTY, **told) as board:
        newest, loop = None, asyncio.get_running_loop()
        while line := await loop.run_in_executor(None, sys.stdin.readline):
            if line.strip() == "undo":
                await undo(board)
            else:
                newest = board.edit(
                    [{"op": "add", "path": "/todo/-", "value": line.strip()}], optimistic=True
                )
        if newest:
            await asyncio.wait([newest])  # answers come in order, so this is the last one


if __name__ == "__main__":
    if not re.fullmatch(r"\d{1,5}( [A-Za-z0-9_-]{1,64})?", " ".join(sys.argv[1:]), re.ASCII):
        sys.exit(__doc__)
    # As an exception Ctrl-C would wait for the thread that waits for a line.
    signal.signal(signal.SIGINT, signal.SIG_DFL)
    asyncio.run(main(*sys.argv[1:]))
