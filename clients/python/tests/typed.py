"""The code that an application writes, as `mypy --strict` reads it."""
from __future__ import annotations

from typing import List, Optional

import relay_client


def show(change: relay_client.Change) -> None:
    slots: List[List[relay_client.Json]] = change.slots
    print(change.rev, slots, change.patch)


def tell(state: relay_client.State, cause: Optional[Exception]) -> None:
    if isinstance(cause, relay_client.HandshakeFailed) and cause.status == 404:
        print(state, cause.reason)


async def main() -> None:
    url = "ws://127.0.0.1:8080/rooms/board"
    view: relay_client.View = ["/cards", {"size": "/cards"}]
    async with relay_client.connect(
        url, view=view, begin={"cards": []}, on_change=show, on_state=tell
    ) as board:
        slots: relay_client.Slots = await board.ready
        rev: int = await board.edit(
            [{"op": "add", "path": "/cards/-", "value": "milk"}], optimistic=True
        )
        rev = await board.edit([], base=board.rev, epoch=board.epoch)
        rev = await board.at("/cards/0").set({"title": "tea"})
        rev = await board.at("/cards/0").update(lambda card: {**card, "done": True})
        end = board.subscribe(show)
        end()
        async for change in board.changes():
            show(change)
        async for value in board.at("/cards").changes():
            print(value, slots, rev)
        rev = await board.change(lambda draft: draft["cards"].append("milk"), guard="base")
        rev = await board.at(relay_client.pointer("cards")).push("milk", "bread")
        rev = (
            await board.at("/cards").by_key("id").change("k7", lambda card: card.update(done=True))
        )
        slots = await board.sync()
        undone: Optional[int] = await board.undo()
        redone: Optional[int] = await board.redo()
        print(undone, redone)
        pending: int = board.pending
        confirmed: Optional[relay_client.Slots] = board.confirmed
        print(pending, confirmed)
        await board.will([{"op": "remove", "path": "/cards/0"}])
        rev = await board.end()
    async with relay_client.connect(url, view=view, read_only=True) as screen:
        slots = await screen.ready
