"""A keeper that finds the rooms by the operator's port: which it is in, what it keeps, and what the
rooms have before clients are let in."""

import asyncio
import contextlib
import signal

import relay_client
from found import found
from keeper import says
from support import asking
from support.patience import PATIENCE, becomes
from support.play import main, shows

FIRST, SECOND, THIRD = {"cards": ["milk"]}, {"cards": ["milk", "bread"]}, {"cards": ["faster"]}


@contextlib.asynccontextmanager
async def client(here, room):
    """One that waits until it is let in. Each document that it was shown, first."""
    shown = []
    board = relay_client.connect(
        f"ws://127.0.0.1:{here.port}/rooms/{room}",
        view=[""],
        on_change=lambda change: shown.append(change.slots[0][0]),
        on_state=lambda state, cause: None,
        longest_wait=0.5,
    )
    async with board:
        yield board, shown


async def begun(here, *options, documents):
    """A relay with rooms, and a keeper that has found and left them."""
    here.start_relay()
    await here.start_ready(*options)
    for room, document in documents.items():
        await here.set(room, document)
    await here.keeps(documents)
    await here.is_in()


@shows
async def it_finds_each_room_and_leaves_it_once_it_is_kept(here):
    await begun(here, documents={"one": FIRST, "two": SECOND, "3": 3})
    async with client(here, "two") as (board, _):
        await board.edit([{"op": "add", "path": "", "value": THIRD}])
        await here.keeps({"one": FIRST, "two": THIRD, "3": 3})
        await becomes(lambda: sessions(here, "two"), lambda count: count == 2)
    await here.is_in()


async def sessions(here, room):
    return here.listed()[room]["sessions"]


@shows
async def it_is_ready_once_the_relay_answers(here):
    here.start_keeper()
    await asyncio.sleep(0.5)
    assert here.manager.heard() is None
    here.start_relay()
    await here.manager.hears("READY=1")


@shows
async def it_keeps_rooms_by_name_and_by_pattern(here):
    here.start_relay()
    for room in ("one", "board-1", "board-2", "other", "x-1"):
        await here.set(room, room)
    await here.start_ready("--match", "board-*", "--match", "x-*", rooms=["one"])
    await here.keeps({room: room for room in ("one", "board-1", "board-2", "x-1")})
    await here.is_in()


@shows
async def what_a_backend_edits_is_kept_too(here):
    here.start_relay()
    await here.start_ready()
    assert here.patch("one", {"op": "add", "path": "", "value": FIRST}) == 200
    await here.keeps({"one": FIRST})
    assert here.patch("one", {"op": "add", "path": "/cards/-", "value": "bread"}) == 200
    await here.keeps({"one": SECOND})
    await here.is_in()


@shows
async def rooms_that_nobody_is_in_take_no_session(here):
    """Forty, in a relay with two sessions."""
    here.start_relay("--sessions", 2)
    documents = {f"room-{number}": number for number in range(40)}
    for room, document in documents.items():
        await here.set(room, document)
    await here.start_ready()
    await here.keeps(documents)
    async with client(here, "room-7") as (board, _):
        await board.edit([{"op": "add", "path": "", "value": FIRST}])
        await here.keeps({**documents, "room-7": FIRST})


@shows
async def a_room_that_was_forgotten_is_kept_as_null_and_makes_place(here):
    here.start_relay("--rooms", 2)
    await here.start_ready()
    for room in ("one", "two"):
        await here.set(room, FIRST)
    await here.keeps({"one": FIRST, "two": FIRST})
    await here.is_in()
    assert asking.delete(here.admin, "one").status == 204
    await here.keeps({"one": None, "two": FIRST})
    await here.is_in()
    await here.set("three", THIRD)
    await here.keeps({"one": None, "two": FIRST, "three": THIRD})
    assert set(here.listed()) == {"two", "three"}


@shows
async def documents_are_there_before_a_client_is_let_in(here):
    """Each time the relay begins anew, whether or not the keeper does. A document of null is not
    put back."""
    documents = {"one": FIRST, "two": SECOND}
    await begun(here, documents={**documents, "null": 1})
    await here.set("null", None)
    await here.keeps({**documents, "null": None})
    await here.is_in()
    for ends in ("relay", "both", "relay"):
        here.relay.end()
        if ends == "both":
            here.end_keeper()
        here.start_relay("--closed")
        async with client(here, "one") as (board, shown):
            if ends == "both":
                await asyncio.sleep(0.5)
                assert not shown, shown
                await here.start_ready()
            await asyncio.wait_for(board.ready, PATIENCE)
            assert shown == [FIRST], shown
            assert here.listed().keys() == documents.keys(), here.listed()
        await here.keeps({**documents, "null": None})
        await here.is_in()
    assert here.aside("one") == here.aside("two") == []


@shows
async def what_was_heard_and_is_not_written_yet_is_put_back(here):
    """A document of 250 KB, which is written 14 seconds after an edit."""
    document = {"n": 0, "rest": "x" * 250_000}
    here.start_relay("--closed")
    await here.start_ready("--age", "60")
    async with client(here, "one") as (board, _):
        await board.edit([{"op": "add", "path": "", "value": document}])
        await here.keeps({"one": document})
        await becomes(lambda: sessions(here, "one"), lambda count: count == 2)
        await board.edit([{"op": "replace", "path": "/n", "value": 1}])
        await asyncio.sleep(0.5)
        assert await here.exported() == {"one": document}
    here.relay.end()
    here.start_relay("--closed")
    async with client(here, "one") as (board, shown):
        await asyncio.wait_for(board.ready, PATIENCE)
        assert shown == [{**document, "n": 1}], shown[0]["n"]
    await here.keeps({"one": {**document, "n": 1}})
    assert here.aside("one") == []


@shows
async def a_relay_without_kept_rooms_is_opened_too(here):
    here.start_relay("--closed")
    await here.start_ready()
    for _ in range(2):
        async with client(here, "one") as (board, shown):
            await asyncio.wait_for(board.ready, PATIENCE)
            assert shown == [None], shown
        here.relay.end()
        here.start_relay("--closed")


@shows
async def a_client_that_is_first_in_an_open_relay_keeps_its_document(here):
    await begun(here, documents={"one": FIRST, "two": SECOND})
    here.end_keeper()
    here.relay.end()
    here.start_relay()
    await here.set("one", THIRD)
    await here.start_ready()
    await here.has("two", SECOND)
    await here.keeps({"one": THIRD, "two": SECOND})
    [aside] = here.aside("one")
    assert aside.read_text() == '{"cards":["milk"]}\n' and here.aside("two") == []


@shows
async def a_keeper_that_was_ended_goes_on_in_the_same_run(here):
    await begun(here, documents={"one": FIRST, "two": SECOND})
    here.end_keeper()
    await here.set("one", THIRD)
    await here.start_ready()
    await here.keeps({"one": THIRD, "two": SECOND})
    assert here.aside("one") == []
    await here.is_in()


@shows
async def the_command_restores_a_closed_relay_and_lets_clients_in(here):
    await begun(here, documents={"one": FIRST, "two": SECOND})
    here.end_keeper()
    here.relay.end()
    here.start_relay("--closed")
    async with client(here, "one") as (board, shown):
        words = ("restore", "--store", here.store, "--admin", here.admin_url)
        asked = asyncio.get_running_loop().run_in_executor(None, lambda: says(*words))
        told, status = await asked
        assert status == 0 and "2 rooms have their documents" in told, told
        await asyncio.wait_for(board.ready, PATIENCE)
        assert shown == [FIRST], shown
    await here.has("two", SECOND)


@shows
async def a_relay_that_ends_for_a_while_is_waited_for(here):
    await begun(here, documents={"one": FIRST})
    here.relay.end()
    await asyncio.sleep(1.0)
    assert here.keeper.poll() is None
    here.start_relay("--closed")
    async with client(here, "one") as (board, shown):
        await asyncio.wait_for(board.ready, PATIENCE)
        assert shown == [FIRST], shown


@shows
async def the_words_of_the_unit_keep_the_rooms_of_its_port(here):
    """By the options that /etc/default would have."""
    here.store = f"sqlite:{here.folder}/rooms.db"
    here.start_relay("--closed")
    here.start_by_unit(STORE=here.store, OPTIONS="--every 0.2 --match o*")
    await here.manager.hears("READY=1")
    for room in ("one", "two"):
        await here.set(room, FIRST)
    await here.keeps({"one": FIRST})
    here.keeper.send_signal(signal.SIGTERM)
    assert here.keeper.wait(PATIENCE) == 0


if __name__ == "__main__":
    main(each=found)
