"""Tests of what the files of a keeper have, and what rooms have after a restart."""

import asyncio
import signal

from keeper import documents, place, read, says
from support.patience import PATIENCE, becomes
from support.play import main, shows

FIRST, SECOND, THIRD = {"cards": ["milk"]}, {"cards": ["milk", "bread"]}, {"cards": ["faster"]}
STATES = ("--history", "3", "--apart", "0")


async def begun(here, document=FIRST):
    """Relay and keeper, and files with a document."""
    here.start_relay()
    await here.start_ready()
    for room in ("one", "two"):
        await here.set(room, document)
        await here.kept(room, document)


@shows
async def a_keeper_is_not_ready_before_it_has_met_the_relay(here):
    here.start_keeper()
    await asyncio.sleep(0.5)
    assert here.manager.heard() is None
    here.start_relay()
    await here.manager.hears("READY=1")


@shows
async def one_line_says_that_nothing_answers_until_the_relay_does(here):
    """However many rooms there are, and however often it is tried."""
    wanted = f"WARNING nothing answers at ws://127.0.0.1:{here.port}: start the relay there"
    file = here.folder.with_name("said")

    async def silences():
        return [line for line in file.read_text().splitlines() if "nothing answers" in line]

    with open(file, "w") as said:
        here.start_keeper(stderr=said)
        for times in (1, 2):
            await becomes(silences, lambda lines: len(lines) == times)
            await asyncio.sleep(1.5)
            lines = await silences()
            assert len(lines) == times and lines[-1].startswith(wanted), lines
            assert lines[-1].endswith("; it is tried again"), lines
            here.start_relay()
            for room in ("one", "two"):
                await here.set(room, times)
                await here.kept(room, times)
            here.relay.end()


@shows
async def a_document_is_put_back_after_a_restart_of_the_relay(here):
    await begun(here)
    here.relay.end()
    here.start_relay()
    for room in ("one", "two"):
        await here.put_back(room, FIRST)


@shows
async def a_keeper_that_was_ended_catches_up_before_it_is_ready(here):
    await begun(here)
    here.end_keeper()
    await here.set("one", SECOND)
    await here.start_ready()
    assert await read(here.file("one")) == SECOND
    assert here.aside("one") == []


@shows
async def if_another_client_was_first_the_old_document_is_set_aside(here):
    """And the others are put back before the keeper is ready."""
    await begun(here)
    here.relay.end()
    here.end_keeper()
    here.start_relay()
    await here.set("two", THIRD)
    await here.start_ready()
    await here.has("one", FIRST)
    assert await read(here.file("two")) == THIRD
    assert await documents(here.aside("two")) == [FIRST] and here.aside("one") == []


@shows
async def sigterm_ends_it_with_status_0(here):
    await begun(here)
    here.keeper.send_signal(signal.SIGTERM)
    assert here.keeper.wait(PATIENCE) == 0
    await here.manager.hears("STOPPING=1")


async def with_states(here):
    """A room of which two older states are kept."""
    here.start_relay()
    await here.start_ready(*STATES, rooms=["one"])
    for document in ("a", "b", "c", "d"):
        await here.set("one", document)
        await here.kept("one", document)
    return sorted(here.folder.glob("one.2*.json"))


@shows
async def the_two_newest_of_the_older_states_are_kept_and_are_listed(here):
    older = await with_states(here)
    assert await documents(older) == ["b", "c"], older
    told, status = says("restore", here.folder, "one")
    assert status == 0 and len(told.splitlines()) == 2, told


@shows
async def a_state_is_put_back_into_the_room_and_what_stood_there_is_set_aside(here):
    await with_states(here)
    time = says("restore", here.folder, "one")[0].split()[0]
    told, status = says("restore", here.folder, "one", time, "--url", here.relay.url("")[:-7])
    assert status == 0, told
    await here.has("one", "c")
    await here.kept("one", "c")
    assert await documents(here.aside("one")) == ["d"]


@shows
async def a_state_is_put_into_the_file_while_nothing_runs_and_into_the_room_at_the_next_start(here):
    newest = (await with_states(here))[-1]
    time = newest.name.split(".", 1)[1].removesuffix("Z.json")
    told, status = says("restore", here.folder, "one", time)
    assert status == 1 and "a keeper runs on" in told, told
    here.end_keeper()
    told, status = says("restore", here.folder, "one", "2")
    assert status == 1 and "states begin with 2" in told, told
    told, status = says("restore", here.folder, "one", time)
    assert status == 0 and await read(here.file("one")) == "c", told
    assert await documents(here.aside("one")) == ["d"]
    here.relay.end()
    here.start_relay()
    await here.start_ready(*STATES, rooms=["one"])
    await here.has("one", "c")


@shows
async def rooms_are_kept_by_name_and_by_pattern_and_a_bad_name_is_refused(here):
    here.start_relay()
    here.folder.mkdir()
    names = here.folder / "names"
    names.write_text("board-1\n# no room\nother\n")
    await here.set("board-1", "x")
    await here.start_ready("--match", "board-*", "--list", names, rooms=["one"])
    assert await read(here.file("board-1")) == "x"
    assert not here.file("other").exists()
    told, status = says("keep", "ws://127.0.0.1:1", here.folder / "empty", "no.name")
    assert status == 1 and "'no.name'" in told, told


@shows
async def what_cannot_be_put_back_is_set_aside(here):
    """A file that is no JSON is left alone, and the keeper is not ready while it is there."""
    here.folder.mkdir()
    here.file("one").write_text("1.5")
    here.file("two").write_text('{"torn')
    here.start_relay()
    here.start_keeper(rooms=["one", "two", "three"])
    for room, document in (("three", FIRST), ("one", SECOND)):
        await here.set(room, document)
        await here.kept(room, document)
    assert await documents(here.aside("one")) == [1.5]
    assert here.file("two").read_text() == '{"torn' and here.manager.heard() is None
    here.file("two").unlink()
    await here.manager.hears("READY=1")


@shows
async def a_write_that_the_system_refuses_leaves_the_old_document_and_is_tried_again(here):
    await begun(here)
    (here.folder / "one.new").mkdir()
    await here.set("one", SECOND)
    await asyncio.sleep(0.3)
    assert await read(here.file("one")) == FIRST
    (here.folder / "one.new").rmdir()
    await here.kept("one", SECOND)


if __name__ == "__main__":
    main(each=place)
