"""Two keepers on one store: the second one waits, and goes on when the first one ends, however that
ends. For each store."""

import asyncio
import contextlib
import os
import signal
import subprocess
import tempfile

from keeper import place, words_of
from support.patience import PATIENCE, becomes
from support.play import main, shows
from support.postgres import cluster

FIRST, SECOND, THIRD = {"cards": ["milk"]}, {"cards": ["milk", "bread"]}, {"cards": []}


@contextlib.contextmanager
def stores(database):
    with tempfile.TemporaryDirectory() as folder:
        yield f"files:{folder}/kept", f"sqlite:{folder}/kept.db", database.database()


class Keeper:
    """One of several on a store, whose standard error is read."""

    def __init__(self, here, where):
        words = words_of("keep", f"ws://127.0.0.1:{here.port}", "board", "--store", where)
        environment = {key: it for key, it in os.environ.items() if key != "NOTIFY_SOCKET"}
        ends = {"stdout": subprocess.PIPE, "stderr": subprocess.PIPE, "text": True}
        self.process = subprocess.Popen(words, env=environment, **ends)

    async def says(self, stream, words):
        """Waits for a line with these words."""
        read = asyncio.get_running_loop().run_in_executor
        while words not in (line := await asyncio.wait_for(read(None, stream.readline), PATIENCE)):
            assert line, f"it ended with {self.process.wait()}"

    async def is_ready(self):
        await self.says(self.process.stdout, "ready")

    async def waits(self):
        await self.says(self.process.stderr, "this one waits")

    def end(self, sign=signal.SIGKILL):
        """Its status, and the rest of what it said."""
        if self.process.poll() is None:
            self.process.send_signal(sign)
        _, said = self.process.communicate(timeout=PATIENCE)
        return self.process.returncode, said


def kept(where):
    """Returns what the store has of the room."""
    words = words_of("export", "--store", where, "board")
    return subprocess.run(words, stdout=subprocess.PIPE, text=True).stdout


async def comes(where, part):
    async def look():
        return kept(where)

    await becomes(look, lambda text: part in text)


@shows
async def the_second_one_waits_and_goes_on_after_kill_9(database):
    with stores(database) as places:
        for where in places:
            with place() as here:
                here.start_relay()
                first = Keeper(here, where)
                await first.is_ready()
                await here.set("board", FIRST)
                await comes(where, '["milk"]')
                second = Keeper(here, where)
                await second.waits()
                await here.set("board", SECOND)
                await comes(where, '["milk","bread"]')
                assert second.process.poll() is None
                assert first.end()[0] == -signal.SIGKILL
                await second.is_ready()
                await here.set("board", THIRD)
                await comes(where, '"cards":[]')
                assert second.end(signal.SIGTERM)[0] == 0


@shows
async def one_that_waits_ends_by_sigterm(database):
    with stores(database) as places, place() as here:
        here.start_relay()
        for where in places:
            first = Keeper(here, where)
            await first.is_ready()
            second = Keeper(here, where)
            await second.waits()
            assert second.end(signal.SIGTERM)[0] == 0
            assert first.end(signal.SIGTERM)[0] == 0


@shows
async def one_that_lost_its_lease_ends_with_status_1_and_a_line(database):
    """While it writes, and while nothing is to be written."""
    where = database.database()
    for is_edited in (True, False):
        with place() as here:
            here.start_relay()
            first = Keeper(here, where)
            await first.is_ready()
            second = Keeper(here, where)
            await second.waits()
            asked = "SELECT pid FROM pg_locks WHERE locktype = 'advisory' AND granted"
            database.sql(f"SELECT pg_terminate_backend(pid) FROM ({asked}) AS held")
            if is_edited:
                await here.set("board", FIRST)
            await second.is_ready()
            first.process.wait(PATIENCE)
            status, said = first.end()
            assert status == 1 and "relay-keeper: " in said and "lease" in said, said
            assert "Traceback" not in said, said
            await here.set("board", SECOND)
            await comes(where, '["milk","bread"]')
            assert second.end(signal.SIGTERM)[0] == 0


@shows
async def it_ends_when_the_database_ends(_):
    with cluster() as own, place() as here:
        here.start_relay()
        keeper = Keeper(here, own.database())
        await keeper.is_ready()
        own.stop()
        await here.set("board", FIRST)
        keeper.process.wait(PATIENCE)
        status, said = keeper.end()
        assert status == 1 and "lease" in said and "Traceback" not in said, said


if __name__ == "__main__":
    with cluster() as started:
        main(started)
