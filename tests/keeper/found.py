"""A relay that answers an operator about its rooms, and a keeper that finds them there."""

import asyncio
import contextlib
import functools
import json
import os
import shlex
import subprocess
import sys
import tempfile

from keeper import Place, words_of
from support import asking
from support.patience import becomes
from support.relay import ROOT, Relay

EVERY = "0.2"


class Found(Place):
    """`store` is where the rooms are kept; the folder, if there is none."""

    def __init__(self, folder, store=None):
        super().__init__(folder)
        self.admin, self.store = self.port + 1000, store or self.folder

    @property
    def admin_url(self):
        return f"http://127.0.0.1:{self.admin}"

    def start_relay(self, *options):
        words = ("--admin", self.admin, *options)
        self.relay = Relay(*words, port=self.port, epoch=next(self.epochs))

    def start_keeper(self, *options, rooms=(), **how):
        found = ("--store", self.store, "--admin", self.admin_url, "--every", EVERY)
        super().start_keeper(*found, *options, rooms=rooms, **how)

    def start_by_unit(self, **settings):
        """The keeper, as the unit starts it for the instance of this port."""
        unit = ROOT / "docs/running/relay-keeper@.service"
        asked = subprocess.run(
            [ROOT / "tests/unit-command", unit, str(self.port)], stdout=subprocess.PIPE, text=True
        )
        program = f"{sys.executable} {os.environ['KEEPER']}"
        exports, _, start = asked.stdout.partition("exec /usr/local/bin/relay-keeper ")
        words = f"{exports}export {shlex.join(f'{k}={v}' for k, v in settings.items())}"
        environment = {**os.environ, "NOTIFY_SOCKET": self.manager.path}
        words = ["/bin/sh", "-c", f"{words}; exec {program} {start}"]
        self.keeper = subprocess.Popen(words, env=environment, stdout=subprocess.DEVNULL)

    def listed(self):
        """Returns what the relay tells of its rooms, by their names."""
        rooms = json.loads(asking.get(self.admin, "/rooms").body)
        return {room["name"]: room for room in rooms}

    def patch(self, room, *operations):
        """As a backend edits a room. The status."""
        body = json.dumps(operations).encode()
        form = "Content-Type: application/json-patch+json"
        head = asking.head(f"PATCH /rooms/{room} HTTP/1.1", form, f"Content-Length: {len(body)}")
        with asking.connected(self.admin) as stream:
            stream.sendall(head + body)
            return int(asking.all_of(stream).split(b" ", 2)[1])

    def open(self):
        with asking.connected(self.admin) as stream:
            stream.sendall(asking.head("POST /open HTTP/1.1", "Content-Length: 0"))
            return int(asking.all_of(stream).split(b" ", 2)[1])

    async def exported(self):
        """Returns what the store has, by the rooms' names."""
        words = words_of("export", "--store", self.store)
        asked = functools.partial(subprocess.run, words, stdout=subprocess.PIPE, text=True)
        told = await asyncio.get_running_loop().run_in_executor(None, asked)
        states = map(json.loads, told.stdout.splitlines())
        return {state["room"]: state["document"] for state in states}

    async def keeps(self, documents):
        """Soon the store has these, and no others."""
        await becomes(self.exported, lambda found: found == documents)

    async def is_in(self, *rooms):
        """Soon there are sessions in these rooms, and in no others."""

        async def look():
            return {room for room, it in self.listed().items() if it["sessions"] > 0}

        await becomes(look, lambda found: found == set(rooms))


@contextlib.contextmanager
def found():
    with tempfile.TemporaryDirectory() as folder:
        here = Found(folder)
        try:
            yield here
        finally:
            here.end()
