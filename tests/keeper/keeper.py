"""A keeper that runs beside a relay, and the service manager that it tells of itself."""

import asyncio
import contextlib
import itertools
import json
import os
import pathlib
import socket
import subprocess
import sys
import tempfile

from support.patience import PATIENCE, becomes
from support.ports import free_port
from support.relay import Relay
from support.room import Room

QUIET = {"stdout": subprocess.DEVNULL}
HEARD = {"stdout": subprocess.PIPE, "stderr": subprocess.STDOUT, "text": True}


def words_of(*words):
    return [sys.executable, os.environ["KEEPER"], *map(str, words)]


def says(*words):
    """Returns what `relay-keeper` prints, and its status."""
    ran = subprocess.run(words_of(*words), **HEARD)
    return ran.stdout, ran.returncode


class Manager:
    """The socket of a service manager."""

    def __init__(self, folder):
        self.path = str(pathlib.Path(folder, "notify"))
        self.socket = socket.socket(socket.AF_UNIX, socket.SOCK_DGRAM)
        self.socket.setblocking(False)
        self.socket.bind(self.path)

    async def hears(self, line):
        """Waits for a message with that line."""
        loop = asyncio.get_running_loop()
        while True:
            told = await asyncio.wait_for(loop.sock_recv(self.socket, 4096), PATIENCE)
            if line in told.decode().split("\n"):
                return

    def heard(self):
        """Returns what was told and not looked at yet."""
        try:
            return self.socket.recv(4096).decode().split("\n")
        except BlockingIOError:
            return None


class Place:
    """A folder of kept rooms, a relay that begins on the same port again, and a keeper. Without
    other words the keeper has that folder."""

    def __init__(self, folder):
        self.folder, self.epochs = pathlib.Path(folder, "kept"), itertools.count(1)
        self.manager, self.port = Manager(folder), free_port(above=1000)
        self.relay = self.keeper = None

    def start_relay(self):
        self.relay = Relay("--history", 64, port=self.port, epoch=next(self.epochs))

    def start_keeper(self, *options, rooms=("one", "two"), **how):
        options = options if "--store" in options else ("--store", self.folder, *options)
        words = words_of("keep", f"ws://127.0.0.1:{self.port}", *rooms, *options)
        environment = {**os.environ, "NOTIFY_SOCKET": self.manager.path}
        self.keeper = subprocess.Popen(words, env=environment, **QUIET, **how)

    async def start_ready(self, *options, **more):
        self.start_keeper(*options, **more)
        await self.manager.hears("READY=1")

    def end_keeper(self):
        self.keeper.kill()
        self.keeper.wait()

    def room(self, name):
        return Room(self.relay, name)

    def file(self, room):
        return self.folder / f"{room}.json"

    def aside(self, room):
        """The files in which older documents of a room were set aside."""
        return sorted(self.folder.glob(f"{room}.*.aside.json"))

    async def set(self, room, document):
        await self.room(room).set(document)

    async def has(self, room, document):
        """The room has that document, now."""
        found = await self.room(room).document()
        assert found == document, found

    async def kept(self, room, document):
        """Soon the room's file has that document."""
        await becomes(lambda: read(self.file(room)), lambda found: found == document)

    async def put_back(self, room, document):
        """Soon the room has that document, and the keeper knows that."""
        await becomes(self.room(room).document, lambda found: found == document)
        await becomes(lambda: self.is_of_this_run(room), bool)

    async def is_of_this_run(self, room):
        """The keeper knows that the room's file is of this run of the relay."""
        mark = self.folder / f"{room}.epoch"
        return mark.exists() and mark.read_text().split()[0] == str(self.relay.epoch)

    def end(self):
        if self.keeper:
            self.end_keeper()
        if self.relay:
            self.relay.end()
        self.manager.socket.close()


@contextlib.contextmanager
def place():
    with tempfile.TemporaryDirectory() as folder:
        here = Place(folder)
        try:
            yield here
        finally:
            here.end()


async def read(file):
    return json.loads(file.read_text()) if file.exists() else None


async def documents(files):
    return [await read(file) for file in files]
