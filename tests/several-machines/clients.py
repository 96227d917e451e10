"""Clients that count in rooms, each in a member of its own, and note what they were answered and
what they are shown first in each run of a relay."""

import asyncio
import ssl
import time

import relay_client
from support.machines import HERE, NET, ip

BETWEEN = 0.05  # seconds from an answer to the next edit
LONGEST_WAIT = 2  # seconds from one try to come back to the next one
FIRST = 100  # the last number of the first one's address


class Client:
    """Its number tells its address, since nginx bounds what comes from one."""

    def __init__(self, number, room, front):
        self.number, self.room, self.front = number, room, front
        self.address = f"{NET}.{FIRST + number}"
        self.sent, self.answered, self.unknown = 0, [], set()
        self.epoch, self.shown = None, []
        self.counting = self.board = None
        self.resting = False
        self.opened = []  # when it was connected, or not any more

    async def enter(self):
        ip("addr", "add", f"{self.address}/24", "dev", "street")
        context = ssl.create_default_context()
        context.check_hostname, context.verify_mode = False, ssl.CERT_NONE
        url = f"wss://anna:secret@{self.front.address}:{self.front.port}/rooms/{self.room}"
        self.board = relay_client.connect(
            url,
            view=["/of"],
            begin={"of": {}},
            longest_wait=LONGEST_WAIT,
            on_change=self.hear,
            on_state=lambda state, cause: self.opened.append((time.monotonic(), state)),
            link={"ssl": context, "local_addr": (self.address, 0)},
        )
        await self.board.ready
        self.count()

    def hear(self, _):
        if self.board is not None and self.board.epoch != self.epoch:
            self.epoch = self.board.epoch
            self.shown.append((time.monotonic(), self.own()))

    def own(self):
        """Returns what its room has of it."""
        [slot] = self.board.confirmed
        return slot[0].get(str(self.number), 0) if slot else 0

    def count(self):
        self.resting = False
        self.counting = asyncio.ensure_future(self._count())

    async def _count(self):
        """Edits wait for the connection here, so that what is shown first is without them."""
        while not self.resting:
            if self.board.state != "open":
                await asyncio.sleep(BETWEEN)
                continue
            self.sent += 1
            edit = {"op": "add", "path": f"/of/{self.number}", "value": self.sent}
            number = self.sent
            try:
                await self.board.edit([edit], undo=False)
                self.answered.append((time.monotonic(), number))
            except relay_client.Unknown:
                self.unknown.add(number)
            await asyncio.sleep(BETWEEN)

    async def rest(self):
        """Once the last edit has ended."""
        self.resting = True
        await self.counting
        await self.board.sync()

    def is_back(self, since):
        """True if it was shown the room in another run, and is answered."""
        came = self.shown[-1][0] if self.shown else 0
        return bool(came > since and self.answered and self.answered[-1][0] > came)

    def lost(self, since):
        """The time at which each edit was answered that the room came back without, after that
        moment."""
        came, own = next((at, own) for at, own in self.shown if at > since)
        return [at for at, number in self.answered if number > own and at < came]

    def gap(self, since):
        """Seconds from the loss of its connection, after that moment, until it was shown the room
        again."""
        left = next(at for at, state in self.opened if state == "waiting" and at > since)
        return next(at for at, _ in self.shown if at > left) - left

    async def end(self):
        self.counting.cancel()
        await self.board.close()
