"""The connections of one attack: they end together, and no call of theirs outlasts its deadline."""

import concurrent.futures
import contextlib
import selectors
import threading
import time

from support import wire

ATTACKS = {}
# How many megabytes the relay may hold in an attack, at its peak and after it, if that is part of
# what it shows.
BOUNDS = {}
# The options that the relay of an attack has, if it needs some.
OPTIONS = {}


def name_of(play):
    return play.__name__.replace("_", "-")


def attack(play):
    """Marks a function of `Attackers` as an attack, by its name with dashes."""
    ATTACKS[name_of(play)] = play
    return play


def bounded(megabytes, after=None):
    """Marks an attack: the relay holds no more than that at its peak, and no more than `after` once
    the attackers have left."""

    def bound(play):
        BOUNDS[name_of(play)] = (megabytes, after or megabytes)
        return play

    return bound


def served(*options):
    """Marks an attack: the relay that it is played to has these options."""

    def serve(play):
        OPTIONS[name_of(play)] = options
        return play

    return serve


class Wrong(Exception):
    """The attack was not played: the relay answered what no attack expects, or took too little of
    it."""


class Harm(Exception):
    """The attack did to somebody else what it must not."""


class Attackers:
    """Those of one attack to the relay with these ports for clients and for its operator."""

    def __init__(self, port, admin, deadline):
        self.port, self.admin, self.deadline, self.clients = port, admin, deadline, []

    def open(self, room, connect=wire.connected):
        """One more connection, in a session of that room."""
        self.clients.append(wire.Client(self.port, room, self.deadline, connect))
        return self.clients[-1]

    def open_many(self, rooms):
        """Those for which the relay has a place, and memory."""
        opened = []
        for room in rooms:
            try:
                opened.append(self.open(room))
            except wire.Ended:
                pass
        return opened

    def leave(self):
        for client in self.clients:
            client.close()
        self.clients.clear()

    def stay(self, seconds):
        """They do nothing for a while."""
        time.sleep(min(seconds, self.deadline.left()))

    @contextlib.contextmanager
    def meanwhile(self, act):
        """Does this again and again in a thread of its own, as long as the block lasts and the
        deadline allows."""
        is_over = threading.Event()
        with concurrent.futures.ThreadPoolExecutor(1) as pool:
            acting = pool.submit(self._repeat, act, is_over)
            try:
                yield
            finally:
                is_over.set()
        acting.result()

    def _repeat(self, act, is_over):
        while not is_over.is_set():
            self.deadline.left()
            act()

    def pour(self, clients, part, count=1_000_000, seconds=5):
        """Sends bytes to each client's stream so many times, side by side, as fast as the relay
        takes them and for so long at most. What comes back before a client has sent all is read and
        forgotten. How many bytes were sent."""
        flows = [Flow(client.stream, part, count) for client in clients]
        end = time.monotonic() + seconds
        with selectors.DefaultSelector() as ready:
            for flow in flows:
                ready.register(flow.stream, selectors.EVENT_READ | selectors.EVENT_WRITE, flow)
            while time.monotonic() < end and any(flow.left for flow in flows):
                self.deadline.left()
                for key, can in ready.select(0.05):
                    key.data.turn(can)
                    if not key.data.left:
                        ready.unregister(key.fileobj)
        return sum(flow.sent for flow in flows)


class Flow:
    """The traffic of one client: what it sends, and what it is sent meanwhile. Nothing is left once
    it has ended."""

    def __init__(self, stream, part, count):
        self.stream, self.part, self.left = stream, part, count
        self.place = self.sent = 0
        stream.setblocking(False)

    def turn(self, can):
        try:
            if can & selectors.EVENT_READ and not self.stream.recv(1 << 16):
                self.left = 0
            if can & selectors.EVENT_WRITE and self.left:
                self.send()
        except BlockingIOError:
            pass
        except OSError:
            self.left = 0

    def send(self):
        sent = self.stream.send(memoryview(self.part)[self.place :])
        self.sent, self.place = self.sent + sent, self.place + sent
        if self.place == len(self.part):
            self.place, self.left = 0, self.left - 1
