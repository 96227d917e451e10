"""Attacks by connections that come to no session: heads that do not end, and rooms that are
closed."""

import collections
import itertools
import socket
import struct
import time

from attackers import Harm, Wrong, attack, served
from support import asking, wire

HEADS_A_SECOND = 5_000
MIN_HEADS = 2_000
# More than the relay holds, and fewer than the files that a process may have open.
HELD = 800
# One batch of heads, and how many slow clients there are.
BATCH = 50
SLOW_CLIENTS = 3
PARTS, PAUSE = 5, 0.25
# A socket that is closed by a reset leaves nothing behind it.
RESET = struct.pack("ii", 1, 0)

# How many made-up rooms are asked for at least, and how many of them at once.
MADE_UP = 11_357
AT_ONCE = 64
LOOKS, LOOKS_A_SECOND = 100, 10


class Heads:
    """Connections that send nothing, or one byte, of which the newest are held."""

    def __init__(self, port):
        self.port, self.count, self.begun = port, 0, time.monotonic()
        self.held = collections.deque()

    def knock(self):
        """A batch of them, at the time at which it is due."""
        time.sleep(max(0, self.begun + self.count / HEADS_A_SECOND - time.monotonic()))
        for _ in range(BATCH):
            self.held.append(self.connection(b"G" * (self.count % 2)))
            self.count += 1
        while len(self.held) > HELD:
            self.held.popleft().close()

    def connection(self, sent):
        stream = socket.socket()
        stream.setblocking(False)
        stream.setsockopt(socket.SOL_SOCKET, socket.SO_LINGER, RESET)
        stream.connect_ex(("127.0.0.1", self.port))
        try:
            stream.send(sent)
        except OSError:  # it is not accepted yet, or ended
            pass
        return stream

    def close(self):
        for stream in self.held:
            stream.close()


class Slow(wire.Client):
    """A client from another address, whose handshake takes a second to come."""

    def send(self, frames):
        size = -(-len(frames) // PARTS)
        for start in range(0, len(frames), size):
            time.sleep(PAUSE if start else 0)
            super().send(frames[start : start + size])


def connected_from_elsewhere(port, seconds):
    return wire.connected(port, seconds=seconds, source="127.0.0.2")


@attack
def heads(attackers):
    """5,000 connections a second that send nothing or one byte. Beside them three clients of
    another address come, one after the other, who take a second to send their handshake: each has
    to be let in."""
    knocking = Heads(attackers.port)
    attackers.clients.append(knocking)
    with attackers.meanwhile(knocking.knock):
        attackers.stay(0.5)
        for _ in range(SLOW_CLIENTS):
            enter_slowly(attackers)
    if knocking.count < MIN_HEADS:
        raise Wrong(f"only {knocking.count} connections are made")


def enter_slowly(attackers):
    try:
        Slow(attackers.port, "slow", attackers.deadline, connected_from_elsewhere).close()
    except wire.Ended as ended:
        raise Harm(f"a client whose handshake comes slowly is {ended}") from None


@served("--closed")
@attack
def wanted_flood(attackers):
    """Made-up rooms of a closed relay are asked for as fast as they are refused, 11,357 and more.
    Beside them a client asks for one room, once a second: an operator who looks ten times a second
    has to see it among the wanted ones within ten seconds."""
    numbers = itertools.count()
    with attackers.meanwhile(lambda: ask_for_rooms(attackers.port, numbers)):
        attackers.stay(1)
        is_wanted = is_seen(attackers, "true")
    if (count := next(numbers)) < MADE_UP:
        raise Wrong(f"only {count} rooms are asked for")
    if not is_wanted:
        raise Harm(f"the room that a client asks for is not wanted at any of {LOOKS} looks")


def ask_for_rooms(port, numbers):
    """Asks for some rooms that nobody else asks for, at once, and hears that they are refused."""
    streams = [wire.connected(port) for _ in range(AT_ONCE)]
    for stream in streams:
        stream.sendall((wire.HANDSHAKE % f"made-up-{next(numbers)}").encode())
    for stream in streams:
        with stream:
            stream.recv(1 << 10)


def is_seen(attackers, room):
    """True if the room is wanted at a look. Its client asks right after one, so it has to stay
    wanted until the next one."""
    seen = 0
    for look in range(LOOKS):
        seen += room in asking.wanted(attackers.admin)
        if look % LOOKS_A_SECOND == 0:
            ask_for(attackers, room)
        attackers.stay(1 / LOOKS_A_SECOND)
    return seen > 0


def ask_for(attackers, room):
    try:
        attackers.open(room)
    except wire.Ended:
        return
    raise Wrong("a closed room is open")
