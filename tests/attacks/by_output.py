"""Attacks by output: what the relay has written for clients who are slow to take it, or who took it
once."""

import socket
import time

import heavy
from attackers import Harm, attack, bounded, served
from support import wire
from support.patience import Deadline, OutOfTime

WATCHERS = 250
SHOWN = {"a": "x" * 240_000}
ESCAPED = 40
# Each of these characters has one byte in a document, and six in a message. A request holds half of
# them.
HALF = "\x01" * 130_000
VIEW = [""] * 16

# A document of 1 MB in a message.
LARGE = {"a": "\x01" * 170_000}
SIPPERS, SIP = 70, 400
# Of a packet and of what a peer takes ahead, as if the line were slow.
SEGMENT, AHEAD = 1_400, 4_096
# Seconds until newcomers come, and in which each is shown the document.
SIPPED, SHOWN = 8, 10
NEWCOMERS = 3


@bounded(megabytes=450)
@attack
def snapshots_at_once(attackers):
    """An edit that makes a snapshot of 3.8 MB due for each of 250 sessions, who read, and ping for
    five seconds as fast as they are read."""
    editor = attackers.open("shown")
    watchers = [attackers.open("shown") for _ in range(WATCHERS)]
    for watcher in watchers:
        watcher.watch(["/a"] * 16)
    heavy.set_document(editor, SHOWN)
    attackers.pour(watchers, wire.frame(b"", wire.PING))


@bounded(megabytes=450)
@attack
def snapshots_unread(attackers):
    """A snapshot of 25 MB for each of 40 sessions, who read nothing of it."""
    watch_escaped(attackers)
    attackers.stay(5)


@bounded(megabytes=450)
@attack
def snapshots_read(attackers):
    """The same for 40 sessions who read, and ping for five seconds as fast as they are read."""
    attackers.pour(watch_escaped(attackers), wire.frame(b"", wire.PING))


def watch_escaped(attackers):
    """Sessions that ask for a document which is six times as long in a message."""
    editor = attackers.open("escaped")
    heavy.set_document(editor, {"a": HALF})
    editor.set(HALF, path="/b")
    clients = [attackers.open("escaped") for _ in range(ESCAPED)]
    for client in clients:
        client.send(wire.request("watch", view=VIEW))
    return clients


@bounded(megabytes=200, after=60)
@served("--max-output-mib", 64)
@attack
def sippers(attackers):
    """A snapshot of 1 MB for each of 70 sessions, who only watch and read 400 bytes a second. All
    connections may hold 64 MiB. After 8 seconds three newcomers, one after the other, watch such a
    document in another room: each has to be shown it within 10 seconds."""
    for room in ("sipped", "large"):
        heavy.set_document(attackers.open(room), LARGE)
    clients = [attackers.open("sipped/watch", narrow) for _ in range(SIPPERS)]
    for client in clients:
        client.send(wire.request("watch", view=[""]))
        client.stream.setblocking(False)
    with attackers.meanwhile(lambda: sip(clients)):
        attackers.stay(SIPPED)
        for _ in range(NEWCOMERS):
            show_large(attackers)


def narrow(port, seconds):
    """A connection of small packets, whose peer takes little ahead. Without that the system would
    take a snapshot of 1 MB from the relay at once."""
    stream = socket.socket()
    stream.setsockopt(socket.IPPROTO_TCP, socket.TCP_MAXSEG, SEGMENT)
    stream.setsockopt(socket.SOL_SOCKET, socket.SO_RCVBUF, AHEAD)
    stream.settimeout(seconds)
    stream.connect(("127.0.0.1", port))
    return stream


def show_large(attackers):
    try:
        newcomer = attackers.open("large")
        newcomer.deadline = Deadline(SHOWN)
        newcomer.watch([""])
    except OutOfTime:
        raise Harm(f"a newcomer is not shown its document within {SHOWN} s") from None
    except wire.Ended as ended:
        raise Harm(f"a newcomer is {ended}") from None


def sip(clients):
    """Each reads a little, if it is there, and then all wait for a second."""
    for client in clients:
        try:
            client.stream.recv(SIP)
        except OSError:
            pass
    time.sleep(1)
