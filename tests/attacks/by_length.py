"""Attacks by what is read: long texts, unfinished messages, and many small frames."""

from attackers import Wrong, attack
from support import wire

LONGEST = 1_048_576
CONNECTIONS = 320
UNFINISHED = 1_000_000
# Of the 256 sessions the good client has one; for some of the others memory may be refused.
MIN_SESSIONS = 200
LINKS = 18


@attack
def small_objects(attackers):
    """A text of 1 MB of small objects, from one connection."""
    send_small_objects(attackers, 1)


@attack
def small_objects_18(attackers):
    """The same from 18 connections at once."""
    send_small_objects(attackers, LINKS)


def send_small_objects(attackers, count):
    clients = [attackers.open(f"small{number}") for number in range(count)]
    attackers.pour(clients, wire.frame(text_of_small_objects()), 1, attackers.deadline.left())
    for client in clients:
        try:
            reply = client.message().get("fault", "done")
        except wire.Ended:
            continue
        if reply != "too-heavy":
            raise Wrong(f"small objects are answered {reply}")


def text_of_small_objects():
    """An edit that is as long as a request may be."""
    head, item = b'{"do":"edit","id":1,"patch":[{"op":"add","path":"","value":[', b'{"":0}'
    end = b"]}]}"
    count = (LONGEST - len(head) - len(end) + 1) // (len(item) + 1)
    return head + b",".join([item] * count) + end


@attack
def unfinished_messages(attackers):
    """320 connections that each send a message of 1 MB but for its end. More than 256 sessions are
    refused."""
    clients = attackers.open_many(["unfinished"] * CONNECTIONS)
    sent = attackers.pour(clients, wire.frame(b" " * UNFINISHED, is_last=False), 1)
    if sent < MIN_SESSIONS * UNFINISHED:
        raise Wrong(f"only {sent} bytes of {len(clients)} unfinished messages are taken")
    attackers.stay(1)


@attack
def one_byte_fragments(attackers):
    """Messages in fragments of one byte, from 18 connections for five seconds."""
    clients = [attackers.open(f"fragments{number}") for number in range(LINKS)]
    for client in clients:
        client.send(wire.frame(b" ", is_last=False))
    fragments = wire.frame(b" ", wire.CONTINUATION, is_last=False) * 1_000
    # A message may have 1,056,768 bytes.
    sent = attackers.pour(clients, fragments, 1_000)
    if sent < LINKS * len(fragments):
        raise Wrong(f"only {sent} bytes of fragments are taken")
