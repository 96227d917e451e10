#!/usr/bin/env python3
"""Measures what the hub counts for a text, beside what the server's CPU took: credits are charged
with these counts, which are to be microseconds within a factor of about two.

    python3 benches/costs.py [--texts N] [--rounds N]           (40 of each kind, three rounds)

One client says texts of 22 kinds to a room, one after the other. Counted is
`relay_hub_cost_seconds_total`, which is asked for before and after. The CPU also has what is no
work of the hub: frames, and the kernel's part of reading and writing. It needs nothing but Python.
"""

import argparse
import statistics
import subprocess
import sys

from edits import DONE, REFUSED, Counting, Microseconds, edit, watch
from support.asking import get
from support.ports import free_port
from support.relay import Relay
from support.wire import frame, request

MEMBERS, ITEMS = 5_000, 10_000
LONG = "x" * 60_000
HEAVY = {f"k{number:04}": "abcdefgh" for number in range(8_000)}


def add(path, value):
    return {"op": "add", "path": path, "value": value}


def remove(path):
    return {"op": "remove", "path": path}


def move(begin, end):
    return {"op": "move", "from": begin, "path": end}


def replace(path, value):
    return {"op": "replace", "path": path, "value": value}


def nested(levels):
    value = 0
    for _ in range(levels):
        value = {"": value}
    return value


OBJECT = {f"k{number:04}": number for number in range(MEMBERS)}
LIST = list(range(ITEMS))
DEEP = [nested(60) for _ in range(50)]
TEN = [replace(f"/k{number:04}", 7) for number in range(10)]
FAILS = {"op": "test", "path": "/k0000", "value": "another"}
MANY = [f"/k{number:04}" for number in range(200)]

# Of each kind: the document, the pointers that others watch, and the texts, each with an answer.
KINDS = {
    "add a member to 5,000, then remove it": (
        OBJECT,
        [],
        [edit(add("/new", 1)), edit(remove("/new"))],
    ),
    "replace a member of 5,000": (OBJECT, [], [edit(replace("/k0003", 8))]),
    "insert before 10,000 items, then remove": (LIST, [], [edit(add("/0", 1)), edit(remove("/0"))]),
    "move an item past 10,000, then back": (
        LIST,
        [],
        [edit(move("/0", "/9999")), edit(move("/9999", "/0"))],
    ),
    "move a heavy object, then back": (
        {"a": HEAVY},
        [],
        [edit(move("/a", "/b")), edit(move("/b", "/a"))],
    ),
    "copy an object of 5,000 members": (
        {"a": OBJECT},
        [],
        [edit({"op": "copy", "from": "/a", "path": "/b"})],
    ),
    "test a text of 60 KB": ([LONG], [], [edit({"op": "test", "path": "/0", "value": LONG})]),
    "replace the document, 8,000 members": (HEAVY, [], [edit(add("", HEAVY))]),
    "replace a text of 60 KB": ([LONG], [], [edit(replace("/0", LONG))]),
    "replace 3,000 nested objects": (DEEP, [], [edit(add("", DEEP))]),
    "ten operations": (OBJECT, [], [edit(*TEN)]),
    "ten operations that are taken back": (OBJECT, [], [edit(*TEN, FAILS)]),
    "64 insertions before 10,000 items, taken back": (
        LIST,
        [],
        [edit(*[add("/0", 1)] * 63, FAILS)],
    ),
    "no JSON, 500 KB": (0, [], [frame(b"[" + b"1," * 250_000)]),
    "watch 8,000 members": (HEAVY, [], [request("watch", view=[""])]),
    "watch 16 pointers": (OBJECT, [], [request("watch", view=MANY[:16])]),
    "an edit for 200 watchers of it": (OBJECT, ["/k0003"] * 200, [edit(replace("/k0003", 8))]),
    "an edit for 200 watchers of all": (OBJECT, [""] * 200, [edit(replace("/k0003", 8))]),
    "an edit beside 200 watchers of others": (OBJECT, MANY, [edit(replace("/k4000", 8))]),
    "ten operations for 200 views": (OBJECT, MANY, [edit(*TEN)]),
    "60 KB for 20 watchers": ([LONG], [""] * 20, [edit(replace("/0", LONG))]),
    "an insertion before 20 watched items": (
        LIST,
        [f"/{number}" for number in range(20)],
        [edit(add("/0", 1)), edit(remove("/0"))],
    ),
}


def counted(admin):
    """Microseconds, by the hub's own count."""
    text = get(admin, "/metrics").body.decode()
    line = next(it for it in text.splitlines() if it.startswith("relay_hub_cost_seconds_total "))
    return float(line.split()[1]) * 1e6


def answer_to(kind, texts):
    """The word that the answer to each text has."""
    if b'"watch"' in texts[0]:
        return b'"kind":"snapshot"'
    return REFUSED if "taken back" in kind or "no JSON" in kind else DONE


def measure(kind, count):
    """The cost of a text of the kind, by the hub and by the CPU, in microseconds."""
    value, pointers, texts = KINDS[kind]
    admin = free_port()
    with Relay("--admin", admin, stderr=subprocess.DEVNULL) as serve:
        client, cost = Counting(serve.port, "bench"), Microseconds()
        client.edit([edit(add("", value))])
        for pointer in pointers:
            watch(serve.port, pointer)
        word, many = answer_to(kind, texts), (texts * count)[:count]
        for text in many[:4]:
            client.edit([text], word)
        before = counted(admin), cost.spent(serve.process.pid)
        for text in many:
            client.edit([text], word)
        after = counted(admin), cost.spent(serve.process.pid)
    return [(now - then) / count for then, now in zip(before, after)]


def main():
    words = argparse.ArgumentParser(description="What the hub counts, beside the server's CPU.")
    words.add_argument("--texts", type=int, default=40, help="of each kind")
    words.add_argument("--rounds", type=int, default=3)
    given = words.parse_args()
    print("| Text | counted | CPU | counted a microsecond of CPU |\n|---|---|---|---|")
    for kind in KINDS:
        rounds = [measure(kind, given.texts) for _ in range(given.rounds)]
        hub, cpu = (statistics.median(column) for column in zip(*rounds))
        print(f"| {kind} | {hub:,.0f} | {cpu:,.0f} | {hub / cpu:.2f} |", flush=True)


if __name__ == "__main__":
    sys.exit(main())
