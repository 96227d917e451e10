#!/usr/bin/env python3
"""Measures what an edit costs the server's CPU, by the size of the document.

    python3 benches/edits.py [--edits N] [--rounds N] [--instructions] [KIB..]
                                  (2,000 of each kind, one round, on 1, 8, 64 and 256 KiB)

Starts `relay serve`, fills rooms with documents that weigh so many KiB, and has one client make
edits of each kind, of which it keeps some on the way, so that the server is never idle. Frames are
made beforehand and replies are counted and not read, so the client is not what is measured. Of
several rounds, each of which goes over all sizes, it prints the median: what else the machine does
meets all sizes alike. It needs nothing but Python.

With --instructions it counts the server's own instructions by valgrind's callgrind, which come to
nearly the same whatever else the machine does; those of the kernel are not among them, and what a
cache miss costs does not show. 400 edits of each kind are enough there.
"""

import argparse
import pathlib
import statistics
import subprocess
import sys
import tempfile
import threading

sys.path.append(str(pathlib.Path(__file__).resolve().parents[1] / "tests"))
from support.relay import Relay
from support.wire import Client, request

KIBIBYTES = (1, 8, 64, 256)
# How many edits are on the way at most; the relay lets 32 replies wait.
ON_THE_WAY = 16
# Members of one object, for what only objects do.
WIDE = 16_000
DONE, REFUSED, SNAPSHOT = b'"kind":"done"', b'"kind":"refused"', b'"kind":"snapshot"'


# What is measured: who watches, as pointers; how the rows name them; and the kinds of edits, all if
# none is named. An edit of one watcher touches what it watches, and those of the 255 touch nothing.
REPLACE, HALFWAY = "replace a member", "insert halfway down a list, then remove"
WATCHED = [
    ([], "", ()),
    ([""], ", one watcher", (REPLACE, HALFWAY)),
    ([f"/other/{k}" for k in range(255)], ", beside 255 watchers of others", (REPLACE,)),
]


class Counting(Client):
    """A client that reads no message, but counts words that each has once."""

    def count(self, word, count):
        """Reads until the word came so often."""
        rest = bytes(self.input)
        self.input.clear()
        count -= rest.count(word)
        self.stream.settimeout(None)
        while count > 0:
            part = self.stream.recv(1 << 16)
            if not part:
                raise SystemExit("the relay closed the connection")
            text = rest[-(len(word) - 1) :] + part
            count -= text.count(word)
            rest = text

    def edit(self, frames, word=DONE):
        """Sends the frames, some at a time, and waits for an answer to each."""
        for start in range(0, len(frames), ON_THE_WAY):
            part = frames[start : start + ON_THE_WAY]
            self.stream.sendall(b"".join(part))
            self.count(word, len(part))


def watch(port, pointer):
    """A watcher that reads what comes and lets it go."""
    client = Counting(port, "bench")
    client.watch([pointer])
    client.stream.settimeout(None)

    def drain():
        try:
            while client.stream.recv(1 << 16):
                pass
        except ConnectionError:
            pass  # the server was ended

    threading.Thread(target=drain, daemon=True).start()


def document(kibibytes):
    """Half a list, half an object, of texts of eight bytes: so many KiB by the relay's weight, less
    what an insertion takes. A value weighs 8 and the bytes of its text and of its member's name."""
    half = kibibytes * 512 - 64
    made = {"list": ["abcdefgh"] * (half // 16), "members": {}}
    number = 0
    while half > 0:
        name = f"k{number}"
        made["members"][name] = "abcdefgh"
        half -= 16 + len(name)
        number += 1
    return made


def edit(*ops):
    return request("edit", 2, patch=ops)


def replaced(key, value="ijklmnop"):
    return {"op": "replace", "path": f"/members/k{key}", "value": value}


def inserted(place):
    return [
        edit({"op": "add", "path": f"/list/{place}", "value": "ijklmnop"}),
        edit({"op": "remove", "path": f"/list/{place}"}),
    ]


def moved(place):
    return {"op": "move", "from": f"/list/{place}", "path": f"/list/{place + 9}"}


def kinds(kibibytes):
    """The frames of each kind of edit, on a document of so many KiB."""
    middle = len(document(kibibytes)["list"]) // 2
    failing = {"op": "test", "path": "/members/k4", "value": 0}
    return {
        REPLACE: [edit(replaced(3))],
        "insert at the front of a list, then remove": inserted(3),
        HALFWAY: inserted(middle),
        "move in a list, at its front by nine places": [edit(moved(0))],
        "move in a list, halfway down by nine places": [edit(moved(middle))],
        "ten operations": [edit(*(replaced(key) for key in range(10)))],
        "refused at its second operation": [edit(replaced(3), failing)],
    }


def wide():
    """One object of many members, in the order of their names."""
    return {f"{number:05}": 0 for number in range(WIDE)}


def wide_kinds():
    """The frames of each kind of edit on that object: each two leave it as it was."""
    first, middle, last = "/00000", f"/{WIDE // 2:05}", "/99999"
    return {
        "remove the first member, then add it": [
            edit({"op": "remove", "path": first}),
            edit({"op": "add", "path": first, "value": 0}),
        ],
        "move a member to the end, then back": [
            edit({"op": "move", "from": middle, "path": last}),
            edit({"op": "move", "from": last, "path": middle}),
        ],
    }


class Microseconds:
    """Of the CPU, of all threads of a process so far."""

    TITLE = "Microseconds of the server's CPU"
    DIGITS = 1
    words = ()

    def spent(self, pid):
        threads = pathlib.Path(f"/proc/{pid}/task").glob("*/schedstat")
        return sum(int(thread.read_text().split()[0]) for thread in threads) / 1e3


class Instructions:
    """Those of a process so far, which callgrind counts: each of its dumps has those since the one
    before."""

    TITLE = "Instructions of the server"
    DIGITS = 0

    def __init__(self):
        self.folder, self.count = tempfile.TemporaryDirectory(), 0
        out = f"--callgrind-out-file={self.folder.name}/dump"
        self.words = ["valgrind", "--tool=callgrind", out]

    def spent(self, pid):
        words = ["callgrind_control", "--dump", str(pid)]
        subprocess.run(words, check=True, capture_output=True)
        for dump in pathlib.Path(self.folder.name).iterdir():
            totals = [it for it in dump.read_text().splitlines() if it.startswith("totals:")]
            self.count += sum(int(line.split()[1]) for line in totals)
            dump.unlink()
        return self.count


def measure(serve, value, kinds, pointers, edits, cost):
    client, pid = Counting(serve.port, "bench"), serve.process.pid
    client.edit([edit({"op": "add", "path": "", "value": value})])
    for pointer in pointers:
        watch(serve.port, pointer)
    for kind, frames in kinds.items():
        word = REFUSED if kind.startswith("refused") else DONE
        many = (frames * edits)[:edits]
        client.edit(many[:200], word)
        before = cost.spent(pid)
        client.edit(many, word)
        yield kind, (cost.spent(pid) - before) / edits


def measured(value, kinds, pointers, edits, cost):
    """A server of its own for each column."""
    with Relay(before=cost.words, stderr=subprocess.DEVNULL) as serve:
        return dict(measure(serve, value, kinds, pointers, edits, cost))


def column(size, edits, cost):
    """Of each kind of edit what one costs on a document of so many KiB."""
    found = {}
    for pointers, who, named in WATCHED:
        all_kinds = kinds(size)
        some = {kind: all_kinds[kind] for kind in named or all_kinds}
        costs = measured(document(size), some, pointers, edits, cost())
        found.update({kind + who: spent for kind, spent in costs.items()})
    return found


def medians(rounds):
    """Of each kind the median of the rounds."""
    return {kind: statistics.median(each[kind] for each in rounds) for kind in rounds[0]}


def table(cost, heads, columns):
    print(f"\n{cost.TITLE} an edit:\n")
    print("| Edit | " + " | ".join(heads) + " |")
    print("|---|" + "---|" * len(heads))
    for kind in columns[0]:
        costs = [f"{column[kind]:,.{cost.DIGITS}f}" for column in columns]
        if len(columns) > 1:
            costs.append(f"{columns[-1][kind] / columns[0][kind]:.2f}")
        print(f"| {kind} | {' | '.join(costs)} |", flush=True)


def main():
    words = argparse.ArgumentParser(description="What an edit costs the server's CPU.")
    words.add_argument("--edits", type=int, default=2000, help="of each kind")
    words.add_argument("--rounds", type=int, default=1)
    words.add_argument("--instructions", action="store_true", help="in place of microseconds")
    words.add_argument("kibibytes", metavar="KIB", type=int, nargs="*", default=KIBIBYTES)
    given = words.parse_args()
    sizes, cost = given.kibibytes, Instructions if given.instructions else Microseconds
    rounds = [[column(size, given.edits, cost) for size in sizes] for _ in range(given.rounds)]
    heads = [*(f"{size} KiB" for size in sizes), f"{sizes[-1]} against {sizes[0]} KiB"]
    table(cost, heads[: len(sizes) + (len(sizes) > 1)], list(map(medians, zip(*rounds))))
    found = [measured(wide(), wide_kinds(), [], given.edits, cost()) for _ in range(given.rounds)]
    table(cost, [f"one object of {WIDE:,} members"], [medians(found)])


if __name__ == "__main__":
    main()
