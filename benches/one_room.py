#!/usr/bin/env python3
"""Measures what it costs that many sessions of one room watch, and then leave all at once.

    python3 benches/one_room.py [SESSIONS..]           (256, 1,000 and 4,000, if none is named)

Starts `relay serve` with room for so many sessions. All enter one room, and each watches 16 members
of its own; then all connections are closed at once. Printed are the microseconds of the server's
CPU for a session that watches and for one that leaves, with what its socket costs, and the longest
that a client of another room waited for an answer meanwhile. It needs nothing but Python, and as
many open files a process as there are sessions."""

import argparse
import multiprocessing
import time

from edits import SNAPSHOT, Counting, Microseconds, edit
from support.process import open_files
from support.relay import Relay
from support.wire import request

SLOTS = 16
ROUND = edit({"op": "add", "path": "", "value": 0})


def beside(port, entered, ended, waits):
    """A client of another room, whose edits are answered one after the other: the longest that it
    waited."""
    client, longest = Counting(port, "beside"), 0.0
    entered.set()
    while not ended.is_set():
        begun = time.monotonic()
        client.edit([ROUND])
        longest = max(longest, time.monotonic() - begun)
        time.sleep(0.01)
    waits.put(longest)


class Beside:
    def __init__(self, port):
        apart = multiprocessing.get_context("spawn")  # a fork would keep the clients' sockets open
        self.entered, self.ended, self.waits = apart.Event(), apart.Event(), apart.Queue()
        self.process = apart.Process(
            target=beside, args=(port, self.entered, self.ended, self.waits)
        )

    def __enter__(self):
        self.process.start()
        self.entered.wait()
        return self

    def __exit__(self, *_):
        self.ended.set()
        self.longest = self.waits.get()
        self.process.join()


def watched(clients):
    """Each of the clients watches 16 members of its own."""
    for number, client in enumerate(clients):
        view = [f"/{number}/{slot}" for slot in range(SLOTS)]
        client.send(request("watch", view=view))
    for client in clients:
        client.count(SNAPSHOT, 1)


def left(clients):
    for client in clients:
        client.stream.close()


def settled(pid):
    """The microseconds that the process spent, once it does next to nothing but answer the client
    beside."""
    spent = Microseconds().spent(pid)
    while True:
        time.sleep(0.5)
        before, spent = spent, Microseconds().spent(pid)
        if spent - before < 25_000:
            return before


def part(pid, port, work, count):
    """Microseconds of the CPU for each of the clients, and the longest wait of a client beside."""
    with Beside(port) as other:
        begun = Microseconds().spent(pid)
        work()
        spent = settled(pid) - begun
    return f"{spent / count:.0f} µs | {other.longest * 1000:.0f} ms"


def measure(sessions):
    with Relay("--sessions", sessions + 8) as serve:
        pid, port = serve.process.pid, serve.port
        clients = [Counting(port, "full") for _ in range(sessions)]
        watch = part(pid, port, lambda: watched(clients), sessions)
        leave = part(pid, port, lambda: left(clients), sessions)
        print(f"| {sessions:,} | {watch} | {leave} |", flush=True)


def main():
    form = argparse.RawDescriptionHelpFormatter
    words = argparse.ArgumentParser(description=__doc__, formatter_class=form)
    words.add_argument("sessions", nargs="*", type=int, default=[256, 1000, 4000])
    asked = words.parse_args()
    open_files()
    print("| Sessions | For one that watches | Others wait | For one that leaves | Others wait |")
    print("|---|---|---|---|---|", flush=True)
    for sessions in asked.sessions:
        measure(sessions)


if __name__ == "__main__":
    main()
