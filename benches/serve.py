#!/usr/bin/env python3
"""Starts `relay serve`, connects watchers to one room, edits a board, and tells how fast edits are
answered and delivered.

    python3 benches/serve.py [WATCHERS] [EDITS]

It needs websocket-client, from pip or as Debian's python3-websocket.
"""

import json
import pathlib
import sys
import time

import websocket

sys.path.append(str(pathlib.Path(__file__).resolve().parents[1] / "tests"))
from support.process import cpu_seconds
from support.relay import Relay


def say(link, **request):
    link.send(json.dumps(request))


def messages(link):
    while text := link.recv():
        yield json.loads(text)


def wait_for(link, kind):
    next(message for message in messages(link) if message["kind"] == kind)


def main(watchers=16, edits=1000):
    with Relay() as serve:
        measure(serve, int(watchers), int(edits))


def measure(serve, watchers, edits):
    url, pid = serve.url("bench"), serve.process.pid
    writer = websocket.create_connection(url)
    say(writer, do="edit", id=1, patch=[{"op": "add", "path": "", "value": {"cards": [0] * 100}}])
    wait_for(writer, "done")
    links = [websocket.create_connection(url) for _ in range(watchers)]
    for link in links:
        say(link, do="watch", id=1, view=["/cards"])
        wait_for(link, "snapshot")
    begin, used = time.perf_counter(), cpu_seconds(pid)
    for n in range(edits):
        say(
            writer,
            do="edit",
            id=2,
            patch=[{"op": "replace", "path": f"/cards/{n % 100}", "value": n}],
        )
        wait_for(writer, "done")
    answered, used = time.perf_counter() - begin, cpu_seconds(pid) - used
    patches = 0
    for link in links:
        last = 0
        while last <= edits:
            message = next(messages(link))
            last, patches = message["rev"], patches + (message["kind"] == "patch")
    took = time.perf_counter() - begin
    print(f"{edits / answered:.0f} edits a second, each answered before the next")
    print(
        f"{patches / took:.0f} patches a second to {watchers} watchers "
        f"({patches} of {watchers * edits}; else a snapshot)"
    )
    print(f"{used / edits * 1e6:.0f} microseconds of the server's CPU an edit, polling included")


if __name__ == "__main__":
    main(*sys.argv[1:])
