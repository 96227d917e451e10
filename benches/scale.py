#!/usr/bin/env python3
"""One relay with thousands of watching sessions that say nothing, beside 200 busy ones.

    benches/scale.py [--of SERVER] [SESSIONS..]        0, 1000, 5000 and 15000, if none is named

For each number a relay is started with room for them, 20 in a room. Printed are the memory that a
session takes, with its share of a room; deliveries to 200 watchers of one more room and the time
from an edit to its own patch, by load.c; and, after the relay was killed and started again, the
time until each session is back and holds the right slot, by idle_sessions.c. It needs cc, and as
many open files a process as there are connections."""

import argparse
import pathlib
import signal
import subprocess
import sys
import tempfile

HERE = pathlib.Path(__file__).resolve().parent
sys.path.append(str(HERE.parent / "tests"))
from support.process import open_files
from support.relay import Relay

IN_A_ROOM, BUSY, BUSY_ROOMS = 20, 300, 2
# Seconds in which all sessions must be there, at first and after the restart.
LONGEST = 120


def compiled(name, folder):
    program = f"{folder}/{name}"
    subprocess.run(["cc", "-O2", "-pthread", HERE / f"{name}.c", "-o", program], check=True)
    return program


class IdleSessions:
    """The watching sessions that say nothing; there may be none."""

    def __init__(self, program, port, sessions, rooms):
        words = [program, str(port), str(sessions), str(rooms)]
        self.process = subprocess.Popen(words, stdout=subprocess.PIPE) if sessions else None

    def all_there(self):
        """Seconds from the time when the first was missing until all are there."""
        if not self.process:
            return 0.0
        signal.alarm(LONGEST)
        said = self.process.stdout.readline().split()
        signal.alarm(0)
        return float(said[1])

    def end(self):
        if self.process:
            self.process.kill()
            self.process.wait()


def measure(server, sessions, load, idle):
    """Of a server, with `load` as it is compiled, and the idle sessions."""
    before = server.memory()
    idle.all_there()
    each = f", {(server.memory() - before) / sessions / 1024:.1f} KiB each" if sessions else ""
    print(f"{sessions} sessions beside{each}", flush=True)
    for words in (["deliver", "200", "5", str(server.process.pid)], ["answer", "0", "3000"]):
        words = [load, str(server.port), *words]
        said = subprocess.run(words, check=True, capture_output=True, text=True)
        print("  " + said.stdout.strip(), flush=True)


def play(other, sessions, load, idle_program):
    rooms = max(1, sessions // IN_A_ROOM)
    sizes = [] if other else ["--sessions", sessions + BUSY, "--rooms", rooms + BUSY_ROOMS]
    how = {"of": other, "stderr": subprocess.DEVNULL}
    with Relay(*sizes, **how) as server:
        idle = IdleSessions(idle_program, server.port, sessions, rooms)
        try:
            measure(server, sessions, load, idle)
            server.end()
            with Relay(*sizes, port=server.port, epoch=server.epoch + 1, **how):
                back = idle.all_there()
        finally:
            idle.end()
    if sessions:
        print(f"  all back {back:.1f} s after the server was killed", flush=True)


def asked():
    form = argparse.RawDescriptionHelpFormatter
    words = argparse.ArgumentParser(description=__doc__, formatter_class=form)
    words.add_argument("--of", metavar="SERVER", help="another server than the relay")
    default = [0, 1_000, 5_000, 15_000]
    words.add_argument("numbers", nargs="*", type=int, default=default, metavar="SESSIONS")
    return words.parse_args()


def main(words):
    open_files()
    with tempfile.TemporaryDirectory() as folder:
        load, idle = compiled("load", folder), compiled("idle_sessions", folder)
        for sessions in words.numbers:
            play(words.of, sessions, load, idle)


if __name__ == "__main__":
    main(asked())
