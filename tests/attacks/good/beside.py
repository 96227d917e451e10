"""The witnesses: programs beside the attackers that say what the relay's other peers see. Each is a
process of its own, so that what the attackers compute is not counted.

`python3 -m good.NAME PORT` writes `ready` once it has begun. It goes on until its standard input
ends, and then writes what it saw, as JSON: `count`, how many answers it had; `worst`, the longest
wait for one in seconds, where one that was not over counts as long as it lasted; `is_cut`, whether
that one was not over; and `fault`, what went wrong, or null."""

import json
import os
import pathlib
import select
import subprocess
import sys
import time

ATTACKS = pathlib.Path(__file__).resolve().parents[1]
PATIENCE = 10


def started(module, *words, **how):
    """The process of a module of tests/attacks, whose output is read here."""
    paths = os.pathsep.join(map(str, (ATTACKS, ATTACKS.parent)))
    words = [sys.executable, "-m", module, *map(str, words)]
    pipe, environment = subprocess.PIPE, {**os.environ, "PYTHONPATH": paths}
    return subprocess.Popen(words, stdout=pipe, text=True, env=environment, **how)


class Beside:
    """The handle of a witness."""

    def __init__(self, module, port):
        self.process = started(module, port, stdin=subprocess.PIPE)
        assert self.process.stdout.readline() == "ready\n", f"{module} found no place"

    def __enter__(self):
        return self

    def __exit__(self, *_):
        self.process.kill()
        self.process.communicate()

    def end(self):
        """Returns what it saw."""
        said, _ = self.process.communicate(timeout=PATIENCE)
        return json.loads(said)


def is_over(seconds):
    """True if standard input ends within that time."""
    return bool(select.select([sys.stdin], [], [], seconds)[0])


def periods(seconds):
    """Yields the time at which each period begins, until standard input ends."""
    while not is_over(0):
        begun = time.monotonic()
        yield begun
        is_over(max(0, begun + seconds - time.monotonic()))


class Waits:
    """The number of answers, and the longest wait for one, which may not be over."""

    def __init__(self):
        self.count, self.worst, self.is_cut = 0, 0, False

    def end(self, begun, is_answered):
        wait = time.monotonic() - begun
        self.count += is_answered
        if wait > self.worst:
            self.worst, self.is_cut = wait, not is_answered


def witness(play, waits):
    """Plays a witness, and prints what it saw. `play` returns what went wrong, or None."""
    print("ready", flush=True)
    fault = play()
    print(json.dumps({**vars(waits), "fault": fault}))
