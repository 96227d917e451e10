"""A long script that chance writes, line by line: names of two rooms edit lists that shift, draw,
leave, and resume from what they hold.

No follower is ever off its view, and at the end each name holds what it should."""

import collections
import random
import signal
import subprocess
import threading

from support.patience import PATIENCE
from support.wire import compact

OPTIONS = ["--history", "3", "--outbox", "2"]
STEPS = 3_000
SEED = 11
# The view of each name, so that it resumes with what it held.
VIEWS = [
    [""],
    ["/l", {"size": "/m"}],
    [{"size": "/l"}, "/l/1", "/l/0"],
    ["/l/2", "/m", "/l"],
    ["/m/0", {"size": ""}, "/nowhere", ""],
]
# What has to come often enough, and how often at least.
WANTED = {'"kind":"patch"': 50, '"kind":"snapshot"': 50, '"how":"patch"': 20}


class Wrong(Exception):
    """A result that must not come out."""


class Soak:
    def __init__(self, ran):
        self.ran = ran
        self.chance = random.Random(SEED)
        self.seen = collections.Counter()

    def answer(self, name, words):
        """Returns what is answered to one more line of a name."""
        self.ran.stdin.write(f"n{name} {words}\n".encode())
        self.ran.stdin.flush()
        answer = self.ran.stdout.readline().decode().rstrip("\n")
        if not answer.startswith(f"n{name} ") or " off " in answer:
            raise Wrong(f"{words} of n{name} is answered {answer}")
        self.seen.update(it for it in WANTED if it in answer)
        return answer

    def say(self, name, **request):
        self.answer(name, f"say {compact(request)}")

    def shown(self, name, word):
        """The revision and the view that a name holds, or should hold; None where it is nothing."""
        words = self.answer(name, word).split(" ", 3)
        return (int(words[2]), words[3]) if len(words) == 4 else None

    def come_back(self, name):
        """Leaves and opens again, and goes on from what is held."""
        self.answer(name, "close")
        self.answer(name, f"open room{name % 2}")
        held = self.shown(name, "held")
        if held is None:
            self.say(name, do="watch", id=1, view=VIEWS[name])
        else:
            self.say(name, do="resume", epoch=1, id=3, rev=held[0], view=VIEWS[name])

    def operation(self):
        place, value = f"/l/{self.chance.randrange(4)}", self.chance.randrange(100)
        return self.chance.choice(
            [
                {"op": "add", "path": "", "value": {"l": [value, 1, 2], "m": [0]}},
                {"op": "add", "path": place, "value": value},
                {"op": "add", "path": place, "value": value},
                {"op": "add", "path": "/l/-", "value": [value]},
                {"op": "remove", "path": place},
                {"op": "replace", "path": place, "value": value},
                {"from": place, "op": "move", "path": "/l/0"},
                {"from": place, "op": "copy", "path": "/m/0"},
            ]
        )

    def step(self, name):
        """More is drawn than said, so that replies do not keep patches waiting."""
        kind = self.chance.randrange(20)
        if kind < 2:
            self.come_back(name)
        elif kind == 2:
            self.say(name, do="watch", id=1, view=VIEWS[name])
        elif kind == 3:
            self.answer(name, "close")
        elif kind < 16:
            self.answer(name, "draw")
        else:
            self.say(name, do="edit", id=2, patch=[self.operation()])

    def play(self):
        names = range(len(VIEWS))
        for name in names:
            self.come_back(name)
        for _ in range(STEPS):
            self.step(self.chance.choice(names))
        for name in names:
            self.settle(name)

    def settle(self, name):
        """Comes back, and draws all that waits."""
        self.come_back(name)
        for _ in range(40):
            self.answer(name, "draw")
        held, truth = self.shown(name, "held"), self.shown(name, "truth")
        if held is None or truth is None or held[1] != truth[1]:
            raise Wrong(f"n{name} holds {held}, and should hold {truth}")


def fault_of(path, job):
    """Tells why a run by a job is not what it should be, or None."""
    with subprocess.Popen(
        [path, job, *OPTIONS], stdin=subprocess.PIPE, stdout=subprocess.PIPE
    ) as ran:
        soak, watchdog = Soak(ran), threading.Timer(PATIENCE, ran.kill)
        watchdog.start()
        try:
            soak.play()
        except (Wrong, OSError) as wrong:
            if ran.poll() == -signal.SIGKILL:
                return f"no end within {PATIENCE} seconds, as on a busy machine"
            ran.kill()
            return str(wrong)
        finally:
            watchdog.cancel()
    few = [it for it, count in WANTED.items() if soak.seen[it] < count]
    return f"too few lines with {few[0]}" if few else None
