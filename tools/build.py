"""Tells what is stale of the proved program, and in which order it is proved and built.

crates/relay/out/proved has of each crate its library, NAME.rlib, what was said of it, NAME.log, and
the checksum of its sources, NAME.done. costs.json beside it has what each proof took the last time.
"""

import json
import math
import os
import pathlib
import re
import subprocess
import sys
import time

from jobs import ROOT, kit, running, say, start
from sources import CRATES, OUT, WHOLE, Sources, below

PROGRAM, PROVED, COSTS = OUT / "relay", OUT / "proved", OUT / "costs.json"
DONE = {name: PROVED / f"{name}.done" for name in CRATES}


def is_of(mark, total):
    """The mark has this checksum."""
    return mark.exists() and mark.read_text() == total


def costs():
    """CPU seconds of each proof: of its last run here, or as CONTRIBUTING.md has them, in
    minutes."""
    table = (ROOT / "CONTRIBUTING.md").read_text()
    rows = re.findall(r"^\| `(\w+)` \| ([\d.]+) \|", table, re.M)
    usual = {**dict.fromkeys(CRATES, 60), **{name: 60 * float(minutes) for name, minutes in rows}}
    return {**usual, **recorded()}


def recorded():
    return json.loads(COSTS.read_text()) if COSTS.exists() else {}


def record(name, seconds):
    new = COSTS.with_suffix(".new")
    new.write_text(json.dumps({**recorded(), name: seconds}))
    new.replace(COSTS)


def words_of(name):
    """Returns what rattle is told of a crate: its name and root, and where the libraries that it
    names are."""
    root = "src/main.rt" if name == "relay" else "src/lib.rt"
    words = ["--crate-name", name, "--links", f"{name}=", root]
    for low in ["std", *CRATES[name]]:
        words += ["--extern", f"{low}={PROVED if low in CRATES else kit() / 'rlibs'}/{low}.rlib"]
    words += ["-L", f"dependency={PROVED}", "-L", f"dependency={kit()}/rlibs"]
    words += ["--antt-project", f"{kit()}/rattle/logic/antt-project.json"]
    return [*words, "--logic-built", f"{kit()}/logic_built"]


def link():
    target = ["--target", "x86_64-unknown-linux-gnu", "--toolchain", kit() / "toolchain"]
    libraries = [kit() / "c/libos_c.a", kit() / "c/liblibc_c.a"]
    words = [kit() / "bin/rattle-link", *target, "-o", PROGRAM, f"{PROGRAM}.o", *libraries]
    with (PROVED / "relay.log").open("a") as log:
        return subprocess.run(words, stdout=log, stderr=log).returncode


class Build:
    """Proves what is stale of some crates: each as soon as those below it are proved, and that one
    first for which the others wait the longest."""

    def __init__(self, names):
        self.sources = Sources(WHOLE)
        for name in CRATES:  # also those that do not wait now, and what stands on them
            is_ready = all(DONE[low].exists() for low in below(name))
            if not (is_ready and is_of(DONE[name], self.sources.sums[name])):
                DONE[name].unlink(missing_ok=True)
        self.cost, self.spent, self.begun = costs(), 0, time.monotonic()
        self.chain = {}  # the seconds from a crate's begin to the end, if nothing waits for a CPU
        for name in reversed([it for it in CRATES if it in names and not DONE[it].exists()]):
            above = [self.chain[it] for it in self.chain if name in below(it)]
            self.chain[name] = self.cost[name] + max(above, default=0)
        self.left = sorted(self.chain, key=self.chain.get, reverse=True)
        memory = re.search(r"MemAvailable: *(\d+)", pathlib.Path("/proc/meminfo").read_text())
        self.lanes = max(1, min(len(os.sched_getaffinity(0)), int(memory[1]) // 4_000_000))

    def run(self):
        try:
            while self.left:
                self.start_ready()
                self.take_ended()
        finally:
            for mark in PROVED.glob("*.begun"):
                mark.unlink()

    def start_ready(self):
        """The k-th of those that run, in order, gets a k-th of the CPUs, so the first one, which
        is often alone in the end, gets all. Copies of rattle that check a crate side by side take
        3 to 8 % more CPU time than one."""
        runs = 0
        for name in self.left:
            is_ready = all(DONE[low].exists() for low in below(name))
            if is_ready and name not in running and len(running) < self.lanes:
                self.say_progress(name)
                self.prove(name, self.lanes // (runs + 1))
            runs += name in running

    def say_progress(self, name):
        """The rest goes at the pace so far, which counts as if 300 seconds had taken two
        minutes."""
        passed, rest = time.monotonic() - self.begun, sum(map(self.cost.get, self.left))
        minutes = math.ceil(rest * (passed + 120) / (self.spent + 300) / 60)
        waits = len(self.left) - len(running) - 1
        say(f"proving {name}, and then {waits} more: some {minutes} minutes")

    def prove(self, name, cpus):
        """A library is built of statements alone, so what stands on it has less to load."""
        made = ["--statements", "-o", PROVED / f"{name}.rlib"]
        if name == "relay":
            made = ["--toolchain", kit() / "toolchain", "-o", f"{PROGRAM}.o"]
        is_urgent = self.chain[name] > 0.6 * self.chain[self.left[0]]
        words = ["nice", "-n", 0 if is_urgent else 10, kit() / "bin/rattle", "build"]
        DONE[name].with_suffix(".begun").touch()
        words += [*words_of(name), "--jobs", cpus, *made]
        start(name, words, PROVED / f"{name}.log")

    def take_ended(self):
        process, status, used = os.wait4(-1, 0)
        name = next(name for name, job in running.items() if job.pid == process)
        running.pop(name).returncode = status
        if status or name == "relay" and link():
            sys.exit((PROVED / f"{name}.log").read_text() + f"relay: {name} is not proved")
        DONE[name].with_suffix(".begun").unlink()
        is_known = not self.sources.has_changed(name)
        DONE[name].write_text(self.sources.sums[name] if is_known else "changed meanwhile")
        self.left.remove(name)
        self.spent += self.cost[name]
        record(name, used.ru_utime + used.ru_stime)
