"""Checksums of the crates' sources, by which a build is known to be of them.

A checksum is of names and contents alone, so a copy of the repository has the same ones, whatever
its dates are. A file whose size, dates and inode are those of its last reading is not read again.
sums.json has these, as git's index does."""

import contextlib
import functools
import hashlib
import json
import os
import re
import time

from jobs import ROOT

OUT = ROOT / "crates/relay/out"
SUMS = OUT / "sums.json"
# An editor's own files beside them are no sources.
LANGUAGES = (".rt", ".antt")
# A file that is younger may be changed again within the same tick of its dates.
TOO_YOUNG = 2_000_000_000
# What a proof reads, and what a compiler does.
WHOLE, CODE = ("src", "specs", "proofs"), ("src",)

LISTED = re.findall(r"^(\w+):(.*)", (ROOT / "crates.txt").read_text(), re.M)
CRATES = {name: libraries.split() for name, libraries in LISTED}  # lowest first


@functools.lru_cache(maxsize=None)
def below(name):
    """The crates of this repository that a crate stands on."""
    named = [low for low in CRATES[name] if low in CRATES]
    return set(named).union(*map(below, named))


class Sources:
    """The sources of all crates as they stand when this is made."""

    def __init__(self, kinds):
        self.kinds, self.read, self.is_new = kinds, recorded(), False
        self.stats = {name: stats_of(name, kinds) for name in CRATES}
        self.sums = {}  # of a crate, of the libraries that it names, and of all that it stands on
        for name in CRATES:
            self.sums[name] = self.sum_of(name)
        self.record()

    def sum_of(self, name):
        parts = [name, *CRATES[name], *(self.sums[low] for low in CRATES[name] if low in CRATES)]
        parts += [f"{path} {self.sum_of_file(path, stat)}" for path, stat in self.stats[name]]
        return hashlib.sha256("\n".join(parts).encode()).hexdigest()

    def sum_of_file(self, path, stat):
        if self.read.get(path, [])[:-1] == stat:
            return self.read[path][-1]
        began = time.time_ns()
        found = hashlib.sha256((ROOT / path).read_bytes()).hexdigest()
        if max(stat[1:3]) + TOO_YOUNG < began:
            self.read[path], self.is_new = [*stat, found], True
        return found

    def has_changed(self, name):
        """A file of the crate was written since, though it may say the same."""
        return self.stats[name] != stats_of(name, self.kinds)

    def record(self):
        """Keeps what was read for the next ./relay, if there is a place for it."""
        if self.is_new:
            with contextlib.suppress(OSError):
                new = SUMS.with_suffix(f".{os.getpid()}")
                new.write_text(json.dumps(self.read))
                new.replace(SUMS)


def stats_of(name, kinds):
    """Each file of a crate by its path, with its size, its dates and its inode."""
    found = []
    for kind in kinds:
        for folder, _, files in os.walk(ROOT / "crates" / name / kind):
            for file in (it for it in files if it.endswith(LANGUAGES)):
                it = os.stat(os.path.join(folder, file))
                path = os.path.relpath(os.path.join(folder, file), ROOT)
                found.append((path, [it.st_size, it.st_mtime_ns, it.st_ctime_ns, it.st_ino]))
    return sorted(found)


def recorded():
    try:
        return json.loads(SUMS.read_text())
    except (FileNotFoundError, ValueError):
        return {}
