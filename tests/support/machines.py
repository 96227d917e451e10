"""Machines on one street: each is a network namespace with one line to this machine, which can be
taken down while it is there. All of it, and each process, is in namespaces of the test's own, which
go with the test however that ends."""

import contextlib
import ctypes
import os
import pathlib
import subprocess
import sys

NET = "10.77.0"
HERE = f"{NET}.1"
NOBODY = "02:00:00:00:00:01"
CLONE_NEWNET = 0x40000000


def apart():
    """Goes on in namespaces of its own: no other run has met these names, and none is left."""
    if "APART" not in os.environ:
        words = ["unshare", "--net", "--mount", "--pid", "--fork", "--kill-child", "--mount-proc"]
        words += [sys.executable, *sys.argv]
        os.execvpe(words[0], words, {**os.environ, "APART": "1"})
    pathlib.Path("/run/netns").mkdir(exist_ok=True)
    subprocess.run(["mount", "-t", "tmpfs", "netns", "/run/netns"], check=True)
    ip("link", "set", "lo", "up")


def ip(*words):
    subprocess.run(["ip", *map(str, words)], check=True)


@contextlib.contextmanager
def street():
    """A bridge, on which this machine has an address."""
    ip("link", "add", "street", "type", "bridge")
    try:
        ip("addr", "add", f"{HERE}/24", "dev", "street")
        ip("link", "set", "street", "up")
        yield
    finally:
        ip("link", "del", "street")


class Machine:
    """One with the address of that number."""

    def __init__(self, name, number):
        self.name, self.line, self.address = name, f"line{number}", f"{NET}.{number}"
        ip("netns", "add", name)
        ip("link", "add", self.line, "type", "veth", "peer", "name", "far", "netns", name)
        ip("link", "set", self.line, "master", "street", "up")
        ip("-n", name, "addr", "add", f"{self.address}/24", "dev", "far")
        ip("-n", name, "link", "set", "far", "up")
        ip("-n", name, "link", "set", "lo", "up")

    def words(self, *words):
        """Those that run a command on it."""
        return ["ip", "netns", "exec", self.name, *map(str, words)]

    def start(self, *words, **how):
        return subprocess.Popen(self.words(*words), **how)

    def take_down(self):
        """Nothing comes from it any more, not even the end of its connections."""
        ip("link", "set", self.line, "down")

    def bring_up(self):
        ip("link", "set", self.line, "up")

    def lose(self, other):
        """Nothing passes between the two any more, in either direction: what they send goes to an
        address of Ethernet that nobody has."""
        for one, far in ((self, other), (other, self)):
            words = ["lladdr", NOBODY, "dev", "far", "nud", "permanent"]
            ip("-n", one.name, "neigh", "replace", far.address, *words)

    def find(self, other):
        for one, far in ((self, other), (other, self)):
            ip("-n", one.name, "neigh", "del", far.address, "dev", "far")

    @contextlib.contextmanager
    def inside(self):
        """This thread is on it: what connects, connects there."""
        with open("/proc/thread-self/ns/net") as here, open(f"/run/netns/{self.name}") as there:
            enter(there)
            try:
                yield
            finally:
                enter(here)

    def end(self):
        ip("netns", "del", self.name)


def enter(namespace):
    libc = ctypes.CDLL(None, use_errno=True)
    if libc.setns(namespace.fileno(), CLONE_NEWNET) != 0:
        raise OSError(ctypes.get_errno(), "setns")
