"""The relay as a child process, and where its program is."""

import functools
import os
import pathlib
import subprocess

from support import process
from support.patience import PATIENCE
from support.ports import free_port

ROOT = pathlib.Path(__file__).resolve().parents[2]
EPOCH = 7


class DoesNotStart(Exception):
    """The program did not say its port."""


@functools.lru_cache(maxsize=None)
def program():
    """The one that RELAY names, or that ./relay builds."""
    if os.environ.get("RELAY"):
        return os.path.realpath(os.environ["RELAY"])
    subprocess.run([ROOT / "relay", "--build"], check=True)
    return str(ROOT / "crates/relay/out/relay")


def run(*words, given="", **how):
    """Returns what the program comes to with these words and this input: status, output and
    errors."""
    how = {"capture_output": True, "text": True, "timeout": PATIENCE, **how}
    return subprocess.run([program(), *map(str, words)], input=given, **how)


class Relay:
    """One run of `relay serve`, or of another server of its protocol, until it is ended."""

    def __init__(self, *options, of=None, port=0, epoch=EPOCH, before=(), **how):
        """`before` are words in front of the program; `how` is as `Popen` takes it."""
        words = [*before, of or program(), "serve", "--port", port, *options]
        words = [*map(str, words), *(["--epoch", str(epoch)] if epoch else [])]
        self.epoch = epoch
        self.process = subprocess.Popen(words, stdout=subprocess.PIPE, text=True, **how)
        said = self.process.stdout.readline().split()
        if len(said) != 2:
            self.end()
            raise DoesNotStart(" ".join(words))
        self.port = int(said[1])

    def __enter__(self):
        return self

    def __exit__(self, *_):
        self.end()

    def url(self, room):
        return f"ws://127.0.0.1:{self.port}/rooms/{room}"

    def is_gone(self):
        return self.process.poll() is not None

    def memory(self, member="VmRSS"):
        return process.memory(self.process.pid, member)

    def end(self):
        """By signal 9, if it runs."""
        self.process.kill()
        self.process.wait()
        self.process.stdout.close()


class Operated(Relay):
    """One with an operator's port."""

    def __init__(self, *options, **how):
        self.admin = free_port()
        super().__init__("--admin", self.admin, *options, **how)
