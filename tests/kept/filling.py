"""A store that takes no more: its relay answers nobody any more, says why, and ends with status 1.
The next start has everything that was answered. So it is if only its log cannot be moved into its
file at a stop. A disk that may not be written is refused."""

import contextlib
import os
import pathlib
import re
import signal
import subprocess
import sys
import tempfile

from stored import check, kept
from support import asking
from support.patience import PATIENCE
from support.play import main, shows
from support.process import limited
from support.relay import Operated, Relay, run
from support.wire import Client, Ended, request

# How many bytes a disk has, or a file may have; and how many edits surely fit.
MOST, FEW = 600_000, 10


def apart():
    """Goes on with mounts of its own, if the system allows that: the disks go with the test."""
    if "APART" not in os.environ:
        words = ["unshare", "--map-root-user", "--mount"]
        if subprocess.run([*words, "true"], stderr=subprocess.DEVNULL).returncode == 0:
            words += [sys.executable, *sys.argv]
            os.execvpe(words[0], words, {**os.environ, "APART": "1"})


class Disk:
    """A folder with a store, which may be a small disk by itself."""

    def __init__(self):
        self.stack = contextlib.ExitStack()
        self.path = pathlib.Path(self.stack.enter_context(tempfile.TemporaryDirectory()))
        self.file = self.path / "rooms.db"

    def __enter__(self):
        return self

    def __exit__(self, *_):
        self.stack.close()

    def mount(self, size):
        words = ["mount", "-t", "tmpfs", "-o", f"size={size}", "none", self.path]
        subprocess.run(words, check=True)
        self.stack.callback(subprocess.run, ["umount", self.path], check=True)

    def relay(self, *options, **how):
        words = ["--store", self.file, *options]
        return Relay(*words, epoch=None, stderr=subprocess.PIPE, **how)


def fill(relay):
    """Edits until the relay is gone: the number of the last answer. Each edit is 4 KB."""
    answered = 0
    with contextlib.suppress(Ended), Client(relay.port, "board") as client:
        assert client.set({"n": 0, "rest": ""})["kind"] == "done"
        while True:
            texts = [{"op": "replace", "path": "/n", "value": answered + 1}]
            texts += [{"op": "replace", "path": "/rest", "value": chr(97 + answered % 26) * 4000}]
            reply = client.ask(request("edit", answered + 1, patch=texts))
            assert reply["kind"] == "done", reply
            answered += 1
    return answered


def is_apart():
    if "APART" not in os.environ:
        print("NOT SHOWN: no mounts of its own are allowed here")
        return False
    return True


def ends(relay, words):
    assert relay.process.wait(PATIENCE) == 1
    said = relay.process.stderr.read()
    rooms, fault = said.splitlines()
    assert re.fullmatch(r"relay: --store .*: (no rooms yet|1 room)", rooms), said
    assert re.fullmatch(f"relay: --store .*: {words}", fault), said
    relay.process.stderr.close()


def has_all(disk, answered, **how):
    """The next start has each edit that was answered, and at most the one behind it, as the file
    has."""
    with disk.relay(**how) as relay, Client(relay.port, "board") as client:
        message = client.watch([""])
        document = message["view"][0][0]
        relay.process.stderr.close()
    assert answered <= document["n"] <= answered + 1, (answered, document["n"])
    check(disk.file)
    assert kept(disk.file).rooms["board"] == (message["rev"], document)


@shows
def a_disk_that_is_full(disk):
    if not is_apart():
        return
    disk.mount(MOST)
    with disk.relay() as relay:
        answered = fill(relay)
        ends(relay, "the disk is full")
    assert answered > FEW, answered
    subprocess.run(["mount", "-o", f"remount,size={4 * MOST}", disk.path], check=True)
    has_all(disk, answered)


@shows
def a_log_for_which_the_file_has_no_room_at_a_stop(disk):
    if not is_apart():
        return
    disk.mount(4 * MOST)
    with Operated("--store", disk.file, epoch=None, stderr=subprocess.PIPE) as relay:
        with Client(relay.port, "board") as client:
            assert client.set({"n": 1, "rest": "x" * 40_000})["kind"] == "done"
        rest = disk.path / "rest"
        with contextlib.suppress(OSError), rest.open("wb", buffering=0) as file:
            while True:
                file.write(bytes(4_096))
        assert asking.ask(relay.admin, asking.head("POST /stop HTTP/1.1")).status == 202
        stays = "the log stays beside the file, and both have all that was kept"
        ends(relay, f"the disk is full: {stays}")
    rest.unlink()
    has_all(disk, 1)


@shows
def a_disk_that_may_not_be_written(disk):
    if not is_apart():
        return
    disk.mount(MOST)
    with disk.relay() as relay:
        relay.process.stderr.close()
    subprocess.run(["mount", "-o", "remount,ro", disk.path], check=True)
    for words in (["serve", "--port", 0, "--turns", 1], ["store", "list"], ["store", "export"]):
        for file in (disk.file, disk.path / "none.db"):
            ran = run(*words, "--store", file)
            is_made = words[0] == "serve" or file == disk.file
            fault = "the file or its folder may not be written"
            said = fault if is_made else "the file cannot be opened"
            assert (ran.returncode, ran.stdout) == (1, ""), ran
            assert ran.stderr == f"relay: --store {file}: {said}\n", ran


@shows
def a_file_that_may_not_grow(disk):
    # Python has this signal ignored, and so has its child.
    assert signal.getsignal(signal.SIGXFSZ) == signal.SIG_IGN
    how = {"preexec_fn": limited(FSIZE=MOST), "restore_signals": False}
    with disk.relay(**how) as relay:
        answered = fill(relay)
        ends(relay, "the disk failed")
    assert answered > FEW, answered
    has_all(disk, answered)


@shows
def the_log_says_that_a_commit_failed(disk):
    how = {"preexec_fn": limited(FSIZE=MOST), "restore_signals": False}
    with disk.relay("--log", **how) as relay:
        fill(relay)
        assert relay.process.wait(PATIENCE) == 1
        lines = relay.process.stderr.read().splitlines()
        relay.process.stderr.close()
    failed = [line for line in lines if "level=error" in line]
    assert [line.split(" ", 1)[1] for line in failed] == ["level=error event=commit-failed"], lines
    assert lines[-1].endswith(": the disk failed"), lines


apart()
main(each=Disk)
