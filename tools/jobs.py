"""Jobs of the kit. While one ./relay works in a folder it is alone there, and nothing of another
kit lies in it; all that it has started ends with it."""

import contextlib
import fcntl
import functools
import os
import pathlib
import shutil
import signal
import subprocess
import sys

ROOT = pathlib.Path(__file__).resolve().parent.parent
INTERRUPTS = {signal.SIGINT, signal.SIGTERM, signal.SIGHUP}
running = {}  # a job for each crate; its process leads a group of its own


def say(words):
    print(f"relay: {words}", file=sys.stderr, flush=True)


@functools.lru_cache(maxsize=None)
def kit():
    """The folder of the kit, which is where rt is."""
    found = shutil.which("rt")
    if not found:
        sys.exit("relay: rt is not on the PATH: it is in the Rattle kit's folder bin (README.md)")
    return pathlib.Path(found).resolve().parent.parent


@contextlib.contextmanager
def alone_in(folder, lock_on, other):
    """The jobs inherit the lock: those that a killed ./relay left behind keep it while they
    work."""
    folder.mkdir(parents=True, exist_ok=True)
    lock = os.open(lock_on, os.O_RDONLY)
    os.set_inheritable(lock, True)
    try:
        fcntl.flock(lock, fcntl.LOCK_EX | fcntl.LOCK_NB)
    except BlockingIOError:
        say(f"waiting for another ./relay{other} here")
        fcntl.flock(lock, fcntl.LOCK_EX)
    try:
        drop_other_kits(folder)
        yield
    finally:
        for job in running.values():
            with contextlib.suppress(ProcessLookupError):
                os.killpg(job.pid, signal.SIGTERM)
            job.wait()
        os.close(lock)


def drop_other_kits(folder):
    mark, own = folder / "KIT-ID", (kit() / "KIT-ID").read_bytes()
    if not mark.exists() or mark.read_bytes() != own:
        shutil.rmtree(folder)
        folder.mkdir()
        mark.write_bytes(own)


def start(name, words, log, **more):
    """Starts a job, in the folder of a crate. The file has what it says. An interrupt waits until
    the job is among those that run."""
    how = {"stdin": subprocess.DEVNULL, "stderr": subprocess.STDOUT, "cwd": ROOT / "crates" / name}
    how.update(env={**os.environ, **more}, close_fds=False, start_new_session=True)
    how.update(preexec_fn=lambda: signal.pthread_sigmask(signal.SIG_UNBLOCK, INTERRUPTS))
    signal.pthread_sigmask(signal.SIG_BLOCK, INTERRUPTS)
    try:
        with log.open("w") as out:
            running[name] = subprocess.Popen([*map(str, words)], stdout=out, **how)
    finally:
        signal.pthread_sigmask(signal.SIG_UNBLOCK, INTERRUPTS)
    return running[name]


def run(program, words):
    """Becomes the program. It hears signals as the caller of ./relay does."""
    for ignored in (signal.SIGPIPE, signal.SIGXFSZ):
        signal.signal(ignored, signal.SIG_DFL)
    os.execv(program, [str(program), *words])
