"""Runs the program, which it builds first if a source changed; ./relay says with which words."""

import contextlib
import os
import pathlib
import shutil
import signal
import sys
import time

from build import DONE, PROGRAM, PROVED, Build, is_of, words_of
from jobs import ROOT, alone_in, kit, run, say, start
from misuse import misuse_of
from sources import CODE, CRATES, OUT, WHOLE, Sources, below

# A program without proofs, what was said of it, and the checksum of its sources.
TRIED = OUT / "tried"
# What the program prints of itself, for whoever asks before it is built. tests/help compares it.
HELP = ROOT / "tools/help"
JOBS = ("script", "loop", "follow", "serve", "store")
LAUNCHER = """\
./relay builds the program before it runs a job, if a source changed:
  ./relay JOB..           proves all first: 25 minutes or more from nothing
  ./relay --try JOB..     only compiles, in two minutes; checks as it runs, 100 times slower
  ./relay --build         proves and builds, and runs nothing
  ./relay --check CRATE   proves one crate
"""


def proving():
    return alone_in(PROVED, ROOT, " that proves")


def run_proved(words):
    build_proved()
    run(PROGRAM, words)


def build_proved():
    """The program is as old as the sources were when this began: what changes meanwhile is proved
    the next time."""
    if is_out_of_date():
        with proving():
            if is_out_of_date():
                Build({"relay", *below("relay")}).run()


def is_out_of_date():
    if not (PROGRAM.exists() and DONE["relay"].exists()):
        return True
    sums = Sources(WHOLE).sums
    return not all(is_of(DONE[name], sums[name]) for name in ("relay", *below("relay")))


def asked_of_itself(words):
    """The file that answers these words without the program, or None."""
    if words in (["--version"], ["-V"]):
        return HELP / "version.txt"
    if words in (["--help"], ["-h"], ["help"]):
        return HELP / "relay.txt"
    first, second = words if len(words) == 2 else ("", "")
    job = first if second in ("--help", "-h") else second if first == "help" else ""
    return HELP / f"{job}.txt" if job in JOBS else None


def answer_at_once(words):
    """Ends the program if these words are of no job, or its job does not take them, or are for its
    help."""
    job, *more = words
    if job not in JOBS:
        print(f"relay: no job or option {job}; ./relay --help names them", file=sys.stderr)
        sys.exit(2)
    if misuse := misuse_of(job, more, (HELP / f"{job}.txt").read_text()):
        print(misuse, end="", file=sys.stderr)
        sys.exit(2)
    if "-h" in more or "--help" in more:
        print_from(HELP / f"{job}.txt")
        sys.exit(0)


def print_from(file):
    print(file.read_text(), end="", flush=True)
    if file.stem == "relay":
        print(f"\n{LAUNCHER}", end="", file=sys.stderr, flush=True)


def check(words):
    name = words[0] if words else ""
    if name not in CRATES:
        print("relay: --check takes the name of a crate, as crates.txt has it", file=sys.stderr)
        sys.exit(2)
    with proving():
        Build(below(name)).run()
    os.chdir(ROOT / "crates" / name)
    kept = ["--incremental", str(PROVED / f"{name}.kept")]
    run(kit() / "bin/rattle", ["check", *words_of(name), *kept, *words[1:]])


def run_tried(words):
    program, done, seconds = TRIED / "relay", TRIED / "done", TRIED / "seconds"
    with alone_in(TRIED, OUT, " --try that compiles"):
        if not (program.exists() and is_of(done, Sources(CODE).sums["relay"])):
            usual = seconds.read_text().strip() if seconds.exists() else "120"
            say(f"compiling the sources as they stand: some {usual} seconds")
            done.unlink(missing_ok=True)
            sources = Sources(CODE)
            seconds.write_text(compile_to(program, usual))
            if not any(map(sources.has_changed, ["relay", *below("relay")])):
                done.write_text(sources.sums["relay"])
    say("nothing of this program is proved")
    run(program, words)


def compile_to(program, usual):
    """rt has no command that builds a program without a proof. `rt try` reads the whole input
    before it runs one, and hands out the output when it has ended. So a server is tried, and its
    program is copied as soon as it listens. Gives the seconds that it took."""
    begun, work = time.monotonic(), TRIED / "work"
    shutil.rmtree(work, ignore_errors=True)
    work.mkdir()
    with contextlib.suppress(FileNotFoundError):
        program.unlink()
    words = [kit() / "bin/rt", "try", "--", "serve", "--port", "0"]
    job = start("relay", words, TRIED / "log", TMPDIR=str(work))
    due = 10
    while not (folder := listening_in(work)):
        seconds = int(time.monotonic() - begun)
        if job.poll() is not None:
            sys.exit((TRIED / "log").read_text() + "relay: the sources were not compiled")
        if seconds >= due:
            late = "; the machine may be busy" if seconds > int(usual) else ""
            say(f"compiling: {seconds} of some {usual} seconds{late}")
            due += 10
        time.sleep(0.2)
    shutil.copy(folder / "program", program)
    return str(int(time.monotonic() - begun))


def listening_in(work):
    """The folder below this one of a program that has said something."""
    for folder, _, files in os.walk(work):
        if "stdout" in files and os.path.getsize(f"{folder}/stdout"):
            return pathlib.Path(folder)
    return None


def main(words):
    for end in (signal.SIGTERM, signal.SIGHUP):
        if signal.getsignal(end) != signal.SIG_IGN:
            signal.signal(end, signal.default_int_handler)
    first, *more = words or ["script"]
    try:
        if file := asked_of_itself(more if first == "--try" else words):
            print_from(file)
        elif first == "--try":
            answer_at_once(more or ["script"])
            run_tried(more)
        elif first == "--check":
            check(more)
        elif words == ["--build"]:
            build_proved()
        else:
            answer_at_once(words or ["script"])
            run_proved(words)
    except KeyboardInterrupt:
        sys.exit(130)


main(sys.argv[1:])
