"""Does what systemd does with the units of docs/running: supervisor.py KEEPER RELAY

The relay is started once its keeper is ready. When one of them ends the other one is ended, and
both are started again. Each line that they say is passed on."""

import subprocess
import sys
import time

AGAIN = 2


def started(words, **how):
    return subprocess.Popen(["/bin/sh", "-c", words], **how)


def run(keeper_words, relay_words):
    """Until one of them ends."""
    keeper = started(keeper_words, stdout=subprocess.PIPE, text=True)
    both = [keeper]
    if keeper.stdout.readline() == "ready\n":
        both.append(started(relay_words))
        while all(process.poll() is None for process in both):
            time.sleep(0.02)
    for process in both:
        process.kill()
        process.wait()


while True:
    run(*sys.argv[1:])
    print("supervisor: once more", flush=True)
    time.sleep(AGAIN)
