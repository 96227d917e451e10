#!/usr/bin/python3
"""Four relays behind nginx, and many clients in many rooms. All of them edit; meanwhile one relay
is killed and started again, and one is stopped and started again. Each client must end with the
right slots, those of the other two relays without a lost connection.

nginx runs by docs/running/nginx.conf, with TLS, the password and the limit of connections for each
address; the clients are those of clients/python, in four processes, and have addresses of
127.0.1.0/24. The relays run under `LimitAS=1G`. No time is bounded but the whole: after ten minutes
it gives up. Prints what it took, and last a line that says whether all was right; else it fails."""

import argparse
import asyncio
import pathlib
import signal
import ssl
import subprocess
import sys
import tempfile
import time

ROOT = pathlib.Path(__file__).resolve().parents[1]
sys.path[1:1] = [str(ROOT / "tests"), str(ROOT / "clients/python")]
import relay_client
import scale_clients
from support import relay
from support.nginx import Nginx
from support.process import cpu_seconds, limited, memory

RELAYS, PROCESSES = 4, 4
LONGEST = 600
MIB = 1 << 20
# What each client has counted to in the end of each part: an edit, then three during which relays
# end, then one.
FIRST, DURING, LAST = 1, 4, 5


class Relay:
    """One relay of the upstream, on a port that it keeps."""

    def __init__(self, words, epoch, bound):
        self.words, self.epoch, self.bound = words, epoch, bound
        self.port, self.peaks, self.used = 0, [], 0.0
        self.start()

    def start(self):
        """Tries until the port is free, as a unit with Restart=always does."""
        how = {"port": self.port, "epoch": self.epoch, "preexec_fn": self.bound}
        while True:
            try:
                self.run = relay.Relay(*self.words, **how)
                self.port = self.run.port
                return
            except relay.DoesNotStart:
                time.sleep(0.1)

    def restart(self, by):
        """Ends this run by a signal, and starts the next one."""
        self.measure()
        self.run.process.send_signal(by)
        self.run.process.wait()
        self.epoch += RELAYS
        self.start()

    def measure(self):
        self.peaks.append(self.run.memory("VmHWM") / MIB)
        self.used += cpu_seconds(self.run.process.pid)


class Clients:
    """One process of clients: it carries out a line of words, and then says what came of it."""

    def __init__(self, *words):
        words = [sys.executable, ROOT / "benches/scale_clients.py", *map(str, words)]
        pipe = subprocess.PIPE
        self.process = subprocess.Popen(words, stdin=pipe, stdout=pipe, text=True)

    def ask(self, *words):
        print(*words, file=self.process.stdin, flush=True)

    def answer(self):
        said = self.process.stdout.readline()
        if not said:
            raise SystemExit("benches/scale_out: a process of clients has ended")
        return said.split()

    def end(self):
        self.process.terminate()
        self.process.wait()


class Play:
    """Relays, nginx and clients, and when the part began that is played."""

    def __init__(self, folder, clients, rooms, bound):
        self.clients, self.rooms, self.processes, self.nginx = clients, rooms, [], None
        words = ["--sessions", clients, "--rooms", rooms]
        self.relays = [Relay(words, 1001 + number, bound) for number in range(RELAYS)]
        self.folder, self.began = folder, time.monotonic()

    def begin(self):
        ports = [it.port for it in self.relays]
        self.nginx = Nginx(self.folder, ports, 4 * self.clients + 512, workers=2)
        for k in range(PROCESSES):
            share = [self.clients * (k + more) // PROCESSES for more in (0, 1)]
            front = (self.nginx.port, self.nginx.certificate)
            self.processes.append(Clients(*front, *share, self.clients, self.rooms))
        self.began = time.monotonic()

    def end(self):
        for it in [*self.processes, self.nginx, *(relay.run for relay in self.relays)]:
            if it:
                it.end()

    def every(self, *words):
        for process in self.processes:
            process.ask(*words)
        return [process.answer() for process in self.processes]

    def holds(self, what, count=None):
        """All count to this, and each is shown the right slots."""
        if count:
            self.every("count", count)
        self.every("hold", self.epochs())
        self.took(what)

    def took(self, what):
        now = time.monotonic()
        print(f"{what}: {now - self.began:.1f} s", flush=True)
        self.began = now

    def epochs(self):
        return ",".join(str(relay.epoch) for relay in self.relays)

    def play(self):
        self.every("enter")
        self.took(f"{self.clients:,} clients are in {self.rooms} rooms")
        self.holds("an edit of each, shown to all in its room", FIRST)
        self.every("count", DURING)
        self.every("half")
        self.took(f"half of {DURING - FIRST} more edits of each")
        self.relays[0].restart(signal.SIGKILL)
        self.relays[1].restart(signal.SIGTERM)
        self.took("one relay was killed, one stopped, both are there again")
        self.holds("until each client is back and has the right slots")
        self.holds("one more edit of each", LAST)
        asyncio.run(self.newcomers())
        self.took("a newcomer in each room sees the same")
        self.tell()

    async def newcomers(self):
        context = ssl.create_default_context(cafile=self.nginx.certificate)
        coming = (self.newcomer(room, context) for room in range(self.rooms))
        await asyncio.gather(*coming)

    async def newcomer(self, room, context):
        """Checks what a client that enters now is shown: the relay's own word for what the others
        hold."""
        link = {"ssl": context, "local_addr": (scale_clients.address(room), 0)}
        more = {"view": ["/of"], "patience": LONGEST, "link": link}
        async with relay_client.connect(self.nginx.url(f"room{room}"), **more) as board:
            slots = await board.ready
        wanted = scale_clients.right(room, self.clients, self.rooms, LAST)
        assert slots == wanted, f"room {room} holds {slots}"

    def tell(self):
        """Prints what each relay had, and checks that the two that went on lost no
        connection."""
        told = zip(*self.every("tell", self.epochs()))
        held = [sum(map(int, counts)) for counts in told]
        for k, relay in enumerate(self.relays):
            inside, losses = held[2 * k : 2 * k + 2]
            relay.measure()
            counted = f"relay {k + 1}: {inside} clients, {losses} lost connections"
            print(f"{counted}, {max(relay.peaks):.0f} MiB, {relay.used:.1f} s of a CPU")
            assert k < 2 or losses == 0, "a relay that went on lost a connection"
            assert k >= 2 or losses >= inside, "a client did not notice that its relay ended"
        pid = self.nginx.process.pid
        workers = pathlib.Path(f"/proc/{pid}/task/{pid}/children").read_text().split()
        tell("nginx", [pid, *workers])
        tell("the clients", [it.process.pid for it in self.processes])
        assert sum(held[::2]) == self.clients


def tell(what, pids):
    """Prints what these processes take together."""
    taken, used = sum(map(memory, pids)) / MIB, sum(map(cpu_seconds, pids))
    print(f"{what}: {taken:.0f} MiB, {used:.1f} s of a CPU")


def options():
    form = argparse.RawDescriptionHelpFormatter
    words = argparse.ArgumentParser(description=__doc__, formatter_class=form)
    words.add_argument("clients", type=int, nargs="?", default=2000, metavar="CLIENTS")
    words.add_argument("rooms", type=int, nargs="?", default=200, metavar="ROOMS")
    sanitized = "a build with AddressSanitizer, under no LimitAS; its figures are not the relay's"
    words.add_argument("--sanitized", action="store_true", help=sanitized)
    return words.parse_args()


def too_late(*_):
    raise SystemExit(f"benches/scale_out: not over within {LONGEST} s")


def main():
    asked = options()
    signal.signal(signal.SIGALRM, too_late)
    signal.alarm(LONGEST)
    began = time.monotonic()
    bound = None if asked.sanitized else limited(AS=1 << 30)
    with tempfile.TemporaryDirectory() as folder:
        played = Play(folder, asked.clients, asked.rooms, bound)
        try:
            played.begin()
            played.play()
        finally:
            played.end()
    of = f"{asked.clients:,} clients in {asked.rooms} rooms of {RELAYS} relays"
    print(f"{of} have the right slots, after {time.monotonic() - began:.0f} s")


if __name__ == "__main__":
    main()
