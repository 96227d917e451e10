#!/usr/bin/env python3
"""Drives both clients with random edits, lost connections, restarts and short histories, and
compares what they hold.

    tests/clients/run [SEEDS] [FIRST]

At each quiet moment every client's slots are those that a fresh watcher is shown, no edit that was
answered is lost or done twice, and no slots that were handed out have changed. Edits with a base
are done on that revision of that run alone, and are sent again where the answer was lost, as those
that are `once`; a count that all clients raise by a base, each from what it sees, is the number of
the edits that raised it; and so is one that they raise by drafts.
"""
import asyncio, itertools, os, random, sys, time
from browser import Browser
from players import ROOT, InBrowser, InGo, InJava, InNode, InPython
from server import Proxy, Relay

ROOM = "play"
BEGUN = {
    "log": [],
    "count": 0,
    "changed": 0,
    "n": 0,
    "once": {},
    "lists": {"a": [1, 2, 3], "b": [], "c": [{"k": [0]}]},
}
VIEWS = [
    [""],
    ["/log"],
    ["/lists/a", "/lists/b"],
    ["/lists/a/0", "/n"],
    ["/lists", "/none"],
    ["/lists/a/1", "/lists/c/0/k", "/lists/a"],
]
CHECKS = 6
"""The number of quiet moments that a seed has."""
COUNTS = "c"
"""With what the tag of an edit begins that raises the count."""
CHANGES = "d"
"""With what the tag of a change begins, which raises the other one."""


class Wrong(Exception):
    pass


class Play:
    def __init__(self, seed, program, node, browser):
        self.chance, self.program = random.Random(seed), program
        self.node, self.browser = node, browser
        self.numbers = itertools.count()
        self.run = 0  # which run of the relay this is
        # By its tag: the run that it began in, the one that it was answered in, and the answer.
        self.edits = {}
        self.counted = 0  # the revision of the newest count
        self.counts = {
            "done": 0,
            "Refused": 0,
            "Unknown": 0,
            "of these by a revision": 0,
            "cuts": 0,
            "restarts": 0,
        }

    async def play(self):
        self.proxy = Proxy(late=lambda: self.chance.choice([0, 0, 0.003, 0.02]))
        url = f"ws://127.0.0.1:{await self.proxy.begin()}/rooms/{ROOM}"
        await self.start(0)
        views = [self.chance.choice(VIEWS) for _ in range(4)]
        self.players = [InPython(url, view) for view in views[:2]]
        self.players += [await InNode.begin(self.node, url, views[2])]
        if go := os.environ.get("GO_PLAYER"):
            self.players += [await InGo.begin(go, url, view) for view in views[:2]]
        if java := os.environ.get("JAVA_PLAYER"):
            self.players += [await InJava.begin(java, url, view) for view in views[2:]]
        if self.browser:
            self.players += [await InBrowser.begin(self.browser, url, views[3])]
        try:
            for _ in range(CHECKS):
                await self.stir()
                if self.chance.random() < 0.4:
                    await self.restart()
                await self.settle()
        finally:
            for player in self.players:
                await player.leave()
            await self.relay.end()
            await self.proxy.end()

    async def start(self, rev):
        """Begins another run, whose room has a board at revision 1, or one as high as `rev`."""
        self.run += 1
        history, outbox = self.chance.choice([1, 2, 4, 64, 64]), self.chance.choice([1, 2, 32])
        self.relay = await Relay.begin(self.program, self.epoch(), history, outbox)
        begin = [
            {"op": "test", "path": "", "value": None},
            {"op": "add", "path": "", "value": BEGUN},
        ]
        await self.relay.request(ROOM, {"do": "edit", "patch": begin}, "done")
        await self.relay.raise_to(ROOM, rev)
        self.proxy.port = self.relay.port

    def epoch(self):
        return 1000 + self.run

    async def restart(self):
        """Another run, which may be at the revision of the one before, or at that from which all
        count on: only the epoch tells that nothing of it is left."""
        self.counts["restarts"] += 1
        rev, _ = await self.relay.shows(ROOM, [])
        self.proxy.port = None
        await self.relay.end()
        counting = [self.count(player) for player in self.players]
        await asyncio.gather(
            self.start(self.chance.choice([0, rev, rev + 1, self.counted])), *counting
        )

    # What happens.

    async def stir(self):
        """Some edits at once, and in between what goes wrong."""
        editing = []
        for _ in range(self.chance.randint(10, 40)):
            what = self.chance.random()
            if what < 0.06:
                self.counts["cuts"] += 1
                self.proxy.cut(
                    lambda: self.chance.random() < 0.5, near=lambda: self.chance.random() < 0.5
                )
            elif what < 0.1:
                view = self.chance.choice(VIEWS)
                editing.append(asyncio.ensure_future(self.chance.choice(self.players).watch(view)))
            elif what < 0.12:
                await self.restart()
            elif what < 0.25:
                await asyncio.sleep(self.chance.random() * 0.03)
            elif what < 0.35:
                editing.append(asyncio.ensure_future(self.change(self.chance.choice(self.players))))
            elif what < 0.5:
                editing.append(asyncio.ensure_future(self.count(self.chance.choice(self.players))))
            else:
                editing.append(asyncio.ensure_future(self.edit(self.chance.choice(self.players))))
        await asyncio.wait_for(asyncio.gather(*editing), 60)

    def is_again(self, answer, began):
        """True if an edit is sent to this run again where its answer was lost."""
        return answer.get("of") == self.epoch() or (answer.get("once") and began == self.run)

    async def edit(self, player):
        more, how = self.operations(), self.chance.choice(["based", "based", "once", "", ""])
        await self.log("e", lambda logged: player.edit([logged, *more], how))

    async def count(self, player):
        answer = await self.log(COUNTS, player.count)
        self.counted = answer.get("rev", self.counted)

    async def change(self, player):
        await self.log(CHANGES, lambda logged: player.change(logged["value"]))

    async def log(self, kind, edit):
        """Has an edit done with an operation that leaves its tag in the log, and keeps and gives
        what it came to."""
        tag, began = f"{kind}{next(self.numbers)}", self.run
        answer = await edit({"op": "add", "path": "/log/-", "value": tag})
        self.edits[tag] = (began, self.run, answer)
        self.counts[answer.get("fails", "done")] += 1
        self.counts["of these by a revision"] += answer.get("known") is not None
        if "rev" in answer and "base" in answer and answer["rev"] != answer["base"] + 1:
            raise Wrong(f"{tag} was done on another revision than its base: {answer}")
        if (
            answer.get("fails") == "Unknown"
            and answer.get("known") is None
            and self.is_again(answer, began)
        ):
            raise Wrong(f"{tag} was not sent again: {answer}")
        return answer

    def operations(self):
        return [self.operation() for _ in range(self.chance.randint(0, 3))]

    def operation(self):
        """One that is refused now and then."""
        pick = self.chance.choice
        place = lambda: f"/lists/{pick('abc')}/{pick(['0', '0', '1', '2', '-'])}"
        value = self.chance.choice([0, None, "ä~/", {"k": [1]}, [[]], {"a/b": {"m~n": 7}}])
        op = self.chance.choice(["add", "add", "add", "remove", "replace", "move", "copy", "raise"])
        if op == "raise":
            return {"op": "replace", "path": "/n", "value": self.chance.randint(0, 9)}
        if op in ("move", "copy"):
            return {"op": op, "from": place(), "path": place()}
        return {"op": op, "path": place(), "value": value}

    # What has to hold.

    async def settle(self):
        """Everything was answered: soon every client holds what a fresh watcher is shown."""
        until = time.monotonic() + 40
        while wrong := await self.first_difference():
            if time.monotonic() > until:
                raise Wrong(wrong)
            await asyncio.sleep(0.02)
        view = ["/log", "/count", "/changed"]
        rev, [[log], [count], [changed]] = await self.relay.shows(ROOM, view)
        self.compare_log(log)
        for number, kind in ((count, COUNTS), (changed, CHANGES)):
            counts = [tag for tag in log if tag.startswith(kind)]
            if number != len(counts):
                raise Wrong(f"the count is {number}, and was raised by {counts}")

    async def first_difference(self):
        for player in self.players:
            seen = await player.look()
            if seen["spoiled"]:
                raise Wrong("slots that were handed out have changed")
            if seen["state"] != "open":
                return f"{type(player).__name__} is {seen['state']}"
            rev, slots = await self.relay.shows(ROOM, seen["view"])
            if seen["slots"] != slots or seen["rev"] > rev:
                return f"{type(player).__name__} holds {seen}, and not {slots} of revision {rev}"
        return None

    def compare_log(self, log):
        order = {}
        for tag, (began, answered, answer) in self.edits.items():
            times = log.count(tag)
            if times > 1:
                raise Wrong(f"{tag} was done {times} times: {answer}")
            if answer.get("fails") == "Refused" and times > 0:
                raise Wrong(f"{tag} was refused, and done: {answer}")
            if answer.get("of", self.epoch()) != self.epoch() and times > 0:
                raise Wrong(f"{tag} was done in another run than that of its base: {answer}")
            if "rev" in answer and began == answered == self.run:
                if times == 0:
                    raise Wrong(f"{tag} is lost: {answer}")
                # One that is `once` may tell a later revision than its own.
                if not answer.get("once"):
                    order[answer["rev"]] = tag
        answered = [order[rev] for rev in sorted(order)]
        if answered != [tag for tag in log if tag in set(answered)]:
            raise Wrong("edits were not done in the order of their revisions")


async def play(seeds, first, browser):
    program = os.environ.get("RELAY", f"{ROOT}/relay")
    node = os.environ.get("NODE_WORDS", "node").split()
    begun = time.monotonic()
    for seed in range(first, first + seeds):
        player = Play(seed, program, node, browser)
        try:
            await player.play()
        except Wrong as wrong:
            sys.exit(f"seed {seed}: {wrong}")
        counts = ", ".join(f"{count} {word}" for word, count in player.counts.items())
        print(f"seed {seed}: {counts}", flush=True)
    took, beside = time.monotonic() - begun, "with" if browser else "without"
    print(f"{seeds} seeds in {took:.0f} seconds, {beside} a browser")


async def main(seeds=20, first=1):
    program = os.environ.get("BROWSER_PROGRAM")
    browser = await Browser.begin(program) if program else None
    try:
        await play(int(seeds), int(first), browser)
    finally:
        if browser:
            await browser.end()


if __name__ == "__main__":
    asyncio.run(main(*sys.argv[1:]))
