#!/usr/bin/env python3
"""Edits that show at once, with lost connections and restarts: tests/clients/run plays it for as
many seeds.

Each client writes down what it shows at each change. A watcher beside them has the document of each
revision. What a client holds as confirmed is always what its view shows of the document at that
revision, and what it shows is that of the document with its own edits that wait done on it, by
another program's JSON Patch.
"""
import asyncio, itertools, json, os, random, sys, time
import jsonpatch, websockets
from players import InGo, InJava, InNode
from server import Proxy, Relay
from showing import ShowingInPython

ROOM = "play"
BEGUN = {"log": [], "n": 0, "lists": {"a": [1, 2, 3], "b": [], "c": [{"k": [0]}]}}
WHOLE = [
    [""],
    ["/log", "/n", "/lists"],
    ["/n", {"size": "/log"}, "/lists", "/log", "/lists/a/0", {"size": "/lists/a"}],
]
"""Views that tell all of the document, so that a client knows what each of its edits leads to."""
PARTS = [["/lists/a", "/log"], ["/lists/a/0", "/lists/b", {"size": "/log"}]]
EDITS = 60


class Wrong(Exception):
    pass


class Watcher:
    """Has the document of each revision that it is told, of one run."""

    def __init__(self, relay):
        self.documents, self.relay = {}, relay
        self.watching = asyncio.ensure_future(self.watch())

    async def watch(self):
        try:
            await self.follow()
        except (OSError, websockets.exceptions.WebSocketException):
            pass  # the relay ended, perhaps before the handshake did

    async def follow(self):
        async with websockets.connect(
            f"ws://127.0.0.1:{self.relay.port}/rooms/{ROOM}", max_size=None
        ) as link:
            await link.send(json.dumps({"do": "watch", "id": 1, "view": [""]}))
            slots = None
            async for text in link:
                message = json.loads(text)
                if message["kind"] == "snapshot":
                    slots = message["view"]
                elif message["kind"] == "patch":
                    slots = jsonpatch.apply_patch(slots, message["patch"])
                else:
                    continue
                self.documents[message["rev"]] = slots[0][0]

    def at(self, rev):
        """None where it was not told: what waited was folded into a snapshot, or the relay ended
        first."""
        return self.documents.get(rev)


class Play:
    def __init__(self, seed, program, node):
        self.chance, self.program, self.node = random.Random(seed), program, node
        self.numbers, self.run, self.watchers = itertools.count(), 0, {}
        self.counts = {
            "edits": 0,
            "done": 0,
            "taken back": 0,
            "moments": 0,
            "with edits that wait": 0,
            "cuts": 0,
            "restarts": 0,
        }

    async def play(self):
        self.proxy = Proxy(late=lambda: self.chance.choice([0, 0.003, 0.02]))
        url = f"ws://127.0.0.1:{await self.proxy.begin()}/rooms/{ROOM}"
        await self.start()
        views = [*self.chance.sample(WHOLE, 2), self.chance.choice(PARTS)]
        self.players = [await InNode.begin(self.node, url, view) for view in views]
        self.players += [
            ShowingInPython(url, self.chance.choice(kind)) for kind in (WHOLE, WHOLE, PARTS)
        ]
        if go := os.environ.get("GO_PLAYER"):
            shown = [self.chance.choice(kind) for kind in (WHOLE, WHOLE, PARTS)]
            self.players += [await InGo.begin(go, url, view) for view in shown]
        if java := os.environ.get("JAVA_PLAYER"):
            shown = [self.chance.choice(kind) for kind in (WHOLE, WHOLE, PARTS)]
            self.players += [await InJava.begin(java, url, view) for view in shown]
        try:
            editing = []
            for _ in range(EDITS):
                editing.append(asyncio.ensure_future(self.edit(self.chance.choice(self.players))))
                await self.stir()
            await asyncio.wait_for(asyncio.gather(*editing), 30)
            await self.settle()
        finally:
            for player in self.players:
                await player.leave()
            await self.relay.end()
            await self.proxy.end()

    async def start(self):
        self.run += 1
        self.relay = await Relay.begin(
            self.program,
            1000 + self.run,
            self.chance.choice([1, 4, 64]),
            self.chance.choice([2, 32]),
        )
        begin = [
            {"op": "test", "path": "", "value": None},
            {"op": "add", "path": "", "value": BEGUN},
        ]
        await self.relay.request(ROOM, {"do": "edit", "patch": begin}, "done")
        self.watchers[1000 + self.run] = Watcher(self.relay)
        self.proxy.port = self.relay.port

    async def stir(self):
        what = self.chance.random()
        if what < 0.08:
            self.counts["cuts"] += 1
            self.proxy.cut(
                lambda: self.chance.random() < 0.5, near=lambda: self.chance.random() < 0.5
            )
        elif what < 0.11:
            self.counts["restarts"] += 1
            self.proxy.port = None
            await asyncio.sleep(0.03)
            await self.relay.end()
            await self.start()
        elif what < 0.7:
            await asyncio.sleep(self.chance.random() * 0.02)

    async def edit(self, player):
        tag = f"t{next(self.numbers)}"
        patch = [self.operation() for _ in range(self.chance.randint(0, 2))] + [
            {"op": "add", "path": "/log/-", "value": tag}
        ]
        answer = await player.ask(do="show", patch=patch, based=self.chance.random() < 0.2)
        self.counts["edits"] += 1
        self.counts["done" if "rev" in answer else "taken back"] += 1

    def operation(self):
        """One that is refused now and then."""
        pick = self.chance.choice
        place = lambda ends: f"/lists/{pick('abc')}/{pick([*'0012', *ends])}"
        value = self.chance.choice([0, None, "ä~/", {"k": [1]}, [[]], {"a/b": {"m~n": 7}}])
        op = self.chance.choice(
            ["add", "add", "remove", "replace", "move", "move", "copy", "test", "raise"]
        )
        if op == "raise":
            return {"op": "replace", "path": "/n", "value": self.chance.randint(0, 9)}
        if op in ("move", "copy"):
            return {"op": op, "from": place(""), "path": place("--")}
        if op == "remove":
            return {"op": op, "path": place("")}
        return {"op": op, "path": place("--" if op == "add" else ""), "value": value}

    # What has to hold.

    async def settle(self):
        for player in self.players:
            until = time.monotonic() + 20
            lines = []
            while True:
                told = await player.ask(do="lines")
                lines += told["lines"]
                last = told["last"]
                if (
                    last["state"] == "open"
                    and last["pending"] == 0
                    and last["slots"] == last["confirmed"]
                ):
                    break
                if time.monotonic() > until:
                    raise Wrong(f"still waits: {last}")
                await asyncio.sleep(0.02)
            for line in lines:
                self.compare(line, told["edits"], type(player).__name__)

    def compare(self, line, edits, kind):
        document = self.watchers[line["epoch"]].at(line["rev"])
        if document is None:
            return
        self.counts["moments"] += 1
        view = line["view"]
        if line["confirmed"] != shows(document, view):
            raise Wrong(
                f"{kind} has {line['confirmed']} confirmed, and not {shows(document, view)} of "
                f"revision {line['rev']}"
            )
        waiting = [
            edits[k]["patch"]
            for k in range(line["asked"])
            if k not in line["back"] and self.waits(edits[k], line)
        ]
        if view not in WHOLE:
            return
        if line["pending"] != len(waiting):
            raise Wrong(f"{line['pending']} edits of {kind} wait, and not {waiting}")
        self.counts["with edits that wait"] += len(waiting) > 0
        wanted = shows(laid_over(document, waiting), view)
        if line["slots"] != wanted:
            raise Wrong(
                f"{kind} shows {line['slots']}, and not {wanted}, of {line['confirmed']} with "
                f"{waiting}"
            )

    def waits(self, edit, line):
        """Until the slots are of a revision that is not below that of its answer, or of a later
        run."""
        return edit["done"] is None or (edit["epoch"], edit["done"]) > (line["epoch"], line["rev"])


def shows(document, view):
    return [slot(document, shown) for shown in view]


def slot(document, shown):
    pointer = shown["size"] if isinstance(shown, dict) else shown
    part = document
    for token in pointer.split("/")[1:]:
        if isinstance(part, list) and token.isdigit() and int(token) < len(part):
            part = part[int(token)]
        elif isinstance(part, dict) and token in part:
            part = part[token]
        else:
            return []
    if not isinstance(shown, dict):
        return [part]
    return [len(part)] if isinstance(part, (dict, list)) else []


def laid_over(document, patches):
    for patch in patches:
        try:
            document = jsonpatch.apply_patch(document, patch)
        except (jsonpatch.JsonPatchException, jsonpatch.JsonPointerException):
            pass
    return document


async def main(seeds=20, first=1):
    program, node = os.environ["RELAY"], os.environ["NODE_WORDS"].split()
    begun = time.monotonic()
    for seed in range(int(first), int(first) + int(seeds)):
        player = Play(seed, program, node)
        try:
            await player.play()
        except Wrong as wrong:
            sys.exit(f"seed {seed}, edits that show at once: {wrong}")
        counts = ", ".join(f"{count} {word}" for word, count in player.counts.items())
        print(f"seed {seed}: {counts}", flush=True)
    print(f"{seeds} seeds of edits that show at once in {time.monotonic() - begun:.0f} seconds")


if __name__ == "__main__":
    asyncio.run(main(*sys.argv[1:]))
