"""Finds what the relay does with the cases, and what it tells a watcher of them."""
import json, subprocess


class Group:
    """Cases that come one after another in one room, with one view: what the watcher is told first,
    and the cases."""

    def __init__(self, group, answers):
        _, self.view, patches = group
        *_, snapshot, held = [next(answers) for _ in range(6)]
        self.snapshot, self.begun = rest(snapshot, 1), Held(held)
        self.cases, held = [], self.begun
        for patch in patches:
            _, verdict, told, after = [next(answers) for _ in range(4)]
            self.cases.append(
                Case(
                    self.view, held, patch, json.loads(rest(verdict, 1)), rest(told, 1), Held(after)
                )
            )
            held = self.cases[-1].held


class Case:
    """A patch, and what the relay does with it: whether it is accepted, and of a watcher what it
    was shown before, is told, and holds then."""

    def __init__(self, view, before, patch, verdict, text, held):
        self.view, self.patch, self.held = view, patch, held
        self.before, self.after = before.slots, held.slots
        self.accepted = verdict["kind"] == "done"
        self.text = None if text == "nothing" else text
        self.told = json.loads(text)["patch"] if self.text else []

    @property
    def asked(self):
        return self.view, self.before, self.patch, self.after


class Held:
    """The slots that a watcher holds, by the relay's own follower."""

    def __init__(self, line):
        self.rev, self.slots = int(line.split(" ")[2]), json.loads(rest(line, 3))


def rest(line, words):
    return line.split(" ", words)[words]


def relay_plays(program, groups):
    """An editor and a watcher in one room."""
    lines = ["e open r", "e draw", "w open r", "w draw"]
    for document, view, patches in groups:
        lines += [
            f"e say {request('edit', patch=[{'op': 'add', 'path': '', 'value': document}])}",
            "e draw",
        ]
        lines += [f"w say {request('watch', view=view)}", "w draw", "w draw", "w held"]
        for patch in patches:
            lines += [f"e say {request('edit', patch=patch)}", "e draw", "w draw", "w held"]
    ran = subprocess.run(
        [program, "script"],
        input="\n".join(lines),
        capture_output=True,
        text=True,
        check=True,
        timeout=900,
    )
    answers = iter(ran.stdout.splitlines()[4:])
    return [Group(group, answers) for group in groups]


def request(word, **members):
    return json.dumps({"do": word, "id": 1, **members}, ensure_ascii=False)
