"""The texts of tests/scripts: the requests with the relay's answers, the messages, and the slots
that somebody held."""

import collections
import json
import re

from support.relay import ROOT

FOLDER = ROOT / "tests/scripts"
OFF = re.compile(r"\w+ off ")
SLOTS = re.compile(r"(?:\w+ )?(?:held|truth) \d+ (\[.*)")


def lines(path):
    return path.read_bytes().decode(errors="replace").splitlines()


def is_followed(script):
    """True for a script of messages, which `relay follow` reads."""
    args = script.with_suffix(".args")
    return args.exists() and args.read_text().split()[0] == "follow"


def scripts(followed=False):
    return [it for it in sorted(FOLDER.glob("*.script")) if is_followed(it) == followed]


def answered(script):
    """Each line of a script that has an answer, and that answer."""
    asked = [it for it in lines(script) if it and not it.startswith("#")]
    answers = [it for it in lines(script.with_suffix(".out")) if not OFF.match(it)]
    assert len(asked) == len(answers), f"{script.stem}: {len(asked)} lines, {len(answers)} answers"
    return list(zip(asked, answers))


def exchanges(script):
    """Each request text of a script, with the reply to it, or None if nobody drew it."""
    waiting, replied = collections.defaultdict(collections.deque), []
    for line, answer in answered(script):
        name, _, words = line.partition(" ")
        if answer == f"{name} closed":
            replied += [(text, None) for text in waiting.pop(name, ())]
        elif answer.startswith(f"{name} answered"):
            waiting[name].append(words[len("say ") :])
        elif answer.startswith(f"{name} {{"):
            message = json.loads(answer.partition(" ")[2])
            if message["kind"] not in ("welcome", "patch", "snapshot"):
                replied.append((waiting[name].popleft(), message))
    return replied + [(text, None) for texts in waiting.values() for text in texts]


def requests():
    """Each request text of the scripts once, with the replies to it."""
    replies = collections.defaultdict(list)
    for script in scripts():
        for text, reply in exchanges(script):
            replies[text] += [reply] if reply else []
    return replies


def drawn():
    """Each message text that the relay writes in the scripts, once."""
    texts = {answer.partition(" ")[2] for script in scripts() for _, answer in answered(script)}
    return sorted(text for text in texts if text.startswith("{"))


def held():
    """The text of each list of slots that is held or shown in the scripts, once."""
    outs = [line for path in FOLDER.glob("*.out") for line in lines(path)]
    return sorted({found[1] for found in map(SLOTS.fullmatch, outs) if found})


def refused_by_followers():
    """The texts that a follower takes for no message."""
    return [
        line
        for script in scripts(followed=True)
        for line, answer in zip(
            filter(None, lines(script)), lines(script.with_suffix(".out")), strict=True
        )
        if answer == "off not-message"
    ]
