"""Scripts for `relay script` that a test writes, and what is said to each name of them."""

import collections
import json

from support.relay import run
from support.wire import compact


def say(name, **request):
    return f"{name} say {compact(request)}"


def edit(name, patch):
    """The lines of an edit, the reply to which is drawn."""
    return [say(name, do="edit", id=1, patch=patch), f"{name} draw"]


def play(lines, *options):
    """The messages that each name drew."""
    ran = run(
        "script", *options, given="".join(f"{line}\n" for line in lines), check=True, timeout=None
    )
    told = collections.defaultdict(list)
    for line in ran.stdout.splitlines():
        name, _, answer = line.partition(" ")
        if answer.startswith("{"):
            told[name].append(json.loads(answer))
    return told
