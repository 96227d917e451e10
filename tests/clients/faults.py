#!/usr/bin/env python3
"""The clients say what to do for each word of a fault: those of docs/PROTOCOL.md, and the two that
are a client's own, and all four clients say the same: faults.py [NAME..]"""
import asyncio
import pathlib
import re
import sys

sys.path.append(str(pathlib.Path(__file__).resolve().parents[1]))
from support import protocol
from support.play import play, shows
from support.relay import ROOT

OWN = {"away", "changed"}
TABLES = {
    "javascript/src/advice.mjs": r'^  "?([a-z-]+)"?: "(.*)",$',
    "python/relay_client/advice.py": r'^    "([a-z-]+)": "(.*)",$',
    "go/advice.go": r'^\t"([a-z-]+)": +"(.*)",$',
    "java/src/relay/client/Advice.java": r"^            ([a-z-]+): (.*)$",
}


def table(path):
    return re.findall(TABLES[path], (ROOT / "clients" / path).read_text(), re.MULTILINE)


@shows
def each_word_of_the_protocol_has_advice_and_no_other():
    wanted = {*protocol.faults(), *OWN}
    assert len(wanted) > 20, wanted
    for path in TABLES:
        there = [word for word, _ in table(path)]
        assert set(there) == wanted, f"{path}: {set(there) ^ wanted}"
        assert len(there) == len(wanted), f"{path} has a word twice"


@shows
def all_clients_say_the_same():
    first, *others = [dict(table(path)) for path in TABLES]
    for other in others:
        assert other == first, set(other.items()) ^ set(first.items())


if __name__ == "__main__":
    sys.exit(asyncio.run(play(names=sys.argv[1:])))
