"""The words of docs/PROTOCOL.md, in the order of its lists and tables."""

import re

from support.relay import ROOT

PAGE = (ROOT / "docs/PROTOCOL.md").read_text()
WORD = r"`([a-z-]+)`"


def section(heading):
    """The text below the heading that begins so."""
    return re.search(rf"^## {heading}.*?\n(.*?)(?=^## |\Z)", PAGE, re.MULTILINE | re.DOTALL)[1]


def first_cells(text):
    """The words that stand first in the rows of a table."""
    return re.findall(rf"^\| {WORD} ", text, re.MULTILINE)


def faults():
    """The words of `fault`, in the paragraph that lists them."""
    listed = re.search(r"The words of `fault`: (.*?)Only a refusal with", PAGE, re.DOTALL)[1]
    return [word for word in re.findall(WORD, listed) if word != "base"]


def faults_of_form():
    """Those that a text can have before anything but the text is looked at."""
    checks = section("Requests").split("A text is checked in this order")[1]
    return {word for word in re.findall(WORD, checks) if word in faults()}


def requests():
    return first_cells(section("Requests"))


def operations():
    return first_cells(section("Patches"))


def messages():
    """The kind of each text of the table, and the names of its members."""
    texts = re.findall(r"^\|.*\| `(\{[^`]*\})`", section("Messages"), re.MULTILINE)
    return [
        (re.search('"kind":"([a-z]+)"', it)[1], set(re.findall('"([a-z]+)":', it))) for it in texts
    ]


def outcomes():
    """The words of `how`."""
    listed = re.search("H one of (.*?) \\|", PAGE)[1]
    return re.findall('`"([a-z]+)"`', listed)
