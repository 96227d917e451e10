"""Edits: changed lines, with what they stand for, as CONTRIBUTING.md says of must-fail edits."""

import collections

Change = collections.namedtuple("Change", "file old new")


def read(path):
    """The words of an edit's `# WORD: ..` lines, by word, and its changes."""
    words, changes, file, old = {}, [], None, None
    for line in path.read_text().splitlines():
        word, _, rest = line.partition(":")
        rest = rest.removeprefix(" ")
        if word == "file":
            file = rest
        elif word == "old":
            old = rest
        elif word == "new":
            changes.append(Change(file, old, rest))
        else:
            words[word.removeprefix("# ")] = rest
    return words, tuple(changes)


def plant(name, changes, root):
    """Makes the changes in the files below a folder."""
    for file, old, new in changes:
        text = (root / file).read_text()
        if text.count(old) != 1:
            raise SystemExit(f"{name}: `{old}` stands {text.count(old)} times in {file}")
        (root / file).write_text(text.replace(old, new))
