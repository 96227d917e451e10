"""Random documents, views and patches: small, with few names, so that pointers often meet. Most
patches can be applied."""
import os, sys

ROOT = os.path.dirname(os.path.dirname(os.path.dirname(os.path.abspath(__file__))))
sys.path.insert(0, f"{ROOT}/clients/python")
from relay_client.known import step
from relay_client.patch import DoesNotFit

NAMES = ["a", "b", "c", "0", "1", "2", "-", "a/b", "m~n", "", "ä"]
SCALARS = [None, True, False, 0, 1, -7, 2**53 - 1, "", "x", "ä~/"]
SLOTS = 4
OPERATIONS = 4
PATCHES = 5


def group(chance):
    """A document, a view, and patches that come one after another."""
    document = present = value(chance, 4)
    view = [shown(chance, document) for _ in range(chance.randint(1, SLOTS))]
    patches = []
    for _ in range(PATCHES):
        patch, present = patched(chance, present)
        patches.append(patch)
    return document, view, patches


def value(chance, depth):
    kind = chance.random()
    if depth == 0 or kind < 0.2:
        return chance.choice(SCALARS)
    if kind < 0.6:
        return [value(chance, depth - 1) for _ in range(chance.randint(0, 4))]
    return {chance.choice(NAMES): value(chance, depth - 1) for _ in range(chance.randint(0, 4))}


def shown(chance, document):
    place = spelled(walk(chance, document))
    return {"size": place} if chance.random() < 0.2 else place


def walk(chance, document, stop=0.2):
    """A way down the document, which leads astray now and then."""
    path = []
    while chance.random() > stop:
        if isinstance(document, dict) and document and chance.random() < 0.9:
            token = chance.choice(list(document))
            document = document[token]
        elif isinstance(document, list) and chance.random() < 0.95:
            place = chance.randint(0, len(document))
            token = str(place) if place < len(document) or chance.random() < 0.5 else "-"
            document = document[place] if place < len(document) else None
        elif isinstance(document, (dict, list)) or chance.random() < 0.1:
            token, document = chance.choice(NAMES), None
        else:
            break
        path.append(token)
    return path


def spelled(path):
    return "".join("/" + token.replace("~", "~0").replace("/", "~1") for token in path)


def at(document, pointer):
    """The value at a pointer that leads to one; else a value that is nowhere."""
    for token in pointer.split("/")[1:]:
        token = token.replace("~1", "/").replace("~0", "~")
        try:
            document = document[int(token) if isinstance(document, list) else token]
        except (KeyError, IndexError, ValueError, TypeError):
            return "nowhere"
    return document


def patched(chance, document):
    """A patch, and the document after it."""
    present, operations = document, []
    for _ in range(chance.choice([1, 1, 2, OPERATIONS])):
        for _ in range(4):
            one = operation(chance, present)
            try:
                after = step(present, one)
                break
            except DoesNotFit:
                # Another one mostly, so that patches with several operations are accepted.
                after = None
        operations.append(one)
        if after is None:
            return operations, document
        present = after
    return operations, present


def operation(chance, document):
    op = chance.choice(
        ["add", "add", "add", "remove", "remove", "replace", "move", "move", "copy", "test"]
    )
    path = spelled(walk(chance, document, 0.15))
    if op == "remove":
        return {"op": op, "path": path}
    if op == "test":
        return {
            "op": op,
            "path": path,
            "value": at(document, path) if chance.random() < 0.9 else value(chance, 1),
        }
    if op in ("move", "copy"):
        return {"op": op, "from": spelled(walk(chance, document, 0.15)), "path": path}
    return {"op": op, "path": path, "value": value(chance, 2)}
