"""The relay's part: a room, and one session that is played to the client (docs/PROTOCOL.md).
Nothing is said until it is drawn."""
import json
import jsonpatch
from driver import Failed, short

LARGEST = 2**53 - 1
HISTORY = 8
"""Revisions that the room can be resumed from."""
HEAVIEST = 65536
"""The most that a will weighs, about as many bytes as its text has."""
ON_THE_WAY = 31
"""Requests without a reply: with one more 32 replies could wait, and the relay would read nothing
until one was drawn."""


class Relay:
    knows_wills = True

    def __init__(self, document=None, epoch=7, rev=1):
        self.epoch, self.rev, self.documents = epoch, rev, {rev: document}
        self.close()

    @property
    def document(self):
        return self.documents[self.rev]

    def close(self):
        """The session ends with its connection. What is to become of its will, a case says."""
        self.view, self.replies, self.patches, self.due, self.will = None, [], [], False, []

    def open(self):
        self.close()
        self.replies.append({"epoch": self.epoch, "kind": "welcome", "rev": self.rev, "session": 1})

    def restart(self, document, epoch, rev=1):
        self.__init__(document, epoch, rev)

    def draw(self):
        """The next message; None if nothing waits."""
        if self.replies:
            return self.replies.pop(0)
        if self.patches:
            return self.patches.pop(0)
        if self.due:
            self.due = False
            return {"kind": "snapshot", "rev": self.rev, "view": shows(self.document, self.view)}
        return None

    # Requests.

    def hear(self, text):
        """Answers a request, and gives it."""
        request = json.loads(text)
        number = request.get("id") if isinstance(request, dict) else None
        if not is_count(number):
            raise Failed(f"a request whose id is no count: {short(text)}")
        if len(self.replies) >= ON_THE_WAY:
            raise Failed(f"a request while {ON_THE_WAY} are without a reply: {short(text)}")
        answers = {
            "edit": self._edit,
            "watch": self._watch,
            "resume": self._resume,
            "unwatch": self._unwatch,
            "will": self._will,
        }
        answers.get(request.get("do"), self._nothing)(number, request)
        return request

    def _nothing(self, number, request):
        self._refuse(number, "shape")

    def _refuse(self, number, fault, at=None, **more):
        self.replies.append({"at": at, "fault": fault, "id": number, "kind": "refused", **more})

    def _watch(self, number, request):
        view, at = request["view"], faulty(request["view"])
        if at is not None:
            return self._refuse(number, "pointer", at)
        self.view, self.patches, self.due = view, [], True
        self.replies.append({"id": number, "kind": "watching"})

    def _unwatch(self, number, request):
        self.view, self.patches, self.due = None, [], False
        self.replies.append({"id": number, "kind": "unwatched"})

    def _resume(self, number, request):
        epoch, rev, view = request["epoch"], request["rev"], request["view"]
        if not is_count(epoch) or not is_count(rev):
            raise Failed(f"a resume whose epoch or rev is no count: {request}")
        if self.view is not None:
            raise Failed("a resume on a connection that watches already")
        if epoch == self.epoch and rev > self.rev:
            return self._refuse(number, "future")
        self.view, self.patches = view, []
        self.due = epoch != self.epoch or rev not in self.documents
        how = "snapshot"
        if not self.due:
            patch = difference(shows(self.documents[rev], view), shows(self.document, view))
            self._put(patch)
            how = "patch" if patch else "nothing"
        self.replies.append({"how": how, "id": number, "kind": "resumed"})

    def _edit(self, number, request):
        if request.get("base", self.rev) != self.rev:
            return self._refuse(number, "stale", rev=self.rev)
        fault = self._do(request["patch"])
        if fault is not None:
            return self._refuse(number, fault, 0)
        self.replies.append({"id": number, "kind": "done", "rev": self.rev})

    def _will(self, number, request):
        if not self.knows_wills or "base" in request:
            return self._refuse(number, "shape")
        if len(text(request["patch"])) > HEAVIEST:
            return self._refuse(number, "too-heavy")
        self.will = request["patch"]
        self.replies.append({"id": number, "kind": "willing"})

    # Edits.

    def _do(self, patch):
        """Gives the fault by which it is refused; None if it is done."""
        try:
            self.become(jsonpatch.apply_patch(self.document, patch))
        except jsonpatch.JsonPatchTestFailed:
            return "test-failed"
        except (jsonpatch.JsonPatchException, jsonpatch.JsonPointerException):
            return "missing"
        return None

    def do_will(self, patch):
        """Of a session that has ended: an edit that nobody is answered."""
        if patch:
            self._do(patch)

    def edit(self, *operations):
        """Another client's edit."""
        self.become(jsonpatch.apply_patch(self.document, list(operations)))

    def become(self, document):
        before = self.document
        self.rev += 1
        self.documents[self.rev] = document
        self.documents.pop(self.rev - HISTORY, None)
        if self.view is not None and not self.due:
            self._put(difference(shows(before, self.view), shows(document, self.view)))

    def fold(self):
        """So many patches wait that a snapshot is due in their place."""
        self.patches, self.due = [], True

    def _put(self, patch):
        if patch:
            self.patches.append({"kind": "patch", "patch": patch, "rev": self.rev})


def is_count(value):
    return isinstance(value, int) and not isinstance(value, bool) and 0 <= value <= LARGEST


def faulty(view):
    pointers = [shown if isinstance(shown, str) else shown["size"] for shown in view]
    wrong = (pointer and not pointer.startswith("/") for pointer in pointers)
    return next((place for place, is_wrong in enumerate(wrong) if is_wrong), None)


def shows(document, view):
    """The slots of a view."""
    return [slot(document, shown) for shown in view]


def slot(document, shown):
    missing = object()
    pointer = shown if isinstance(shown, str) else shown["size"]
    found = jsonpatch.JsonPointer(pointer).resolve(document, missing)
    if isinstance(shown, str):
        return [] if found is missing else [found]
    return [len(found)] if isinstance(found, (list, dict)) else []


def difference(before, after):
    """A patch that leads from one list of slots to the other: within a slot's value, if it is still
    that value."""
    patch = []
    for place, (one, other) in enumerate(zip(before, after)):
        if text(one) == text(other):
            continue
        if one and other and type(one[0]) is type(other[0]) and isinstance(one[0], (dict, list)):
            patch += within(one[0], other[0], f"/{place}/0") or replaced(f"/{place}", other)
        else:
            patch += replaced(f"/{place}", other)
    return patch


def within(before, after, path):
    """A patch that leads from one value to the other, part by part."""
    if text(before) == text(after):
        return []
    if isinstance(before, dict) and isinstance(after, dict):
        patch = [removed(path + token(name)) for name in before if name not in after]
        patch += [added(path + token(name), after[name]) for name in after if name not in before]
        for name in before:
            if name in after:
                patch += within(before[name], after[name], path + token(name))
        return patch
    if isinstance(before, list) and isinstance(after, list):
        pairs = list(enumerate(zip(before, after)))
        if len(before) == len(after):
            return sum([within(*pair, f"{path}/{place}") for place, pair in pairs], [])
        # From the first element that is another one on: those that were there go, and those that
        # are there come.
        others = (place for place, (one, other) in pairs if text(one) != text(other))
        start = next(others, len(pairs))
        patch = [removed(f"{path}/{start}") for _ in before[start:]]
        places = enumerate(after[start:], start)
        return patch + [added(f"{path}/{place}", value) for place, value in places]
    return replaced(path, after)


def removed(path):
    return {"op": "remove", "path": path}


def added(path, value):
    return {"op": "add", "path": path, "value": value}


def replaced(path, value):
    return [{"op": "replace", "path": path, "value": value}]


def token(name):
    return "/" + name.replace("~", "~0").replace("/", "~1")


def text(value):
    return json.dumps(value, sort_keys=True)
