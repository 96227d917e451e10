"""Drafts: what their patches lead to, what their guards refuse, and how small they are."""
import copy, json, random, unittest
from fake import relay_client  # which has the package found
from relay_client.draft import Draft, DraftList, DraftObject
from relay_client.guard import guarded
from relay_client.known import known_by
from relay_client.patch import DoesNotFit, applied

ROUNDS = 3000
NAMES = ["a", "b", "c", "k/~"]
SCALARS = [0, 1, 2, "a", "b", "", None, True]
LISTS = (list, DraftList)
OBJECTS = (dict, DraftObject)


def drafted(document, make, guard="values"):
    """Returns what a function makes of a document: by a draft, and by itself."""
    draft, plain = Draft(known_by([""], [[document]])), copy.deepcopy(document)
    make(draft.at(()))
    make(plain)
    return guarded(draft, guard), plain


def lead(document, patch):
    try:
        return applied(document, patch)
    except DoesNotFit:
        return None


def value(chance, depth):
    kind = chance.randrange(4) if depth else 0
    if kind < 2:
        return chance.choice(SCALARS)
    if kind == 2:
        return [value(chance, depth - 1) for _ in range(chance.randrange(5))]
    return {name: value(chance, depth - 1) for name in NAMES[: chance.randrange(5)]}


def document(chance):
    return {
        "list": [value(chance, 0) for _ in range(chance.randrange(6))],
        "cards": [value(chance, 2) for _ in range(chance.randrange(6))],
        "people": {name: value(chance, 2) for name in NAMES if chance.random() < 0.5},
        "title": chance.choice(SCALARS),
    }


def text(part):
    """By which all sort alike."""
    return repr(part)


class Steps:
    """One step of a change, the same each time for the same document."""

    def __init__(self, chance):
        names = [name for name in dir(self) if name.startswith("do_")]
        self.name = chance.choice(names)
        self.a, self.b, self.c, self.d = (chance.randrange(1000) for _ in range(4))
        self.made = value(chance, 2)

    def __call__(self, document):
        getattr(self, self.name)(document)

    def list(self, document):
        looks = ["list", "cards", "people", "list"]
        part = document.get(looks[self.a % 4])
        if isinstance(part, OBJECTS):
            part = part.get("a")
        return part if isinstance(part, LISTS) else []

    def object(self, document):
        part = document.get("people") if self.a % 2 else next(iter(self.list(document)), None)
        return part if isinstance(part, OBJECTS) else {}

    def do_append(self, document):
        self.list(document).append(copy.deepcopy(self.made))

    def do_insert(self, document):
        self.list(document).insert(self.c % 4, copy.deepcopy(self.made))

    def do_pop(self, document):
        part = self.list(document)
        if len(part):
            part.pop()

    def do_drop(self, document):
        part = self.list(document)
        if self.c % 5 < len(part):
            del part[self.c % 5]

    def do_slice(self, document):
        self.list(document)[self.c % 3 : self.d % 5] = [copy.deepcopy(self.made)]

    def do_cut(self, document):
        del self.list(document)[-(self.c % 3 + 1) :]

    def do_reverse(self, document):
        self.list(document).reverse()

    def do_sort(self, document):
        self.list(document).sort(key=text)

    def do_set_at(self, document):
        part = self.list(document)
        if self.c % 5 < len(part):
            part[self.c % 5] = copy.deepcopy(self.made)

    def do_rotate(self, document):
        part = self.list(document)
        if len(part):
            part.append(part.pop(0))

    def do_filter(self, document):
        document["list"] = [part for part in self.list(document) if part != 1]

    def do_blind(self, document):
        document["list"] = [copy.deepcopy(self.made), "a"]

    def do_set(self, document):
        self.object(document)[NAMES[self.c % 4]] = copy.deepcopy(self.made)

    def do_default(self, document):
        self.object(document).setdefault(NAMES[self.c % 4], copy.deepcopy(self.made))

    def do_remove(self, document):
        self.object(document).pop(NAMES[self.c % 4], None)

    def do_same(self, document):
        document["title"] = "a"

    def do_add(self, document):
        if type(document["title"]) is int:
            document["title"] += 1

    def do_count(self, document):
        document["count"] = len(self.object(document))

    def do_find(self, document):
        part, wanted = self.list(document), SCALARS[self.c % 8]
        for at, found in enumerate(part):
            if type(found) is type(wanted) and found == wanted:
                del part[at]
                break

    def do_across(self, document):
        part = self.list(document)
        if len(part):
            document.setdefault("moved", []).append(part.pop(0))

    def do_rename(self, document):
        part = self.object(document)
        if NAMES[self.c % 4] in part:
            part[NAMES[self.d % 4]] = part.pop(NAMES[self.c % 4])

    def do_swap(self, document):
        part = self.list(document)
        if len(part) > 1:
            one, other = self.c % len(part), self.d % len(part)
            part[one], part[other] = part[other], part[one]


def change(chance):
    steps = [Steps(chance) for _ in range(chance.randint(1, 4))]

    def make(document):
        for step in steps:
            step(document)

    make.words = [(step.name, step.a, step.c, step.d, step.made) for step in steps]
    return make


def paths(part, path=""):
    if path:
        yield path, part
    parts = (
        part.items()
        if isinstance(part, dict)
        else enumerate(part)
        if isinstance(part, list)
        else ()
    )
    for name, below in parts:
        yield from paths(below, path + "/" + str(name).replace("~", "~0").replace("/", "~1"))


def other_edit(chance, document):
    """An edit that somebody else does. It makes no list of an object and no object of a list, which
    no test of a guard says."""
    path, part = chance.choice(list(paths(document)))
    made = value(chance, 1)
    if isinstance(part, list) and chance.random() < 0.7:
        return {"op": "add", "path": f"{path}/{chance.randint(0, len(part))}", "value": made}
    if isinstance(part, dict) and chance.random() < 0.7:
        name = chance.choice(NAMES).replace("~", "~0").replace("/", "~1")
        return {"op": "add", "path": f"{path}/{name}", "value": made}
    if isinstance(part, (list, dict)) and type(made) is not type(part):
        return {"op": "remove", "path": path}
    return {"op": "replace", "path": path, "value": made}


class Carries:
    """Takes parts out of a document, changes some of them, and puts most of them in at other
    places, which may be within one another."""

    def __init__(self, chance, document):
        plain, self.steps = copy.deepcopy(document), []
        for number in range(chance.randrange(1, 5)):
            full = [path for path in containers(plain) if len(part_at(plain, path))]
            if not full:
                break
            path = chance.choice(full)
            part = part_at(plain, path)
            name = chance.choice(list(part) if isinstance(part, dict) else range(len(part)))
            taken = part.pop(name)
            to = chance.choice(list(containers(plain))) if chance.randrange(5) else None
            marked = (chance.randrange(3) == 0, chance.randrange(3) == 0)
            step = (path, name, to, chance.randrange(4), marked, number)
            self.put(plain, taken, step)
            self.steps.append(step)

    def __call__(self, document):
        for step in self.steps:
            path, name = step[:2]
            self.put(document, part_at(document, path).pop(name), step)

    @staticmethod
    def put(document, part, step):
        *_, to, place, (before, after), number = step
        if before:
            mark(part, number)
        if to is not None:
            holder = part_at(document, to)
            if isinstance(holder, LISTS):
                holder.insert(place, part)
            else:
                holder[NAMES[place]] = part
        if after:
            mark(part, number)


def containers(part, path=()):
    """The paths of the containers in a value."""
    if isinstance(part, (list, dict)):
        yield path
        for name, below in part.items() if isinstance(part, dict) else enumerate(part):
            yield from containers(below, (*path, name))


def part_at(document, path):
    for name in path:
        document = document[name]
    return document


def mark(part, number):
    if isinstance(part, LISTS):
        part.append(number)
    elif isinstance(part, OBJECTS):
        part["marked"] = number


def strict(part):
    """In which true is not 1."""
    return json.dumps(part, sort_keys=True)


class Drafts(unittest.TestCase):
    def test_the_patch_of_a_random_draft_leads_to_what_the_function_makes_of_the_value(self):
        for seed in range(ROUNDS):
            chance = random.Random(seed)
            before, make = document(chance), change(chance)
            kept = strict(before)
            for guard in ("values", "base", "none"):
                made, plain = drafted(before, make, guard)
                led = before if made is None else applied(before, made.patch)
                words = f"seed {seed}: {before} {make.words} {made}"
                self.assertEqual(strict(led), strict(plain), words)
                self.assertEqual(strict(before), kept, f"{words}: what was seen is written to")

    def test_parts_that_are_carried_elsewhere_are_there_once_as_they_are(self):
        for seed in range(ROUNDS):
            chance = random.Random(seed)
            before = document(chance)
            make = Carries(chance, before)
            for guard in ("values", "base", "none"):
                made, plain = drafted(before, make, guard)
                patch = made.patch if made else []
                words = f"seed {seed}: {before} {patch} {make.steps}"
                self.assertEqual(strict(applied(before, patch)), strict(plain), words)
                # The relay refuses a move into itself, also if another part stands there by then.
                moves = [one for one in patch if one["op"] == "move"]
                into = [one for one in moves if one["path"].startswith(f"{one['from']}/")]
                self.assertEqual(into, [], words)

    def test_if_the_guard_holds_on_another_document_the_patch_does_what_the_function_does(self):
        counts = {"held": 0, "refused": 0, "based": 0}
        for seed in range(ROUNDS):
            chance = random.Random(seed)
            before, make = document(chance), change(chance)
            other = applied(before, [other_edit(chance, before)])
            made, _ = drafted(before, make)
            if made is None or made.is_by_base:
                counts["based"] += 1
                continue
            led = lead(other, made.patch)
            counts["refused" if led is None else "held"] += 1
            if led is not None:
                plain = copy.deepcopy(other)
                make(plain)
                words = f"seed {seed}: {before} {other} {make.words} {made}"
                self.assertEqual(strict(led), strict(plain), words)
        self.assertGreater(min(counts["held"], counts["refused"]), ROUNDS / 10, counts)

    def test_a_patch_has_the_least_operations_and_moves_what_moved(self):
        before = {"a": ["x", "y", "z"], "b": [{"k": 1}, {"k": 2}], "o": {"m": [1]}, "n": 1}

        def operations(make, op=None):
            made, _ = drafted(before, make)
            patch = made.patch if made else []
            kept = [one for one in patch if (one["op"] == "test") is (op == "test")]
            return [
                " ".join(one[name] for name in ("op", "from", "path") if name in one)
                for one in kept
            ]

        def moved(d):
            d["p"] = d["o"].pop("m")

        for make, wanted, tests in [
            (lambda d: d["a"].append("v"), ["add /a/-"], []),
            (lambda d: d["a"].pop(1), ["remove /a/1"], ["test /a/1"]),
            (lambda d: d["a"].insert(0, d["a"].pop(2)), ["move /a/2 /a/0"], ["test /a"]),
            (lambda d: d["b"].insert(0, d["b"].pop(1)), ["move /b/1 /b/0"], ["test /b/1"]),
            (lambda d: d["a"].append(d["b"].pop(0)), ["move /b/0 /a/-"], ["test /b/0"]),
            (lambda d: d["b"][0].update(k=7), ["replace /b/0/k"], ["test /b/0"]),
            (lambda d: d.update(n=d["n"] + 1), ["replace /n"], ["test /n"]),
            (lambda d: d["a"].clear(), ["remove /a/2", "remove /a/1", "remove /a/0"], ["test /a"]),
            (lambda d: len(d["a"]), [], []),
        ]:
            self.assertEqual((operations(make), operations(make, "test")), (wanted, tests))
        self.assertEqual(operations(moved), ["move /o/m /p"])

    def test_a_patch_that_would_be_too_long_is_coarser(self):
        before = {"list": list(range(200))}
        made, plain = drafted(before, lambda d: d["list"].reverse())
        self.assertEqual((made.is_by_base, len(made.patch)), (True, 1))
        self.assertEqual(applied(before, made.patch), plain)

    def test_what_a_draft_cannot_be_is_said(self):
        draft = Draft(known_by(["/cards", "/people/ann", "/lists/0"], [[["milk"]], [], ["x"]]))
        root = draft.at(())
        self.assertEqual(
            (root["cards"][0], root["people"].get("ann"), root["lists"]["0"]), ("milk", None, "x")
        )
        with self.assertRaisesRegex(LookupError, "/title is not in the view"):
            root["title"]
        with self.assertRaises(LookupError):
            len(root)
        with self.assertRaises(LookupError):
            del root["lists"]["0"]
        with self.assertRaises(IndexError):
            root["cards"][5] = 1
        with self.assertRaises(ValueError):
            root["cards"][0] = 0.5
        with self.assertRaises(TypeError):
            root["people"]["ann"] = {1}
        root["people"]["ann"] = {"age": 3}
        made = guarded(draft, "values")
        self.assertEqual(made.patch, [{"op": "add", "path": "/people/ann", "value": {"age": 3}}])
        # No test says that nothing stood at a place of which the holder is not shown.
        self.assertTrue(made.is_by_base)
        with self.assertRaises(TypeError):
            Draft(known_by([""], [[5]]))


if __name__ == "__main__":
    unittest.main()
