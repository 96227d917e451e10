"""A patch copies each container once, and writes to nothing that somebody else holds."""
import copy, random, time, unittest
import fake  # puts the package on the path
from relay_client.known import after
from relay_client.patch import DoesNotFit, applied

MEMBERS = 18_000


def add(path, value):
    return {"op": "add", "path": path, "value": value}


def copied(origin, path):
    return {"op": "copy", "from": origin, "path": path}


def moved(origin, path):
    return {"op": "move", "from": origin, "path": path}


ROWS = [
    (
        "a container at two places, changed at the second",
        {"a": [1]},
        [copied("/a", "/b"), add("/b/-", 2)],
        {"a": [1], "b": [1, 2]},
    ),
    (
        "and at the first",
        {"a": [1]},
        [add("/a/-", 2), copied("/a", "/b"), add("/a/-", 3)],
        {"a": [1, 2, 3], "b": [1, 2]},
    ),
    (
        "what is within it",
        {"a": {"x": [1]}},
        [add("/a/x/-", 2), copied("/a", "/b"), add("/a/x/-", 3), add("/b/x/-", 4)],
        {"a": {"x": [1, 2, 3]}, "b": {"x": [1, 2, 4]}},
    ),
    (
        "a container copied into itself",
        {"a": [1]},
        [add("/a/-", 2), copied("/a", "/a/-"), add("/a/2/-", 3)],
        {"a": [1, 2, [1, 2, 3]]},
    ),
    ("a value of the patch", {}, [add("/a", [1]), add("/a/-", 2)], {"a": [1, 2]}),
    (
        "a container that moves",
        {"a": {"x": [1]}},
        [add("/a/x/-", 2), moved("/a/x", "/b"), add("/b/-", 3), add("/a/y", 4)],
        {"a": {"y": 4}, "b": [1, 2, 3]},
    ),
    (
        "a copy in place of what holds it",
        {"a": {"x": [1]}},
        [add("/a/x/-", 2), copied("/a/x", "/a"), add("/a/-", 3)],
        {"a": [1, 2, 3]},
    ),
]


class Writes(unittest.TestCase):
    def test_containers_that_stand_at_two_places(self):
        for name, before, patch, wanted in ROWS:
            with self.subTest(name):
                self.check(before, patch)
                self.assertEqual(applied(before, patch), wanted)

    def test_a_value_of_the_patch_that_stands_at_two_places(self):
        value = [[]]
        self.assertEqual(
            applied({}, [add("/a", value), add("/b", value), add("/a/0/-", 1)]),
            {"a": [[1]], "b": [[]]},
        )
        self.assertEqual(value, [[]])

    def test_random_patches(self):
        for seed in range(3000):
            chance = random.Random(seed)
            document = {"a": {"a": [1, [2]], "b": {}}, "b": [[], {"a": 3}]}
            with self.subTest(seed=seed):
                self.check(document, [random_operation(chance) for _ in range(12)])

    def check(self, before, patch):
        """Done as one patch, it comes to what its operations come to that are done one by one, and
        what was there is as it was."""
        one_by_one, fitting = before, []
        for operation in patch:
            try:
                one_by_one = applied(one_by_one, [operation])
                fitting.append(operation)
            except DoesNotFit:
                pass
        there = copy.deepcopy((before, fitting))
        for whole in (applied, after):
            self.assertEqual(whole(before, fitting), one_by_one)
            self.assertEqual((before, fitting), there)
            self.assertEqual(whole(before, fitting), one_by_one)


def random_operation(chance):
    token = lambda: chance.choice(["a", "b", "0", "1", "-"])
    path = lambda: "".join(f"/{token()}" for _ in range(chance.choice([0] + 7 * [1, 2, 3])))
    op = chance.choice(["add", "add", "remove", "replace", "move", "copy", "copy"])
    value = chance.choice([1, [], {}, [[1]], {"a": [2]}])
    return {"op": op, "path": path(), "from": path(), "value": copy.deepcopy(value)}


class Copies(unittest.TestCase):
    def test_many_operations_on_a_large_object_cost_few_copies_of_it(self):
        document = {f"m{number}": number for number in range(MEMBERS)}
        removals = [{"op": "remove", "path": f"/m{number}"} for number in range(64)]
        one, many = (
            min(self.seconds(document, patch) for _ in range(7))
            for patch in (removals[:1], removals)
        )
        self.assertLess(many, 24 * one)

    def seconds(self, document, patch):
        began = time.perf_counter()
        applied(document, patch)
        return time.perf_counter() - began


if __name__ == "__main__":
    unittest.main()
