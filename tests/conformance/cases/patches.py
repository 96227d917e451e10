"""Patches lead the slots held to other ones (RFC 6902)."""
from .common import CARDS, begun, case, push, replace


@case("Patches change the slots that they name, and leave the others.")
def patches_change_what_is_held(driver):
    view = ["/cards", "/n", {"size": "/players"}, "/none"]
    play = begun(driver, view)
    for operation in [
        push("bread"),
        {"op": "add", "path": "/cards/0", "value": {"a": [1]}},
        {"op": "add", "path": "/cards/0/a/0", "value": {}},
        {"op": "remove", "path": "/cards/1"},
        replace("/n", [None]),
        {"op": "add", "path": "/players/bob", "value": 0},
        {"op": "add", "path": "/none", "value": {"a/b": {"m~n": 1}}},
        replace("/none/a~1b/m~0n", 2),
        {"op": "remove", "path": "/cards"},
    ]:
        play.relay.edit(operation)
        play.draw()
        play.holds_present(view)


@case("Each operation does what the RFC says: `add`, `remove`, `replace`, `move` and `copy`.")
def all_operations_of_a_patch(driver):
    play = begun(driver, ["/cards", "/n"])
    for rev, (patch, slots) in enumerate(
        [
            ([{"op": "move", "from": "/0/0/0", "path": "/0/0/1"}], [[["tea", "milk"]], [1]]),
            (
                [{"op": "copy", "from": "/0/0/1", "path": "/0/0/0"}],
                [[["milk", "tea", "milk"]], [1]],
            ),
            (
                [{"op": "add", "path": "/0/0/3", "value": {"x": {"y": []}}}],
                [[["milk", "tea", "milk", {"x": {"y": []}}]], [1]],
            ),
            (
                [{"op": "add", "path": "/0/0/3/x/y/0", "value": 7}],
                [[["milk", "tea", "milk", {"x": {"y": [7]}}]], [1]],
            ),
            (
                [{"op": "copy", "from": "/0/0/3/x", "path": "/0/0/3/z"}],
                [[["milk", "tea", "milk", {"x": {"y": [7]}, "z": {"y": [7]}}]], [1]],
            ),
            (
                [{"op": "add", "path": "/0/0/3/z/y/1", "value": 8}],
                [[["milk", "tea", "milk", {"x": {"y": [7]}, "z": {"y": [7, 8]}}]], [1]],
            ),
            (
                [{"op": "move", "from": "/0/0/3/z", "path": "/0/0/3/x"}],
                [[["milk", "tea", "milk", {"x": {"y": [7, 8]}}]], [1]],
            ),
            (
                [replace("/0/0/3/x/y/1", None)],
                [[["milk", "tea", "milk", {"x": {"y": [7, None]}}]], [1]],
            ),
            (
                [{"op": "remove", "path": "/0/0/3/x"}, {"op": "remove", "path": "/0/0/1"}],
                [[["milk", "milk", {}]], [1]],
            ),
            ([replace("/1", []), replace("/0", [0])], [[0], []]),
        ],
        start=2,
    ):
        play.say({"kind": "patch", "patch": patch, "rev": rev})
        play.holds(["/cards", "/n"], slots, rev)


@case("In a list `-` is the place behind the last element, and in an object a member's name.")
def a_patch_may_add_at_the_end(driver):
    play = begun(driver, document={"cards": [[], {}]})
    patch = [
        {"op": "add", "path": "/0/0/-", "value": "a"},
        {"op": "add", "path": "/0/0/0/-", "value": 1},
        {"op": "copy", "from": "/0/0/0", "path": "/0/0/-"},
        {"op": "add", "path": "/0/0/1/-", "value": 2},
        {"op": "move", "from": "/0/0/0", "path": "/0/0/-"},
    ]
    play.say({"kind": "patch", "patch": patch, "rev": 2})
    play.holds(CARDS, [[[{"-": 2}, "a", [1], [1]]]], 2)


@case(
    "A `copy` adds another value: within the same patch too, what is done to one of the two leaves "
    "the other."
)
def a_copy_is_another_value(driver):
    play = begun(driver, document={"cards": [{"x": {"y": []}}]})
    patch = [
        # What this patch changed already is copied, and then the copy is changed, and then the
        # original.
        {"op": "add", "path": "/0/0/0/x/y/0", "value": 1},
        {"op": "copy", "from": "/0/0/0", "path": "/0/0/1"},
        {"op": "add", "path": "/0/0/1/x/y/1", "value": 2},
        {"op": "add", "path": "/0/0/0/x/z", "value": 3},
        # A part of it is copied within it.
        {"op": "copy", "from": "/0/0/0/x", "path": "/0/0/0/w"},
        replace("/0/0/0/w/y/0", 4),
        {"op": "remove", "path": "/0/0/0/w/z"},
        # A copy of a copy.
        {"op": "copy", "from": "/0/0/1", "path": "/0/0/2"},
        {"op": "add", "path": "/0/0/2/x/y/0", "value": 5},
    ]
    wanted = [
        {"x": {"y": [1], "z": 3}, "w": {"y": [4]}},
        {"x": {"y": [1, 2]}},
        {"x": {"y": [5, 1, 2]}},
    ]
    play.say({"kind": "patch", "patch": patch, "rev": 2})
    play.holds(CARDS, [[wanted]], 2)


@case(
    "A value that is added twice is two values, and a value that moved is changed where it stands "
    "now."
)
def values_of_a_patch_are_its_own(driver):
    play = begun(driver, document={"cards": [[]]})
    patch = [
        {"op": "add", "path": "/0/0/1", "value": {"y": []}},
        {"op": "add", "path": "/0/0/2", "value": {"y": []}},
        {"op": "add", "path": "/0/0/1/y/0", "value": 1},
        {"op": "move", "from": "/0/0/2", "path": "/0/0/0/0"},
        {"op": "add", "path": "/0/0/0/0/y/0", "value": 2},
    ]
    play.say({"kind": "patch", "patch": patch, "rev": 2})
    play.holds(CARDS, [[[[{"y": [2]}], {"y": [1]}]]], 2)


@case("A patch may have more operations than an edit, and longer paths.")
def long_patches_and_deep_paths(driver):
    deep = []
    for _ in range(61):
        deep = [deep]
    play = begun(driver, [""], {"cards": deep})
    path = "/0/0/cards" + "/0" * 61  # with an element's index behind it 65 tokens
    numbers = list(range(500))
    added = [{"op": "add", "path": f"{path}/{place}", "value": place} for place in numbers]
    play.say({"kind": "patch", "patch": added, "rev": 2})
    wanted = numbers
    for _ in range(61):
        wanted = [wanted]
    play.holds([""], [[{"cards": wanted}]], 2)


@case(
    "A patch whose revision is not above the one held does not follow from it: nothing of it is "
    "applied, and the client watches anew."
)
def an_older_patch_is_not_applied(driver):
    play = begun(driver)
    play.relay.edit(push("bread"))
    [patch] = play.draw()
    play.say(patch)
    play.holds_present(CARDS)
    play.asks_anew()
    play.talk()
    play.holds_present(CARDS)


@case(
    "A patch that does not fit the slots is applied in no part, and is not passed over either: the "
    "client watches anew."
)
def a_patch_that_does_not_fit_is_not_applied(driver):
    play = begun(driver)
    play.say(
        {
            "kind": "patch",
            "patch": [{"op": "remove", "path": "/0/0/0"}, {"op": "remove", "path": "/0/0/9"}],
            "rev": 5,
        }
    )
    play.holds(CARDS, [[["milk", "tea"]]], 1)
    play.relay.edit(push("bread"))
    play.asks_anew()
    play.talk()
    play.holds_present(CARDS)


@case(
    "Each way in which an operation does not fit is seen: nothing there, a place past the end, no "
    "container, no index, no pointer."
)
def each_misfit_is_seen(driver):
    play = begun(driver)
    for operation in [
        replace("/0/0/2", "x"),
        {"op": "add", "path": "/0/0/3", "value": "x"},
        {"op": "add", "path": "/0/0/x", "value": "x"},
        {"op": "add", "path": "/0/0/01", "value": "x"},
        replace("/0/0/00", "x"),
        {"op": "remove", "path": "/0/0/+1"},
        {"op": "copy", "from": "/0/0/-0", "path": "/0/0/0"},
        {"op": "add", "path": "/0/0/18446744073709551616", "value": "x"},
        replace("x/0/0/1", "x"),
        {"op": "move", "from": "0/0/0", "path": "/0/0/1"},
        {"op": "add", "path": "/0/0/0/a", "value": "x"},
        {"op": "move", "from": "/0/0/2", "path": "/0/0/0"},
        {"op": "copy", "from": "/1", "path": "/0/0/0"},
    ]:
        play.say({"kind": "patch", "patch": [operation], "rev": play.relay.rev + 1})
        play.holds_present(CARDS)
        play.relay.edit(replace("/cards/1", operation))
        play.asks_anew()
        play.talk()
        play.holds_present(CARDS)


@case("An operation on a member that is not there does not fit: `replace` adds none.")
def each_misfit_in_an_object_is_seen(driver):
    play = begun(driver, document={"cards": {"a": 1}})
    for operation in [
        replace("/0/0/b", "x"),
        replace("/0/0/__proto__", "x"),
        {"op": "remove", "path": "/0/0/b"},
        {"op": "remove", "path": "/0/0/A"},
        {"op": "remove", "path": "/0/0/toString"},
        {"op": "move", "from": "/0/0/b", "path": "/0/0/c"},
        {"op": "copy", "from": "/0/0/constructor", "path": "/0/0/c"},
        {"op": "add", "path": "/0/0/b/c", "value": "x"},
        {"op": "add", "path": "/0/0/a/0", "value": "x"},
    ]:
        play.say({"kind": "patch", "patch": [operation], "rev": play.relay.rev + 1})
        play.holds_present(CARDS)
        play.relay.edit(replace("/cards/a", operation["path"]))
        play.asks_anew()
        play.talk()
        play.holds_present(CARDS)
