"""Values, names and pointers arrive as they are."""
from driver import Failed
from .common import CARDS, begun, case, push, replace

LARGE = [2**53 + 1, -(2**53) - 1, 2**63 - 1, -(2**63)]
"""Numbers of 64 bits that floating point rounds."""


@case(
    "`null` is a value: its slot is `[null]`, and that of a pointer that leads to nothing is `[]`. "
    "A size is a number or nothing."
)
def null_and_absent_are_two_things(driver):
    view = ["/a", "/b", "", {"size": "/a"}, {"size": ""}, {"size": "/c"}]
    play = begun(driver, view, {"a": None, "c": [1, 2]})
    play.holds(view, [[None], [], [{"a": None, "c": [1, 2]}], [], [2], [2]], 1)


@case(
    "Texts, names and numbers within 2^53 are held as the relay wrote them, in snapshots and in "
    "patches."
)
def values_arrive_as_they_are(driver):
    document = {
        "": "",
        "a/b": "\\",
        "m~n": [[], {}, 'ä€😀\u0001"', 2**53 - 1, -(2**53) + 1, 0, True, False, None],
    }
    view = ["", "/", "/a~1b", "/m~0n/2"]
    play = begun(driver, view, document)
    play.relay.edit(
        {"op": "add", "path": "/m~0n/2", "value": "\u2028"}, {"op": "remove", "path": "/a~1b"}
    )
    play.draw()
    play.holds_present(view)


@case(
    "In a pointer `~1` becomes `/` first, and then `~0` becomes `~`: the token `~01` names the "
    "member `~1`, and `~00` the member `~0`."
)
def escapes_are_decoded_in_their_order(driver):
    view = ["/names", "/names/~01"]
    play = begun(driver, view, {"names": {"~1": 1, "/": 2, "~0": 3, "~": 4, "~01": 5}})
    play.say(
        {
            "kind": "patch",
            "patch": [replace("/0/0/~01", 10), replace("/0/0/~00", 30), replace("/1", [10])],
            "rev": 2,
        }
    )
    play.holds(view, [[{"~1": 10, "/": 2, "~0": 30, "~": 4, "~01": 5}], [10]], 2)
    play.say(
        {
            "kind": "patch",
            "patch": [
                replace("/0/0/~1", 20),
                replace("/0/0/~0", 40),
                {"op": "remove", "path": "/0/0/~001"},
            ],
            "rev": 3,
        }
    )
    play.holds(view, [[{"~1": 10, "/": 20, "~0": 30, "~": 40}], [10]], 3)


@case(
    "With another `~` than that of `~0` and `~1` a text is no pointer, so no operation fits by it."
)
def another_escape_is_no_pointer(driver):
    play = begun(driver, [""], {"~2": 1, "~": 2})
    for operation in [
        replace("/0/0/~2", 3),
        {"op": "add", "path": "/0/0/~", "value": 3},
        {"op": "copy", "from": "/0/0/~2", "path": "/0/0/a"},
    ]:
        play.say({"kind": "patch", "patch": [operation], "rev": play.relay.rev + 1})
        play.holds_present([""])
        play.asks_anew()
        play.talk()


@case(
    "A member may have any name, also one that means something to the client's language. What "
    "nobody wrote is not there."
)
def names_mean_nothing(driver):
    names = [
        "__proto__",
        "constructor",
        "length",
        "0",
        "-",
        "toString",
        "hasOwnProperty",
        "__class__",
    ]
    view = ["/names", "/empty", "/empty/constructor", "/empty/__proto__"]
    play = begun(
        driver,
        view,
        {"names": {name: {"a": place} for place, name in enumerate(names)}, "empty": {}},
    )
    for name in names:
        play.relay.edit(
            replace(f"/names/{name}/a", [name]),
            {"op": "add", "path": f"/names/{name}/b", "value": {name: 1}},
        )
        play.draw()
        play.holds_present(view)
    for name in names:
        play.relay.edit({"op": "remove", "path": f"/names/{name}"})
        play.relay.edit({"op": "add", "path": f"/empty/{name}", "value": {"a": 1}})
        play.draw()
        play.holds_present(view)


@case("Numbers of 64 bits are held digit by digit, in snapshots and in patches.", unless="rounding")
def large_numbers_are_held_exactly(driver):
    view = ["/large", "/one"]
    play = begun(driver, view, {"large": LARGE, "one": 1})
    for number in LARGE:
        play.relay.edit(
            replace("/one", number),
            {"op": "add", "path": "/large/0", "value": {"n": number - number // 2**62}},
        )
        play.draw()
        play.holds_present(view)


@case(
    "An edit with a number above 2^53 is sent digit by digit, or not at all: a client that rounds "
    "numbers does not take it."
)
def a_large_number_is_sent_exactly_or_not_at_all(driver):
    play = begun(driver)
    for number in LARGE:
        key = play.edit(push(number))
        sent = [request["patch"] for request in play.heard()]
        end = play.end_of(key)
        if sent not in ([], [[push(number)]]) or (not sent and "invalid" not in (end or {})):
            raise Failed(f"of an edit with {number} it sends {sent}, and the edit ends with {end}")
        play.draw()
    play.holds_present(CARDS)


@case("A message may have megabytes.")
def a_snapshot_of_megabytes_is_taken(driver):
    begun(driver, document={"cards": ["x" * 1000] * 3000})
