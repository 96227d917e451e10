"""Cases of what a later relay may say."""
from .common import CARDS, back, begun, case, push

LATER = {"later": {"op": "remove", "path": ""}, "zone": [None]}
"""Members that no message has today."""


@case(
    "A `fault` that the client does not know is a refusal like any other: it ends the request that "
    "it answers, by its own word."
)
def an_unknown_fault_is_a_refusal(driver):
    play = begun(driver)
    keys = [play.edit(push("a")), play.edit(push("b"))]
    play.asked("edit", "edit")
    play.relay.replies[0] = {
        "at": 0,
        "fault": "unheard-of",
        "id": play.relay.replies[0]["id"],
        "kind": "refused",
    }
    play.draw(1)
    play.ended(keys[0], refused="unheard-of", at=0)
    play.has_not_ended(keys[1])
    play.draw(1)
    play.ended(keys[1], done=3)


@case("A view that is refused by an unknown `fault` is refused, and the one before it stays.")
def a_view_is_refused_by_an_unknown_fault(driver):
    play = begun(driver)
    key = play.watch(["/n", "n"])
    play.asked("watch")
    play.relay.replies[0]["fault"] = "unheard-of"
    play.draw()
    play.ended(key, refused="unheard-of", at=1)
    play.relay.edit(push("bread"))
    play.talk()
    play.holds_present(CARDS)


@case("Members that the client does not know are ignored, in each message and in each operation.")
def unknown_members_are_ignored(driver):
    play = begun(driver)
    play.more = LATER
    key = play.edit(push("bread"))
    play.asked("edit")
    play.draw()
    play.ended(key, done=2)
    play.holds_present(CARDS)
    play.say(
        {
            "kind": "patch",
            "patch": [{"op": "remove", "path": "/0/0/2", "value": 7, "from": "/1", "later": []}],
            "rev": 3,
        }
    )
    play.holds(CARDS, [[["milk", "tea"]]], 3)
    play.relay.edit({"op": "remove", "path": "/cards/2"})
    play.cut()
    play.relay.edit(push("salt"))
    back(play)
    play.draw()
    play.holds_present(CARDS)
    key = play.watch(["/n"])
    play.asked("watch")
    play.draw()
    play.ended(key, shown=[[1]])
    play.holds_present(["/n"])
