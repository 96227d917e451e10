"""Edits and their answers."""
from driver import Failed
from .common import CARDS, begun, case, push, replace


@case(
    "An edit is sent as it is. Its `done` ends it, and makes nothing newer that is held: that the "
    "patch does."
)
def an_edit_is_answered(driver):
    play = begun(driver)
    key = play.edit(push("bread"))
    [request] = play.asked("edit")
    if request["patch"] != [push("bread")] or request.get("base") is not None:
        raise Failed(f"it sends {request}")
    play.has_not_ended(key)
    play.draw(1)
    play.ended(key, done=2)
    play.holds(CARDS, [[["milk", "tea"]]], 1)
    play.draw(1)
    play.holds(CARDS, [[["milk", "tea", "bread"]]], 2)


@case(
    "An edit that touches no slot is done, and no message comes for it: the slots stay, and so "
    "does their revision."
)
def an_edit_elsewhere_leaves_what_is_held(driver):
    play = begun(driver)
    key = play.edit(replace("/n", 2))
    play.asked("edit")
    play.draw()
    play.ended(key, done=2)
    play.holds(CARDS, [[["milk", "tea"]]], 1)


@case(
    "An edit that makes no change, as a `move` to its own place, ends with its `done`: no patch "
    "comes that it could wait for."
)
def an_edit_without_a_change_is_done(driver):
    play = begun(driver)
    keys = [
        play.edit({"op": "move", "from": "/cards/0", "path": "/cards/0"}),
        play.edit({"op": "test", "path": "/cards/0", "value": "milk"}),
        play.edit(),
    ]
    play.asked("edit", "edit", "edit")
    play.draw()
    for rev, key in enumerate(keys, 2):
        play.ended(key, done=rev)
    play.holds(CARDS, [[["milk", "tea"]]], 1)
    play.relay.edit(push("bread"))
    play.draw()
    play.holds_present(CARDS)


@case(
    "A `done` may come before the patches of earlier revisions, which are applied in their order."
)
def done_may_come_before_earlier_patches(driver):
    play = begun(driver)
    key = play.edit(push("bread"))
    play.relay.edit(push("salt"))
    play.asked("edit")
    play.draw(1)
    play.ended(key, done=3)
    play.holds(CARDS, [[["milk", "tea"]]], 1)
    play.draw(1)
    play.holds(CARDS, [[["milk", "tea", "salt"]]], 2)
    play.draw(1)
    play.holds(CARDS, [[["milk", "tea", "salt", "bread"]]], 3)


@case("A refused edit ends with the fault and the place, and changes nothing.")
def a_refused_edit_changes_nothing(driver):
    play = begun(driver)
    key = play.edit({"op": "remove", "path": "/none"})
    play.asked("edit")
    play.draw()
    play.ended(key, refused="missing", at=0)
    play.holds(CARDS, [[["milk", "tea"]]], 1)


@case("Edits are sent in their order, and replies belong to them in that order.")
def replies_come_in_the_order_of_requests(driver):
    play = begun(driver)
    keys = [
        play.edit(push("a")),
        play.edit({"op": "remove", "path": "/none"}),
        play.edit(push("b")),
    ]
    requests = play.asked("edit", "edit", "edit")
    if [request["patch"][0].get("value") for request in requests] != ["a", None, "b"]:
        raise Failed(f"edits are not sent in their order: {requests}")
    play.draw(3)
    play.ended(keys[0], done=2)
    play.ended(keys[1], refused="missing")
    play.ended(keys[2], done=3)


@case("A refusal whose `id` is null answers the oldest request without an answer.")
def a_refusal_without_an_id_answers_the_oldest_request(driver):
    play = begun(driver)
    keys = [play.edit(push("a")), play.edit(push("b"))]
    play.asked("edit", "edit")
    play.relay.replies[0] = {"at": None, "fault": "too-long", "id": None, "kind": "refused"}
    play.draw(1)
    play.ended(keys[0], refused="too-long", at=None)
    play.has_not_ended(keys[1])
    play.draw(1)
    play.ended(keys[1], done=3)


@case(
    "An edit with a base is sent with it. If the room is past it, the edit ends as `stale`, with "
    "the room's revision."
)
def a_stale_edit_is_refused_with_the_revision(driver):
    play = begun(driver)
    play.relay.edit(replace("/n", 2))
    key = play.edit(push("bread"), base=1)
    [request] = play.asked("edit")
    if request.get("base") != 1:
        raise Failed(f"it sends no base: {request}")
    play.draw()
    play.ended(key, refused="stale", rev=2)
    # What is held is behind the room, and right.
    play.holds(CARDS, [[["milk", "tea"]]], 1)


@case("An edit whose base is the room's revision is done.")
def an_edit_on_its_base_is_done(driver):
    play = begun(driver)
    key = play.edit(push("bread"), base=1)
    play.asked("edit")
    play.draw()
    play.ended(key, done=2)
    play.holds_present(CARDS)


@case(
    "At most 31 requests are without a reply: with one more the relay may stop reading. The others "
    "wait, and are sent in their order."
)
def at_most_31_requests_are_on_the_way(driver):
    play = begun(driver)
    keys = [play.edit(push(card)) for card in range(70)]
    play.heard()
    # Each reply makes place for one more, and no more.
    for _ in range(40):
        play.draw(1)
        play.heard()
    play.talk(rounds=100)
    for rev, key in enumerate(keys, 2):
        play.ended(key, done=rev)
    play.holds_present(CARDS)
    if play.relay.document["cards"][2:] != list(range(70)):
        raise Failed(f"edits are not sent in their order: {play.relay.document['cards']}")


@case("A base of 0 is a base: the edit is done only in a room in which none was ever accepted.")
def a_base_of_zero_is_a_base(driver):
    play = begun(driver, [""], None, rev=0)
    keys = [play.edit(replace("", card), base=0) for card in "ab"]
    requests = play.asked("edit", "edit")
    if [request.get("base") for request in requests] != [0, 0]:
        raise Failed(f"it leaves the base out: {requests}")
    play.draw()
    play.ended(keys[0], done=1)
    play.ended(keys[1], refused="stale", rev=1)
    play.holds([""], [["a"]], 1)


@case("A watch is one of the 31 requests on the way: behind it 30 edits are sent, and no more.")
def a_watch_counts_among_those_on_the_way(driver):
    play = begun(driver)
    play.watch(["/n"])
    for card in range(40):
        play.edit(push(card))
    play.heard()
    play.watch(["/players"])
    play.talk(rounds=100)
    play.holds_present(["/players"])
