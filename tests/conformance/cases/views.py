"""Other views."""
from driver import Failed
from .common import CARDS, back, begun, case, push, replace


@case(
    "What comes before `watching` belongs to the old view. Behind it the first message that is no "
    "reply is the new view's snapshot."
)
def patches_before_watching_are_of_the_old_view(driver):
    play = begun(driver)
    play.relay.edit(push("bread"))
    key = play.watch(["/n"])
    patches, play.relay.patches = play.relay.patches, []
    play.asked("watch")
    for patch in patches:
        play.say(patch)
    play.holds(CARDS, [[["milk", "tea", "bread"]]], 2)
    play.draw(1)
    play.holds(CARDS, [[["milk", "tea", "bread"]]], 2)
    play.has_not_ended(key)
    play.draw(1)
    play.holds(["/n"], [[1]], 2)
    play.ended(key, shown=[[1]])


@case(
    "A view that is refused ends its request, and the one before it stays, also on the next "
    "connection."
)
def a_refused_view_leaves_the_one_before(driver):
    play = begun(driver)
    key = play.watch(["/n", "n"])
    play.asked("watch")
    play.draw()
    play.ended(key, refused="pointer", at=1)
    play.relay.edit(push("bread"))
    play.draw()
    play.holds_present(CARDS)
    play.cut()
    back(play)
    play.talk()
    play.holds_present(CARDS)
    # The view before is watched there, and not merely left as it is.
    play.relay.edit(push("salt"))
    play.talk()
    play.holds_present(CARDS)


@case(
    "Of two views that are asked for one after the other the second one is held in the end. The "
    "first watch ends with its own slots, or as superseded, and never with other slots."
)
def two_views_one_after_the_other(driver):
    play = begun(driver)
    first = play.watch(["/n"])
    play.watch(["/players"])
    play.talk()
    play.holds_present(["/players"])
    end = play.end_of(first) or {}
    if end.get("shown") != [[1]] and not end.get("superseded"):
        raise Failed(f"watch {first} ends with {end}, and not with its slots or as superseded")


@case(
    "If the view changes while there is no connection, the old slots stay, and the next connection "
    "brings those of the new view."
)
def a_view_that_changes_while_offline(driver):
    play = begun(driver)
    play.cut()
    play.relay.edit(push("bread"), replace("/n", 2))
    play.watch(["/n"])
    play.holds(CARDS, [[["milk", "tea"]]], 1)
    back(play)
    play.talk()
    play.holds_present(["/n"])


@case(
    "A view whose `watching` was lost is asked for again. Until its snapshot the old view's slots "
    "stay."
)
def a_view_that_was_asked_for_when_the_connection_was_lost(driver):
    play = begun(driver)
    play.watch(["/n"])
    play.asked("watch")
    play.cut()
    play.relay.edit(replace("/n", 2))
    play.holds(CARDS, [[["milk", "tea"]]], 1)
    back(play)
    play.talk()
    play.holds_present(["/n"])


@case(
    "After `watching` and before the snapshot the slots are still the old view's, also if the "
    "connection is lost there."
)
def a_connection_lost_between_watching_and_its_snapshot(driver):
    play = begun(driver)
    play.watch(["/n"])
    play.asked("watch")
    play.draw(1)
    play.cut()
    # The slots are still those of the old view.
    play.holds(CARDS, [[["milk", "tea"]]], 1)
    play.relay.edit(replace("/n", 2))
    back(play)
    play.talk()
    play.holds_present(["/n"])


@case("A snapshot is of the view that was answered, and not of one that was asked for since.")
def a_snapshot_is_of_the_view_that_was_answered(driver):
    play = begun(driver)
    first, second = play.watch(["/n"]), play.watch(["/players"])
    # A client that waits for the first answer asks for the second view only then.
    play.heard(1)
    play.draw(2)
    play.holds(["/n"], [[1]], 1)
    play.ended(first, shown=[[1]])
    play.has_not_ended(second)
    play.talk()
    play.holds_present(["/players"])
    play.ended(second, shown=[[{"ann": 3}]])


@case("A watch of the view that is held is sent too: its snapshot is of the room's revision.")
def the_same_view_is_watched_again(driver):
    play = begun(driver)
    play.relay.edit(replace("/n", 2))
    key = play.watch(CARDS)
    play.asked("watch")
    play.draw(1)
    play.has_not_ended(key)
    play.draw(1)
    play.ended(key, shown=[[["milk", "tea"]]])
    play.holds(CARDS, [[["milk", "tea"]]], 2)


@case("Between `watching` and its snapshot no patch comes. One is wrong, of the same view as well.")
def a_patch_is_not_applied_while_a_snapshot_is_due(driver):
    play = begun(driver)
    play.watch(CARDS)
    play.asked("watch")
    play.draw(1)
    play.relay.edit(push("bread"))
    patch = [{"op": "add", "path": "/0/0/2", "value": "bread"}]
    play.say({"kind": "patch", "patch": patch, "rev": 2})
    play.holds(CARDS, [[["milk", "tea"]]], 1)
    play.asks_anew()
    play.talk()
    play.holds_present(CARDS)
