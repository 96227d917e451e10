"""Restarts of the relay."""
from .common import CARDS, back, begun, case, push


@case(
    "Another epoch is another document: the slots stay until its snapshot replaces them, and their "
    "revision and epoch with them."
)
def another_run_brings_a_snapshot(driver):
    play = begun(driver, rev=9)
    play.cut()
    play.relay.restart({"cards": ["other"]}, epoch=8)
    back(play)
    play.holds(CARDS, [[["milk", "tea"]]], 9)
    play.draw()
    play.holds(CARDS, [[["other"]]], 1, epoch=8)
    play.relay.edit(push("bread"))
    play.draw()
    play.holds_present(CARDS)


@case("An equal revision of another epoch is another document.")
def another_run_at_the_same_revision(driver):
    play = begun(driver)
    play.cut()
    play.relay.restart({"cards": ["other"]}, epoch=8, rev=1)
    back(play)
    play.draw()
    play.holds(CARDS, [[["other"]]], 1, epoch=8)


@case(
    "If the connection to the next run is lost before its snapshot, the slots and their epoch are "
    "still the old ones."
)
def the_epoch_is_that_of_the_slots(driver):
    play = begun(driver)
    play.cut()
    play.relay.restart({"cards": ["second"]}, epoch=8, rev=5)
    back(play)
    play.draw(1)
    play.holds(CARDS, [[["milk", "tea"]]], 1)
    play.cut()
    back(play)
    play.draw()
    play.holds(CARDS, [[["second"]]], 5, epoch=8)


@case(
    "`future`: the room is not at the revision yet that the client holds. It forgets that, and "
    "watches."
)
def an_epoch_that_was_given_twice(driver):
    play = begun(driver, rev=9)
    play.cut()
    play.relay.restart({"cards": ["other"]}, epoch=7, rev=1)
    [request] = back(play)
    if request["do"] == "resume":
        play.draw()
        play.asked("watch")
    play.draw()
    play.holds(CARDS, [[["other"]]], 1)
