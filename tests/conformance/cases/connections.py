"""Lost connections."""
from play import Play
from relay import Relay
from .common import BOARD, CARDS, back, begun, case, push, replace


@case("The loss of the connection changes nothing that is held, and neither does a new welcome.")
def slots_stay_while_the_connection_is_lost(driver):
    play = begun(driver)
    play.cut()
    play.holds(CARDS, [[["milk", "tea"]]], 1)
    play.accept()
    play.holds(CARDS, [[["milk", "tea"]]], 1)


@case("`resumed` with `nothing` leaves the slots and their revision, and patches go on from there.")
def nothing_was_missed(driver):
    play = begun(driver)
    play.cut()
    play.relay.edit(replace("/n", 2))
    [request] = back(play)
    play.draw()
    # A resume leaves the revision; a snapshot, if the client watched anew, brings the present one.
    play.holds(CARDS, [[["milk", "tea"]]], 1 if request["do"] == "resume" else 2)
    play.relay.edit(push("bread"))
    play.draw()
    play.holds_present(CARDS)


@case("`resumed` with `patch`: what was missed comes as a patch on the slots held.")
def what_was_missed_comes_as_a_patch(driver):
    play = begun(driver)
    play.cut()
    play.relay.edit(push("bread"))
    play.relay.edit({"op": "remove", "path": "/cards/0"})
    back(play)
    play.draw()
    play.holds_present(CARDS)


@case(
    "`resumed` with `snapshot`: the room no longer holds what was missed, and a snapshot replaces "
    "the slots."
)
def what_was_missed_comes_as_a_snapshot(driver):
    play = begun(driver)
    play.cut()
    for card in range(20):
        play.relay.edit(push(card))
    back(play)
    play.draw()
    play.holds_present(CARDS)


@case(
    "A patch that was lost with its connection comes again, since the resume names the revision "
    "held."
)
def a_patch_on_the_way_is_lost_with_its_connection(driver):
    play = begun(driver)
    play.relay.edit(push("bread"))
    play.cut()
    play.relay.edit(push("salt"))
    back(play)
    play.draw()
    play.holds_present(CARDS)


@case("Each connection begins by asking for the slots.")
def one_connection_after_another(driver):
    play = begun(driver)
    for card in range(5):
        play.cut()
        play.relay.edit(push(card))
        back(play)
        play.draw()
        play.holds_present(CARDS)


@case(
    "`resumed` makes nothing newer. If the promised patch is lost, the next resume is of the same "
    "revision."
)
def a_connection_lost_before_the_promised_patch(driver):
    play = begun(driver)
    play.cut()
    play.relay.edit(push("bread"))
    back(play)
    play.draw(1)
    play.cut()
    play.holds(CARDS, [[["milk", "tea"]]], 1)
    play.relay.edit(push("salt"))
    back(play)
    play.draw()
    play.holds_present(CARDS)


@case("A handshake that fails is tried again.")
def handshakes_that_fail(driver):
    play = Play(driver, Relay(BOARD), CARDS)
    play.fail()
    play.fail()
    play.accept()
    play.talk()
    play.holds_present(CARDS)
    play.cut()
    play.fail()
    play.accept()
    play.talk()
    play.holds_present(CARDS)


@case("A patch that `resumed` promised may fold: then a snapshot comes in its place, and is taken.")
def a_promised_patch_may_come_as_a_snapshot(driver):
    play = begun(driver)
    play.cut()
    play.relay.edit(push("bread"))
    back(play)
    play.draw(1)
    play.relay.edit(push("salt"))
    play.relay.fold()
    play.draw(1)
    play.holds_present(CARDS)
    play.relay.edit(push("oil"))
    play.draw(1)
    play.holds_present(CARDS)


@case("What arrives late, on a connection that is gone, is not heard.", needs="late")
def what_comes_late_is_not_heard(driver):
    play = begun(driver)
    late = {"kind": "patch", "patch": [replace("/0/0/0", "late")], "rev": 2}
    play.cut()
    play.say_late(late)
    play.holds(CARDS, [[["milk", "tea"]]], 1)
    play.relay.edit(push("bread"))
    back(play)
    play.say_late(late)
    play.holds(CARDS, [[["milk", "tea"]]], 1)
    play.draw()
    key = play.edit(push("salt"))
    [request] = play.asked("edit")
    play.say_late({"id": request["id"], "kind": "done", "rev": 9})
    play.has_not_ended(key)
    play.draw()
    play.ended(key, done=3)
    play.holds_present(CARDS)
