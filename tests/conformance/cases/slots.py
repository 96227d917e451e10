"""Connect and watch."""
from driver import Failed
from play import Play
from relay import Relay
from .common import BOARD, CARDS, back, begun, case, push, replace


@case(
    "The first request is a watch. Slots come with the snapshot alone, and neither `welcome` nor "
    "`watching` makes any."
)
def a_watch_is_answered_by_a_snapshot(driver):
    play = Play(driver, Relay(BOARD), CARDS)
    play.accept()
    [request] = play.asked("watch")
    if request["view"] != CARDS:
        raise Failed(f"it watches {request['view']}")
    play.holds_nothing()
    play.draw(1)
    play.holds_nothing()
    play.draw(1)
    play.holds(CARDS, [[["milk", "tea"]]], 1)


@case("The revision of a `welcome` is the room's, and not that of the slots held.")
def the_revision_of_the_welcome_is_not_that_of_the_slots(driver):
    play = begun(driver)
    play.cut()
    play.relay.edit(replace("/n", 2))
    back(play)
    play.holds(CARDS, [[["milk", "tea"]]], 1)


@case("A view has up to 16 slots, in the order of its pointers.")
def sixteen_slots(driver):
    begun(
        driver,
        [f"/cards/{place}" for place in range(8)]
        + [{"size": f"/cards/{place}"} for place in range(8)],
    )


@case(
    "Each message replaces what is held by what it says, and an edit elsewhere says nothing: the "
    "revision held passes over it."
)
def revisions_may_be_passed_over(driver):
    play = begun(driver)
    for _ in range(5):
        play.relay.edit(replace("/n", play.relay.rev))
    play.draw()
    play.holds(CARDS, [[["milk", "tea"]]], 1)
    play.relay.edit(push("bread"))
    play.draw()
    play.holds(CARDS, [[["milk", "tea", "bread"]]], 7)


@case(
    "A snapshot may come at any time. It replaces the slots and the revision, and patches go on "
    "from there."
)
def a_snapshot_comes_in_place_of_patches(driver):
    play = begun(driver)
    play.relay.edit(push("bread"))
    play.relay.edit(push("salt"))
    play.relay.fold()
    play.draw()
    play.holds_present(CARDS)
    play.relay.edit(push("oil"))
    play.draw()
    play.holds_present(CARDS)
