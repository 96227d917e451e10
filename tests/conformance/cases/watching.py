"""Clients that only watch: what others do reaches them, and their edits fail before they are
sent."""
from driver import Failed
from play import Play
from relay import Relay
from .common import BOARD, CARDS, back, case, push

WATCHES = {"needs": "read-only"}


def watching(driver, view=CARDS):
    """A client that only watches, and holds the slots of a view."""
    play = Play(driver, Relay(BOARD), view, readOnly=True)
    play.accept()
    play.asked("watch")
    play.draw(2)
    play.holds_present(view)
    return play


def fails(play, key):
    """It has failed, and the client has said nothing."""
    play.ended(key, refused="read-only", at=None)
    said = play.heard()
    if said:
        raise Failed(f"it says {said}, and only watches")


@case(
    "Who only watches enters by the address with `/watch` behind the name, and sees others' edits.",
    **WATCHES,
)
def who_only_watches_sees_edits(driver):
    play = watching(driver)
    play.relay.edit(push("bread"))
    play.draw()
    play.holds_present(CARDS)
    key = play.watch(["/n"])
    play.asked("watch")
    play.draw()
    play.ended(key, shown=[[1]])
    play.holds_present(["/n"])


@case(
    "Who only watches a room that is not there waits until it is: a handshake that is answered "
    "with 404 is tried again.",
    **WATCHES,
)
def who_only_watches_waits_for_a_room(driver):
    play = Play(driver, Relay(BOARD), CARDS, readOnly=True)
    play.fail(status=404)
    key = play.watch(["/n"])
    play.has_not_ended(key)
    play.fail(status=404)
    play.has_not_ended(key)
    play.holds_nothing()
    play.accept()
    play.talk()
    play.ended(key, shown=[[1]])
    play.holds_present(["/n"])


@case("An edit of who only watches fails as `read-only`, and is not sent.", **WATCHES)
def an_edit_of_who_only_watches_is_not_sent(driver):
    play = watching(driver)
    fails(play, play.edit(push("bread")))
    fails(play, play.edit(push("bread"), base=1))
    play.holds(CARDS, [[["milk", "tea"]]], 1)


@case(
    "So does one that is made while there is no connection. It is not sent on the next one.",
    **WATCHES,
)
def an_edit_of_who_only_watches_does_not_wait(driver):
    play = Play(driver, Relay(BOARD), CARDS, readOnly=True)
    fails(play, play.edit(push("salt")))
    play.accept()
    play.asked("watch")
    play.draw()
    play.cut()
    fails(play, play.edit(push("bread")))
    play.relay.edit(push("oil"))
    requests = back(play)
    if [request["do"] for request in requests] not in (["resume"], ["watch"]):
        raise Failed(f"it says {requests}")
    play.draw()
    play.holds_present(CARDS)


@case("An edit of who only watches is not laid over the slots.", needs="read-only optimistic")
def an_edit_of_who_only_watches_is_not_shown(driver):
    play = watching(driver)
    fails(play, play.edit(push("bread"), optimistic=True))
    play.shows([[["milk", "tea"]]])


@case("Who only watches ends no room.", needs="read-only end-room")
def who_only_watches_ends_no_room(driver):
    fails(play := watching(driver), play.end_room())
