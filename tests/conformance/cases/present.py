"""Presence: an entry in the document, which the will of its session takes away."""
from driver import Failed
from play import Play
from relay import Relay
from .common import case

PRESENT = {"needs": "presence wills"}
HERE = ["/here"]
EMPTY = {"here": {}, "n": 1}
ANN = {"name": "Ann"}


def alone(driver, **more):
    """A client that is about to be seen."""
    play = Play(driver, Relay(EMPTY, **more), HERE)
    play.accept()
    play.asked("watch")
    play.draw(2)
    return play


def is_seen(play, times):
    names = [entry.get("name") for entry in play.relay.document["here"].values()]
    if names != ["Ann"] * times:
        raise Failed(f"{names} are here, and not {times} of Ann")


def is_written(request):
    return request.get("do") == "edit" and any(
        operation["path"].startswith("/here/") for operation in request["patch"]
    )


def comes(play):
    """The client has written its entry. Gives the will of its session."""
    requests = play.talk()
    words = ["entry" if is_written(request) else request.get("do") for request in requests]
    if "entry" not in words or "will" not in words[: words.index("entry")]:
        raise Failed(f"it says {words}, and its entry has no will yet when it is written")
    is_seen(play, 1)
    return play.relay.will


@case(
    "Who is present leaves a will and then writes its entry, which that will takes away.", **PRESENT
)
def an_entry_comes_behind_its_will(driver):
    play = alone(driver)
    key = play.present("/here", ANN)
    will = comes(play)
    play.ended(key, here=True)
    play.holds_present(HERE)
    play.cut()
    play.relay.do_will(will)
    is_seen(play, 0)


@case(
    "On the next connection the entry is written again. The will of the session before may be "
    "done late, and leaves it.",
    **PRESENT,
)
def a_late_will_leaves_the_entry(driver):
    play = alone(driver)
    play.present("/here", ANN)
    first = comes(play)
    play.cut()
    play.accept()
    second = comes(play)
    play.relay.do_will(first)
    is_seen(play, 1)
    play.relay.do_will(second)
    is_seen(play, 0)


@case("To a relay that knows no wills the entry is written without one.", **PRESENT)
def an_older_relay_has_entries_without_wills(driver):
    play = alone(driver)
    play.relay.knows_wills = False
    key = play.present("/here", ANN)
    play.talk()
    play.ended(key, here=True)
    is_seen(play, 1)
    play.holds_present(HERE)
