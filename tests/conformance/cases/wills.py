"""Wills: what the relay is to do when the session ends. A will goes with its session, so each
connection leaves it again."""
from driver import Failed
from play import Play
from relay import Relay
from .common import BOARD, CARDS, back, begun, case, push, replace
from .waiting import made_offline, were_done

LEAVES = {"needs": "wills"}
LEFT = replace("/n", "left")
HEAVY = replace("/n", "x" * 70_000)


def stands(play, *patch):
    """Checks what the relay is to do now."""
    if play.relay.will != list(patch):
        raise Failed(f"the will of the session is {play.relay.will}, and not {list(patch)}")


def asks_for_the_will(play, *patch):
    [request] = play.asked("will")
    if request["patch"] != list(patch) or "base" in request:
        raise Failed(f"it says {request}, and does not leave {list(patch)}")


def left(play, *patch):
    """A will that the relay has."""
    key = play.will(*patch)
    asks_for_the_will(play, *patch)
    play.draw()
    play.ended(key, willing=True)


def comes_back(play):
    """The client is on another connection, and all that it says is answered. Gives the requests."""
    return [*back(play), *play.talk()]


@case(
    "A will is asked for by its patch, without a base, and ends when it is answered. It changes "
    "nothing that is held.",
    **LEAVES,
)
def a_will_is_left(driver):
    play = begun(driver)
    key = play.will(LEFT)
    asks_for_the_will(play, LEFT)
    play.has_not_ended(key)
    play.draw()
    play.ended(key, willing=True)
    play.holds(CARDS, [[["milk", "tea"]]], 1)


@case("Each connection leaves the will again, before the edits that waited for it.", **LEAVES)
def a_will_is_left_on_each_connection(driver):
    play = begun(driver)
    left(play, LEFT)
    for card in "ab":
        play.cut()
        made_offline(play, card)
        words = [request.get("do") for request in comes_back(play)]
        stands(play, LEFT)
        if "edit" in words and words.index("edit") < words.index("will"):
            raise Failed(f"it says {words}, and what it edits has no will yet")
    play.holds_present(CARDS)


@case(
    "A later will replaces the one before, and an empty one withdraws it, also on the connections "
    "to come.",
    **LEAVES,
)
def the_newest_will_is_left_again(driver):
    play = begun(driver)
    left(play, LEFT)
    left(play, push("left"))
    play.cut()
    comes_back(play)
    stands(play, push("left"))
    left(play)
    play.cut()
    comes_back(play)
    stands(play)


@case(
    "A will that is refused is refused alone: the one before stays, also on the next connection.",
    **LEAVES,
)
def a_refused_will_leaves_the_one_before(driver):
    play = begun(driver)
    left(play, LEFT)
    key = play.will(HEAVY)
    play.asked("will")
    play.draw()
    play.ended(key, refused="too-heavy")
    play.cut()
    comes_back(play)
    stands(play, LEFT)


@case(
    "A will whose answer was lost with its connection is left on the next one, and ends with the "
    "answer there.",
    **LEAVES,
)
def a_will_without_an_answer_is_left_again(driver):
    play = begun(driver)
    key = play.will(LEFT)
    play.asked("will")
    play.cut()
    play.has_not_ended(key)
    comes_back(play)
    stands(play, LEFT)
    play.ended(key, willing=True)


@case(
    "A will that is asked for while there is no connection is left on the next one, and an edit "
    "behind it is done behind it.",
    **LEAVES,
)
def a_will_waits_for_the_connection(driver):
    play = begun(driver)
    play.cut()
    key = play.will(LEFT)
    taken = made_offline(play, "a")
    words = [request.get("do") for request in comes_back(play)]
    stands(play, LEFT)
    play.ended(key, willing=True)
    if taken and words.index("edit") < words.index("will"):
        raise Failed(f"it says {words}, and was asked for the will first")
    were_done(play, taken)


@case("A relay that knows no wills refuses one as `shape`, and the connection goes on.", **LEAVES)
def an_older_relay_knows_no_wills(driver):
    play = begun(driver)
    play.relay.knows_wills = False
    key = play.will(LEFT)
    play.asked("will")
    play.draw()
    play.ended(key, refused="shape")
    key = play.edit(push("bread"))
    play.asked("edit")
    play.draw()
    play.ended(key, done=2)
    play.holds_present(CARDS)


@case(
    "Who only watches leaves no will: it fails as `read-only`, and is not sent.",
    needs="wills read-only",
)
def who_only_watches_leaves_no_will(driver):
    play = Play(driver, Relay(BOARD), CARDS, readOnly=True)
    play.accept()
    play.asked("watch")
    play.draw(2)
    key = play.will(LEFT)
    play.ended(key, refused="read-only", at=None)
    said = play.heard()
    if said:
        raise Failed(f"it says {said}, and only watches")
