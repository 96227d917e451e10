"""The end of a room: its document becomes `null`, if it is still the one that the client holds."""
from driver import Failed
from .common import CARDS, begun, case, push, replace

ENDS = {"needs": "end-room"}


def asks_for_the_end(play, base):
    [request] = play.asked("edit")
    if request["patch"] != [replace("", None)] or request.get("base") != base:
        raise Failed(f"it says {request}, and does not end the room of revision {base}")


@case(
    "A room is ended by a replacement of the whole document, with the revision held as base.",
    **ENDS,
)
def a_room_is_ended_by_null(driver):
    play = begun(driver)
    play.relay.edit(push("bread"))
    play.draw()
    key = play.end_room()
    asks_for_the_end(play, 2)
    play.draw()
    play.ended(key, done=3)
    play.holds(CARDS, [[]], 3)


@case("A room is not ended if somebody edited since the revision held.", **ENDS)
def a_room_in_which_somebody_edited_is_not_ended(driver):
    play = begun(driver)
    play.relay.edit(replace("/n", 2))
    key = play.end_room()
    asks_for_the_end(play, 1)
    play.draw()
    play.ended(key, refused="stale", rev=2)
    play.holds(CARDS, [[["milk", "tea"]]], 1)
