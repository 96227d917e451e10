"""Texts that are no messages, and messages that do not follow from those before them."""
from play import Play
from relay import Relay
from .common import BOARD, CARDS, back, begun, case, push, replace

NO_JSON = [
    "",
    "{",
    "watching",
    '{"kind":"patch","patch":[],"rev":2} 7',
    '{"kind":"snapshot","rev":2,"view":[[[]]]}}',
]
NO_MESSAGES = [
    "null",
    "7",
    "[]",
    '"done"',
    "{}",
    '{"kind":null}',
    '{"id":1,"kind":["done"],"rev":2}',
    '{"kind":"snapshot","rev":2}',
]


def is_dropped(play, text):
    """The client takes nothing of a text, drops the connection, and watches on the next one."""
    play.driver.hear(text)
    play.holds_present(CARDS)
    play.relay.edit(push("bread"))
    play.drops()
    play.talk()
    play.holds_present(CARDS)


@case(
    "A text that is no JSON says that something is wrong: the client drops the connection, and "
    "watches on the next one."
)
def a_text_that_is_no_json_is_dropped(driver):
    play = begun(driver)
    for text in NO_JSON:
        is_dropped(play, text)


@case(
    "JSON that is no message says that something is wrong: the client drops the connection, and "
    "watches on the next one."
)
def json_that_is_no_message_is_dropped(driver):
    play = begun(driver)
    for text in NO_MESSAGES:
        is_dropped(play, text)


@case(
    "A message of another `kind` is no reply, and comes to nobody who did not ask for it. The "
    "client drops the connection."
)
def a_message_of_another_kind_answers_nothing(driver):
    play = begun(driver)
    key = play.edit(replace("/n", 2))
    [request] = play.asked("edit")
    play.say({"id": request["id"], "kind": "unheard-of", "rev": 2})
    play.drops()
    play.ended(key, unknown=True)
    play.talk()
    play.holds_present(CARDS)


@case(
    "A reply with the `id` of another request than the oldest answers neither of them. The client "
    "drops the connection."
)
def a_reply_to_another_request_answers_nothing(driver):
    play = begun(driver)
    keys = [play.edit(push("a")), play.edit(push("b"))]
    oldest = play.asked("edit", "edit")[0]["id"]
    # Of a client that always sends the same id, it is none of a request.
    play.say({"id": oldest + 1, "kind": "done", "rev": 3})
    play.drops()
    for key in keys:
        play.ended(key, unknown=True)
    play.talk()
    play.holds_present(CARDS)


@case(
    "A reply that comes when no request is without one, or a second welcome, is wrong. The client "
    "drops the connection."
)
def a_reply_without_a_request_is_dropped(driver):
    play = begun(driver)
    for reply in [
        {"id": 1, "kind": "done", "rev": 2},
        {"at": None, "fault": "too-long", "id": None, "kind": "refused"},
        {"epoch": 7, "kind": "welcome", "rev": 1, "session": 2},
    ]:
        play.say(reply)
        play.drops()
        play.talk()
        play.holds_present(CARDS)


@case(
    "A snapshot before `watching` is of no view, and a patch behind it that comes before the "
    "snapshot too. Neither is taken."
)
def slots_of_no_view_are_not_taken(driver):
    play = Play(driver, Relay(BOARD), CARDS)
    play.accept()
    play.say({"kind": "snapshot", "rev": 2, "view": [[["other"]]]})
    play.holds_nothing()
    play.drops()
    play.talk()
    play.holds_present(CARDS)
    play.watch(["/n"])
    play.asked("watch")
    play.draw(1)
    play.say({"kind": "patch", "patch": [replace("/0", [2])], "rev": 2})
    play.holds(CARDS, [[["milk", "tea"]]], 1)
    play.asks_anew()
    play.talk()
    play.holds_present(["/n"])


@case("A snapshot has a slot for each pointer of the view. Another one is not taken.")
def a_snapshot_of_other_slots_is_not_taken(driver):
    play = begun(driver)
    play.say({"kind": "snapshot", "rev": 2, "view": [[["other"]], [1]]})
    play.holds_present(CARDS)
    play.drops()
    play.talk()
    play.holds_present(CARDS)


@case(
    "A snapshot or a patch that comes before the reply to the first request of a connection is of "
    "no view, also if slots of an earlier connection are held. It is not taken."
)
def slots_before_the_first_reply_are_not_taken(driver):
    play = begun(driver)
    for message in [
        {"kind": "snapshot", "rev": 2, "view": [[["other"]]]},
        {"kind": "patch", "patch": [replace("/0/0/0", "other")], "rev": 2},
    ]:
        play.cut()
        back(play)
        play.say(message)
        play.holds_present(CARDS)
        play.asks_anew()
        play.talk()
        play.holds_present(CARDS)


@case(
    "What does not fit is not forgotten with its connection: if the next one is lost before its "
    "snapshot, the client watches on the one after it as well."
)
def a_misfit_is_not_forgotten_before_the_snapshot(driver):
    play = begun(driver)
    misfit = {"kind": "patch", "patch": [{"op": "remove", "path": "/0/0/9"}], "rev": 5}
    for replies in (0, 1):
        play.say(misfit)
        play.relay.edit(push("bread"))
        play.asks_anew()
        play.draw(replies)
        play.cut()
        play.accept()
        play.asks_anew()
        play.talk()
        play.holds_present(CARDS)


@case(
    "A reply of the kind that answers another request answers none. The client drops the "
    "connection, and an edit that it came for is unknown."
)
def a_reply_of_another_kind_answers_nothing(driver):
    play = begun(driver)
    for reply in [
        {"kind": "watching"},
        {"how": "nothing", "kind": "resumed"},
        {"kind": "willing"},
    ]:
        key = play.edit(replace("/n", 2))
        [request] = play.asked("edit")
        play.say({"id": request["id"], **reply})
        play.drops()
        play.ended(key, unknown=True)
        play.talk()
        play.holds_present(CARDS)
    play.watch(["/n"])
    [request] = play.asked("watch")
    play.say({"id": request["id"], "kind": "done", "rev": 9})
    play.drops()
    play.talk()
    play.holds_present(["/n"])
