"""Edits that were not sent yet: they wait for a connection, or for a place among the requests on
the way."""
from driver import Failed
from play import Play
from relay import Relay
from .common import BOARD, CARDS, back, begun, case, push


def made_offline(play, cards, **more):
    """Edits that are made while there is no connection: those that the client takes, by their keys.
    The others end at once, refused."""
    keys = {play.edit(push(card), **more): card for card in cards}
    ends = {key: play.end_of(key) for key in keys}
    for key, end in ends.items():
        if end is not None and "refused" not in end:
            raise Failed(f"edit {key} was never sent, and ends with {end}")
    return {key: card for key, card in keys.items() if ends[key] is None}


def were_done(play, taken):
    """Each of these edits was done once, in their order."""
    cards = play.relay.document["cards"][len(BOARD["cards"]) :]
    if cards != list(taken.values()):
        raise Failed(f"{cards} were done, and not {list(taken.values())} in this order")
    for key in taken:
        if "done" not in (play.end_of(key) or {}):
            raise Failed(f"edit {key} was done, and ends with {play.end_of(key)}")


@case(
    "An edit that is made while there is no connection is refused at once, or sent on the next "
    "one, behind what asks for the slots."
)
def edits_made_while_offline_are_done_in_their_order(driver):
    play = begun(driver)
    play.cut()
    taken = made_offline(play, "abcde")
    play.fail()
    taken.update(made_offline(play, "fg"))
    back(play)
    play.talk()
    play.holds_present(CARDS)
    were_done(play, taken)


@case(
    "An edit that is made before the first connection is refused at once, or sent on it, behind "
    "the watch."
)
def edits_made_before_the_first_connection_are_done_in_their_order(driver):
    play = Play(driver, Relay(BOARD), CARDS)
    taken = made_offline(play, "abc")
    back(play)
    play.talk()
    play.holds_present(CARDS)
    were_done(play, taken)


@case(
    "If the connection is lost, edits that were sent are unknown, and those that still wait are "
    "sent on the next one, in their order."
)
def edits_that_wait_behind_others_are_sent_on_the_next_connection(driver):
    play = begun(driver)
    keys = [play.edit(push(card)) for card in range(40)]
    sent = len(play.heard())
    play.cut()
    for key in keys[:sent]:
        play.ended(key, unknown=True)
    for key in keys[sent:]:
        play.has_not_ended(key)
    back(play)
    play.talk()
    for key in keys[sent:]:
        if "done" not in (play.end_of(key) or {}):
            raise Failed(
                f"edit {key} was not sent when the connection was lost, and ends with "
                f"{play.end_of(key)}"
            )
    play.holds(CARDS, [[["milk", "tea", *range(40)]]], 41)


@case(
    "An edit with a base that waited for the connection is sent with that base, and is done if the "
    "room is still there."
)
def an_edit_with_a_base_waits_for_its_run(driver):
    play = begun(driver)
    play.cut()
    taken = made_offline(play, "a", base=1)
    back(play)
    play.talk()
    play.holds_present(CARDS)
    were_done(play, taken)


@case(
    "An edit with a base that was not sent yet is not sent to another epoch. It ends as `stale`: "
    "it was not done, and will not be."
)
def an_unsent_edit_with_a_base_is_not_sent_to_another_run(driver):
    play = begun(driver)
    play.cut()
    taken = made_offline(play, "a", base=1)
    play.relay.restart(BOARD, epoch=8, rev=1)
    requests = back(play)
    play.talk()
    if any(request.get("do") == "edit" for request in requests) or play.relay.rev != 1:
        raise Failed("an edit is sent to a document that it was not made for")
    for key in taken:
        play.ended(key, refused="stale")


@case(
    "A base is of the epoch of the slots: while those of the run before are held, an edit with a "
    "base is not sent to this one."
)
def a_base_is_of_the_run_of_the_slots(driver):
    play = begun(driver)
    play.cut()
    play.relay.restart(BOARD, epoch=8, rev=1)
    back(play)
    play.holds(CARDS, [[["milk", "tea"]]], 1, epoch=7)
    key = play.edit(push("bread"), base=1)
    play.talk()
    play.ended(key, refused="stale")
    if play.relay.rev != 1:
        raise Failed("an edit is done to a document that it was not made for")


@case(
    "An edit that was not sent when the client is closed ends as closed, and not as unknown: it "
    "was not done."
)
def what_was_not_sent_is_closed(driver):
    play = begun(driver)
    play.cut()
    taken = made_offline(play, "a")
    driver.end()
    for key in taken:
        play.ended(key, closed=True)
