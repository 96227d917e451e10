"""Edits whose answers are lost with their connection."""
from driver import Failed
from .common import BOARD, CARDS, back, begun, case, push


@case("An edit whose answer was lost is unknown, and is not sent again: it may have been done.")
def an_edit_without_an_answer_is_unknown(driver):
    play = begun(driver)
    key = play.edit(push("bread"))
    play.asked("edit")
    play.cut()
    play.ended(key, unknown=True)
    requests = back(play)
    if any(request.get("do") == "edit" for request in requests):
        raise Failed("it sends an edit again that may have been done")
    play.talk()
    play.holds_present(CARDS)
    if play.relay.document["cards"].count("bread") != 1:
        raise Failed("the edit was done twice")


@case(
    "An edit that was sent is unknown, also if the relay never read it: the client cannot know "
    "that."
)
def an_edit_that_was_not_read_is_unknown(driver):
    play = begun(driver)
    key = play.edit(push("bread"))
    play.driver.look()
    play.driver.said.clear()
    play.cut()
    play.ended(key, unknown=True)
    back(play)
    play.talk()
    play.holds(CARDS, [[["milk", "tea"]]], 1)


@case("An edit with a base may be sent again, with the same base, and is done at most once.")
def an_edit_with_a_base_is_done_once(driver):
    play = begun(driver)
    key = play.edit(push("bread"), base=1)
    play.asked("edit")
    play.cut()
    back(play)
    play.talk()
    end = play.driver.ended.get(key, {})
    if not (end.get("unknown") or (end.get("refused") == "stale" and end.get("rev") == 2)):
        raise Failed(f"it was done on a connection that was lost, and ends with {end}")
    play.holds_present(CARDS)
    if play.relay.document["cards"] != ["milk", "tea", "bread"]:
        raise Failed("it was not done once")


@case("An edit with a base that was sent is not sent to another epoch, and is unknown.")
def an_edit_with_a_base_is_not_sent_to_another_run(driver):
    play = begun(driver)
    key = play.edit(push("bread"), base=1)
    play.driver.look()
    play.driver.said.clear()
    play.cut()
    play.relay.restart(BOARD, epoch=8, rev=1)
    back(play)
    play.talk()
    play.ended(key, unknown=True)
    if play.relay.rev != 1:
        raise Failed("an edit is done to a document that it was not made for")


@case("A client that is closed leaves the connection, and what it sent is unknown.")
def a_client_that_ends_leaves(driver):
    play = begun(driver)
    key = play.edit(push("bread"))
    play.asked("edit")
    driver.end()
    play.ended(key, unknown=True)
    if not driver.left:
        raise Failed("it leaves the connection open")


@case(
    "An edit with a base whose text ends each of its connections, as one that is too long does, is "
    "not sent again without end."
)
def an_edit_that_ends_each_connection_comes_to_an_end(driver):
    play = begun(driver)
    key = play.edit(push("bread"), base=1)
    for _ in range(20):
        if play.end_of(key) is not None:
            break
        driver.said.clear()
        play.cut()
        play.accept()
    play.ended(key, unknown=True)


@case(
    "An edit with a base that is sent again goes before edits that were made later and were not "
    "sent: behind them it would be stale."
)
def an_edit_that_is_sent_again_goes_before_later_ones(driver):
    play = begun(driver)
    key = play.edit(push("first"), base=1)
    for card in range(40):
        play.edit(push(card))
    play.driver.look()
    play.driver.said.clear()
    play.cut()
    is_sent_again = play.end_of(key) is None
    back(play)
    play.talk()
    play.holds_present(CARDS)
    if is_sent_again:
        play.ended(key, done=2)
