"""Texts that are long, in bytes of UTF-8."""
from driver import Failed
from .common import CARDS, begun, case, push

LONGEST_REQUEST = 1_048_576
LONGEST_TEXT = 1_056_768
"""Bytes of a text: the relay refuses one that is longer than the first, and a connection ends by
one that is longer than the second."""


def bytes_said(play):
    """The length of each text that the client has said since it was looked at last."""
    play.driver.look()
    return [len(text.encode()) for text in play.driver.said]


def bytes_around(play):
    """The length of an edit whose value is an empty text."""
    play.edit(push(""))
    [length] = bytes_said(play)
    play.talk()
    return length


def is_too_long(play, key):
    """The client sends nothing of a request, and ends it as the relay ends those that it still
    reads."""
    if bytes_said(play):
        raise Failed(f"it sends {bytes_said(play)} bytes, by which its connection ends")
    play.ended(key, refused="too-long")


@case(
    "A text of more than 1,056,768 bytes ends the connection each time that it is sent: it is not "
    "sent, and ends as `too-long`."
)
def a_text_that_ends_the_connection_is_not_sent(driver):
    play = begun(driver)
    around = bytes_around(play)
    # An id that has more digits makes a text longer, and none makes it shorter.
    for value in ["x" * (LONGEST_TEXT - around + 1), "\u20ac" * ((LONGEST_TEXT - around) // 3 + 1)]:
        is_too_long(play, play.edit(push(value)))
        is_too_long(play, play.edit(push(value), base=2))
    key = play.edit(push("bread"))
    play.asked("edit")
    play.draw()
    play.ended(key, done=3)
    play.holds_present(CARDS)


@case("A text that the relay reads is sent, of up to 1,048,576 bytes.")
def a_text_that_the_relay_reads_is_sent(driver):
    play = begun(driver)
    digits = 8  # more than an id has here
    key = play.edit(push("x" * (LONGEST_REQUEST - bytes_around(play) - digits)))
    play.asked("edit")
    play.draw()
    play.ended(key, done=3)


@case(
    "A view whose text would end the connection is not sent. It is refused as `too-long`, and the "
    "one before stays."
)
def a_view_that_ends_the_connection_is_not_sent(driver):
    play = begun(driver)
    is_too_long(play, play.watch(["/" + "x" * LONGEST_TEXT]))
    play.cut()
    play.relay.edit(push("bread"))
    play.accept()
    play.talk()
    play.holds_present(CARDS)
