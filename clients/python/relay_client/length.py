"""The length of a text that is sent, as the relay counts it."""

LONGEST = 1_056_768
"""Bytes of UTF-8. A longer text ends its connection without an answer, each time that it is
sent."""

BYTES = 4
"""The number of bytes that a character takes at most."""


def ends_connection(text: str) -> bool:
    # Most texts are so short that their bytes need not be counted.
    return len(text) * BYTES > LONGEST and len(text.encode()) > LONGEST
