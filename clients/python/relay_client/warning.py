"""Warnings for an application that does not listen to states: why there is no connection, and why
there will be none."""
from __future__ import annotations

import logging
from typing import Callable, Optional

from .faults import HandshakeFailed
from .values import State

_log = logging.getLogger("relay_client")


def warning() -> Callable[[State, Optional[Exception]], None]:
    """Warns once of each time in which no connection can be had, and of a board that is refused."""
    warned = False

    def told(state: State, cause: Optional[Exception]) -> None:
        nonlocal warned
        if state == "open":
            warned = False
        if state == "closed" and cause is not None:
            _log.warning("%s; it is given up", cause)
        elif isinstance(cause, HandshakeFailed) and not warned:
            warned = True
            _log.warning("%s; it is tried again", cause)

    return told
