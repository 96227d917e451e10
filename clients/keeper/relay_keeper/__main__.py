"""The program `relay-keeper`."""
from __future__ import annotations

import logging
import os
import sys
from typing import Optional, Sequence

import relay_client

from .admin import OpenToAll
from .commands import COMMANDS
from .lines import BadLine
from .moving import EpochTaken
from .names import BadName
from .sharing import Gone
from .store import LeaseLost, NoState, Taken
from .stores import BadStore
from .words import parsed

FAULTS = (
    BadLine,
    BadName,
    BadStore,
    EpochTaken,
    Gone,
    LeaseLost,
    NoState,
    OpenToAll,
    Taken,
    relay_client.Refused,
    OSError,
    ValueError,
)


def main(words: Optional[Sequence[str]] = None) -> int:
    logging.basicConfig(level=logging.INFO, format="%(levelname)s %(message)s", stream=sys.stderr)
    asked = parsed(words)
    try:
        status = COMMANDS[asked.command](asked)
        sys.stdout.flush()
        return status
    except BrokenPipeError:
        os.dup2(os.open(os.devnull, os.O_WRONLY), sys.stdout.fileno())
        return 1
    except FAULTS as error:
        print(f"relay-keeper: {error}", file=sys.stderr)
        return 1


if __name__ == "__main__":
    sys.exit(main())
