"""The cases, by subject: each module adds its own."""
from . import (
    slots,
    values,
    patches,
    misfits,
    edits,
    lengths,
    views,
    connections,
    restarts,
    unanswered,
    waiting,
    growth,
    optimistic,
    watching,
    ending,
    wills,
    present,
)
from .common import CASES
