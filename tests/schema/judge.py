"""The schema of the protocol, as a judge of texts."""

import functools
import json
import sys

from jsonschema import Draft202012Validator
from support.relay import ROOT

SCHEMA = json.loads((ROOT / "docs/protocol.schema.json").read_text())
DEFINITIONS = SCHEMA["$defs"]
# A text of 127 containers takes more calls, one in the other, than Python allows by default.
sys.setrecursionlimit(20_000)


@functools.lru_cache(maxsize=None)
def judge_of(name):
    return Draft202012Validator({"$ref": f"#/$defs/{name}", "$defs": DEFINITIONS})


def is_valid(name, value):
    """True if the value is valid by the definition of that name."""
    return judge_of(name).is_valid(value)


def is_valid_text(name, text):
    """The same of a text. One that Python reads as no JSON is not valid."""
    try:
        value = json.loads(text)
    except ValueError:
        return False
    return is_valid(name, value)
