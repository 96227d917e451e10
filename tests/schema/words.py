#!/usr/bin/env python3
"""The schema itself: it is valid, each definition is described and used, and its words and bounds
are those of docs/PROTOCOL.md, of the program's sources and of the JavaScript client's types. The
clients' words of faults are compared with the page by tests/clients/faults.py.

Usage: words.py [TEST..]"""

import itertools
import re

from jsonschema import Draft202012Validator
from judge import DEFINITIONS, SCHEMA
from refusals import FORMS
from support import protocol
from support.play import main, needs, shows
from support.relay import ROOT

ARM = r'^ +(?:Some\()?"([a-z-]+)"\)? =>'
LOCAL = "#/$defs/"


def source(path):
    return (ROOT / path).read_text()


def arms(path):
    """The texts that a source matches, in their order."""
    return re.findall(ARM, source(f"crates/{path}"), re.MULTILINE)


def bound(path, name):
    """The number of a constant of a source."""
    found = re.search(rf"pub const {name}: \w+ = ([\d_]+);", source(f"crates/{path}"))
    return int(found[1].replace("_", ""))


def named_by(value):
    """The names of the definitions to which a part of the schema refers."""
    if isinstance(value, dict):
        own = [value["$ref"][len(LOCAL) :]] if "$ref" in value else []
        return [*own, *itertools.chain(*map(named_by, value.values()))]
    return [*itertools.chain(*map(named_by, value))] if isinstance(value, list) else []


def alternatives(name):
    """The alternatives of a definition, which may be definitions of their own."""
    own = DEFINITIONS[name]["oneOf"]
    return [DEFINITIONS[it["$ref"][len(LOCAL) :]] if "$ref" in it else it for it in own]


def words_of(name, member):
    """The words of a member in all alternatives of a definition."""
    own = [it["properties"][member] for it in alternatives(name)]
    return [word for it in own for word in it.get("enum", [it.get("const")])]


@shows
def the_schema_is_one_of_draft_2020_12():
    Draft202012Validator.check_schema(SCHEMA)
    assert SCHEMA["$schema"] == Draft202012Validator.META_SCHEMA["$id"]
    assert "$id" not in SCHEMA


@shows
def each_definition_is_described_and_used():
    print(f"  {len(DEFINITIONS)} definitions")
    unlike = [
        name
        for name, it in DEFINITIONS.items()
        if not re.fullmatch(r"[A-Z`].*\.", it["description"])
    ]
    assert not unlike, unlike
    used, fresh = set(), named_by(SCHEMA["oneOf"])
    while fresh:
        used |= set(fresh)
        fresh = set(itertools.chain(*(named_by(DEFINITIONS[name]) for name in fresh))) - used
    assert used == set(DEFINITIONS), used ^ set(DEFINITIONS)


@shows
def the_faults_are_those_of_page_and_source():
    words = DEFINITIONS["fault"]["enum"]
    assert words == protocol.faults() == arms("relay_proto/src/word.rt")
    assert set(words_of("refused", "fault")) == set(words)
    assert {word for words in FORMS.values() for word in words.split()} == set(words)


@shows
def the_requests_are_those_of_page_and_source():
    words = words_of("request", "do")
    assert words == protocol.requests(), words
    assert sorted(words) == sorted(arms("relay_proto/src/reading.rt"))


@shows
def the_messages_are_those_of_page_and_source():
    kinds = words_of("message", "kind")
    assert set(kinds) == {kind for kind, _ in protocol.messages()}
    assert sorted(kinds) == sorted(arms("relay_proto/src/message_reading.rt"))
    outcomes = DEFINITIONS["resumed"]["properties"]["how"]["enum"]
    assert outcomes == protocol.outcomes() == arms("relay_proto/src/reply.rt")


@shows
def each_message_has_the_members_of_the_page():
    own = {it["properties"]["kind"]["const"]: it for it in alternatives("message")}
    for kind, members in protocol.messages():
        required = set(own[kind]["required"])
        assert required == members - ({"rev"} if kind == "refused" else set()), kind
        assert members <= set(own[kind]["properties"]), kind


@shows
def the_operations_are_those_of_page_source_and_types():
    words = sorted(words_of("operation", "op"))
    assert words == sorted(protocol.operations()) == sorted(arms("relay_patch/src/form/kind.rt"))
    assert {*words_of("slotsOperation", "op")} == {*words} - {"test"}
    types = source("clients/javascript/relay.d.ts")
    listed = re.search(r"export type Operation =\n(.*?);\n\n", types, re.DOTALL)[1]
    assert words == sorted(re.findall(r'"(\w+)"', listed))


@shows
def the_bounds_are_those_of_the_sources():
    assert DEFINITIONS["count"]["maximum"] == bound("relay_limits/src/lib.rt", "MAX_COUNT")
    tokens = bound("relay_pointer/src/reading.rt", "MAX_TOKENS")
    operations = bound("relay_patch/src/limits.rt", "MAX_OPS")
    assert DEFINITIONS["pointer"]["pattern"].endswith("{0,%d}$" % tokens)
    assert DEFINITIONS["innerPointer"]["pattern"].endswith("{1,%d}$" % tokens)
    assert DEFINITIONS["sourcePointer"]["pattern"].endswith("{0,%d}$" % tokens)
    assert DEFINITIONS["patch"]["maxItems"] == operations
    assert DEFINITIONS["place"]["maximum"] == operations - 1
    slots = bound("relay_view/src/view.rt", "MAX_SLOTS")
    assert DEFINITIONS["view"]["maxItems"] == DEFINITIONS["slots"]["maxItems"] == slots
    for name, constant in {"request": "MAX_REQUEST", "will": "MAX_WILL_WEIGHT"}.items():
        most = bound("relay_proto/src/reading.rt", constant)
        assert f"at most {most:,}" in DEFINITIONS[name]["description"]


needs("schema")
main()
