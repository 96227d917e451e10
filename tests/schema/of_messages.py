#!/usr/bin/env python3
"""Judges messages by the schema: those that the relay writes are valid, and what they become by one
change is not, but for what is a message itself. Usage: of_messages.py [TEST..]"""

import collections
import json
import random
import sys

import scripts
from judge import is_valid, is_valid_text
from mutants import mutants
from support.play import main, needs, shows
from support.protocol import messages
from support.relay import ROOT, program

GROUPS = 60


def played():
    """The texts that a watcher is told in random cases of tests/agreement."""
    sys.path += [str(ROOT / "tests/agreement"), str(ROOT / "clients/python")]
    from cases import group
    from plays import relay_plays

    chance = random.Random(1)
    groups = relay_plays(program(), [group(chance) for _ in range(GROUPS)])
    texts = [text for it in groups for text in (it.snapshot, *(case.text for case in it.cases))]
    return sorted({text for text in texts if text})


def check(name, texts, wanted=True):
    wrong = [text for text in texts if is_valid_text(name, text) != wanted]
    assert texts and not wrong, "\n".join(wrong)


@shows
def each_message_of_the_scripts_is_valid():
    texts = scripts.drawn()
    print(f"  {len(texts)} messages")
    check("message", texts)
    kinds = {json.loads(text)["kind"] for text in texts}
    assert kinds == {kind for kind, _ in messages()}, kinds


@shows
def each_message_of_random_cases_is_valid():
    texts = played()
    print(f"  {len(texts)} messages")
    check("message", texts)


@shows
def the_slots_that_are_held_in_the_scripts_are_valid():
    texts = scripts.held()
    print(f"  {len(texts)} lists of slots")
    check("slots", texts)


@shows
def a_text_that_a_follower_takes_for_no_message_is_not_valid():
    texts = scripts.refused_by_followers()
    print(f"  {len(texts)} texts")
    check("message", texts, wanted=False)


@shows
def a_message_that_is_changed_is_none_but_by_a_rule():
    counts, wrong = collections.Counter(), []
    for text in scripts.drawn():
        for mutant, rule in mutants(json.loads(text)):
            counts[rule] += 1
            if is_valid("message", mutant) != (rule is not None):
                wrong.append(f"{text}\n  {json.dumps(mutant)}: {rule}")
    print(f"  {counts.pop(None)} are not valid")
    for rule, count in counts.items():
        print(f"  {count} are valid: {rule}")
    assert not wrong, "\n".join(wrong)


needs("schema")
main()
