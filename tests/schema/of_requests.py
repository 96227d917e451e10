#!/usr/bin/env python3
"""Judges requests by the schema, and compares that with what the relay says of them: it refuses a
text for its form if, and only if, the schema does. Usage: of_requests.py [TEST..]"""

import collections
import json

import scripts
from changes import FIT, OTHERS, UNFIT, at_each_place, named_otherwise, others, typed_otherwise
from judge import is_valid_text
from support.play import main, needs, shows
from support.protocol import faults_of_form, operations, requests
from support.script import play
from support.wire import compact

# A will that weighs too much has the right form, and is valid.
FORM = faults_of_form() - {"too-heavy"}
# The texts of scripts that are valid though the relay refuses their form, and why.
EXCEPTIONS = {
    '{"do":"edit","id":1,"patch":[{"op":"add","path":"","value":1.0}]}': "1.0 is 1 to JSON Schema",
    '{"do":"edit","id":1,"patch":[{"op":"add","path":"","value":1e2}]}': "1e2 is 100 to it",
}
# Texts that stand for each rule of form that a schema cannot say.
UNSEEN = {
    '{"do":"unwatch","id":1.0}': "number",
    '{"do":"unwatch","id":-0}': "number",
    '{"do":"unwatch","id":1,"more":"\\ud800"}': "not-json",
    '{"do":"unwatch","id":1,"more":%s}' % ("[" * 127 + "]" * 127): "not-json",
    '{"do":"unwatch","id":1,"more":"%s"}' % ("x" * 2**20): "too-long",
}
BAD_POINTERS = ["a", "/~2", "/~", "/a" * 65, "/a" * 64 + "/~0"]
# Characters of the texts that are changed: a long one shows nothing more.
SHORT = 400
WORDS = operations()


def is_refused(reply):
    """True if the relay refused the text for its form."""
    return reply["kind"] == "refused" and reply["fault"] in FORM


def judged_otherwise(answered):
    """The texts, each with a reply, of which the schema says something else than the relay."""
    counts, otherwise = collections.Counter(), {}
    for text, reply in answered:
        counts[is_refused(reply)] += 1
        if is_valid_text("request", text) == is_refused(reply):
            otherwise[text] = reply
    print(f"  {counts[False]} requests are well-formed, {counts[True]} are not")
    return otherwise


@shows
def a_request_of_the_scripts_is_valid_unless_its_form_was_refused():
    answered = [(it, reply) for it, replies in scripts.requests().items() for reply in replies[:1]]
    otherwise = judged_otherwise(answered)
    assert otherwise.keys() == EXCEPTIONS.keys(), otherwise
    print("".join(f"  valid, but refused: {why}\n" for why in EXCEPTIONS.values()), end="")


def changed_operations(operation):
    yield from named_otherwise(operation)
    yield from (it for _, it in typed_otherwise(operation))
    yield from ({**operation, "op": word} for word in [*WORDS, "put"])
    for name in {"path", "from"} & operation.keys():
        yield from ({**operation, name: pointer} for pointer in BAD_POINTERS)


def changed_places(shown):
    """The changes of one place of a view."""
    yield from [*others(shown), *BAD_POINTERS, {"size": shown}, {"size": 1, "more": 1}]
    if isinstance(shown, dict):
        yield from named_otherwise(shown)
        yield from ({**shown, "size": pointer} for pointer in BAD_POINTERS)


def changed_lists(items, changes, most):
    """The list with one element changed, and the list repeated as often as it may be, and once
    more."""
    yield from at_each_place(items, changes)
    if items:
        yield items * (most // len(items))
        yield items * (most // len(items) + 1)


def changed(request):
    yield from named_otherwise(request)
    yield from (it for _, it in typed_otherwise(request))
    yield from ({**request, "do": word} for word in [*requests(), "frob"])
    yield from ({**request, "base": other} for other in OTHERS)
    yield from ({**request, "more": other} for other in [*FIT, *UNFIT])
    for patch in changed_lists(request.get("patch", []), changed_operations, 64):
        yield {**request, "patch": patch}
    for view in changed_lists(request.get("view", []), changed_places, 16):
        yield {**request, "view": view}


def form(request):
    """The words and members of a request, by which one of each form is changed."""
    patch, view = request.get("patch", []), request.get("view", [])
    operations = tuple((it["op"], *sorted(it)) for it in patch)
    return request["do"], *sorted(request), operations, tuple(type(it) for it in view)


def one_of_each_form():
    """A short valid request of the scripts of each form."""
    texts = [text for text in scripts.requests() if len(text) < SHORT]
    valid = [json.loads(text) for text in texts if is_valid_text("request", text)]
    return {form(request): request for request in valid}.values()


def replies(texts):
    """The relay's reply to each text, in one session that draws each before the next."""
    lines = [line for text in texts for line in (f"a say {text}", "a draw", "a draw")]
    told = play(["a open r", "a draw", *lines])["a"]
    return [it for it in told if it["kind"] not in ("welcome", "patch", "snapshot")]


@shows
def a_changed_request_is_valid_unless_the_relay_refuses_its_form():
    """So is one of the scripts whose reply nobody drew there."""
    texts = {compact(it) for request in one_of_each_form() for it in changed(request)}
    texts |= {text for text, replies in scripts.requests().items() if not replies}
    answered = list(zip(texts, replies(texts), strict=True))
    otherwise = judged_otherwise(answered)
    assert not otherwise, otherwise


@shows
def a_schema_does_not_see_depth_length_or_spelling():
    assert [it["fault"] for it in replies(UNSEEN)] == [*UNSEEN.values()]
    assert all(is_valid_text("request", text) for text in UNSEEN)


needs("schema")
main()
