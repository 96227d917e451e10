"""Messages that are changed in one place, each with the rule by which it is a message itself, or
None if it is none."""

from changes import FIT, OTHERS, UNFIT, at_each_place, named_otherwise, others, typed_otherwise
from refusals import fits
from support.protocol import faults, messages, operations, outcomes

BY_KIND = "replies with nothing but an id differ by their kind alone"
BY_OUTCOME = "a resume has each of the three outcomes"
BY_FAULT = "the word of the fault stands with the id, the place and the revision that are there"
BY_VALUE = "a value is any JSON whose numbers are whole"
BY_OPERATION = "the other operation has the same members"

KINDS = [*dict.fromkeys(kind for kind, _ in messages()), "more"]
FAULTS, OUTCOMES, OPERATIONS = ([*words(), "more"] for words in (faults, outcomes, operations))
WITH_AN_ID_ALONE = {"watching", "unwatched", "willing"}
EXCHANGED = ({"add", "replace"}, {"move", "copy"})


def ruled(values, rule=None):
    return [(value, rule) for value in values]


def with_words(value, name, words):
    """The object with each other word of a member."""
    return [{**value, name: word} for word in words if word != value[name]]


def of_kinds(message):
    for other in with_words(message, "kind", KINDS):
        is_message = {message["kind"], other["kind"]} <= WITH_AN_ID_ALONE
        yield other, BY_KIND if is_message else None


def of_outcomes(message):
    if "how" in message:
        for other in with_words(message, "how", OUTCOMES):
            yield other, BY_OUTCOME if other["how"] in outcomes() else None


def of_faults(message):
    if "fault" in message:
        for other in with_words(message, "fault", FAULTS):
            yield other, BY_FAULT if fits(other) else None


def of_types(message):
    """Of a refusal, id and place may be null, and a place may be 0."""
    for name, other in typed_otherwise(message):
        may_fit = name in ("id", "at") and other[name] in (None, 0)
        yield other, BY_FAULT if message["kind"] == "refused" and may_fit and fits(other) else None


def is_inside(pointer):
    """True of a place inside a slot's value, and false of a slot and of its value."""
    return pointer.count("/") > 2


def of_pointers(operation):
    """None of them is one that the relay writes."""
    for name in operation.keys() & {"path", "from"}:
        pointer = operation[name]
        bad = ["", "/", "/16", f"/16{pointer}", f"/0{pointer[1:]}/-", pointer[1:], f"{pointer}/~2"]
        for other in [*bad, f"{pointer}~", pointer + "/a" * 66, "/x/0/a", "/0/1/a"]:
            yield {**operation, name: other}


def of_values(operation):
    """Inside a slot's value, any other value may stand."""
    if "value" in operation:
        for value in [*others(operation["value"]), *FIT, *UNFIT]:
            may_stand = is_inside(operation["path"]) and value not in UNFIT
            yield {**operation, "value": value}, BY_VALUE if may_stand else None


def of_operations(operation):
    for other in with_words(operation, "op", OPERATIONS):
        words = {operation["op"], other["op"]}
        same = words in EXCHANGED and is_inside(operation.get("from", operation["path"]))
        yield other, BY_OPERATION if same else None
    yield from ruled(it for name, it in typed_otherwise(operation) if name != "value")
    yield from of_values(operation)
    yield from ruled([*named_otherwise(operation), *of_pointers(operation)])


def of_slots(slot):
    """No slot is anything but a list of one value at most."""
    return [
        *(other for other in OTHERS if other != []),
        [1, 2],
        [*slot, 1, 2],
        *([it] for it in UNFIT),
    ]


def of_patches(message):
    for place, operation in enumerate(message.get("patch", [])):
        for other, rule in of_operations(operation):
            patch = [*message["patch"][:place], other, *message["patch"][place + 1 :]]
            yield {**message, "patch": patch}, rule
    if "patch" in message:
        yield {**message, "patch": []}, None


def of_views(message):
    if "view" in message:
        for view in [*at_each_place(message["view"], of_slots), [*message["view"], *[[]] * 17]]:
            yield {**message, "view": view}, None


def mutants(message):
    yield from ruled(named_otherwise(message))
    for mutate in (of_kinds, of_outcomes, of_faults, of_types, of_patches, of_views):
        yield from mutate(message)
