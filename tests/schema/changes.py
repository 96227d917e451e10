"""Changes of one place of an object: a member is left out, has another name or another type, or is
one too many."""

OTHERS = [None, True, "text", 0, -1, 2**53, 1.5, [], {}]
# Values whose numbers are whole and fit in 64 bits, and such as are not.
FIT = [2**63 - 1, -(2**63), [[0], 0], {"a": [None]}]
UNFIT = [1.5, 2**63, -(2**63) - 1, [[1.5]], {"a": [2**63]}]


def without(value, name):
    return {other: part for other, part in value.items() if other != name}


def kind_of(value):
    """The type, by which an integer out of the range of a count, or a fraction, is another one."""
    return "other number" if value in (-1, 2**53, 1.5) else type(value)


def others(value):
    return [other for other in OTHERS if kind_of(other) != kind_of(value)]


def named_otherwise(value):
    """The object with a member less, a member of another name, and a member more."""
    for name, part in value.items():
        yield without(value, name)
        yield {**without(value, name), f"{name}s": part}
    yield {**value, "more": 1}


def typed_otherwise(value):
    """The object with a member of another type, and the name of that member."""
    for name, part in value.items():
        for other in others(part):
            yield name, {**value, name: other}


def at_each_place(items, changes):
    """The list with one element changed."""
    for place, item in enumerate(items):
        for other in changes(item):
            yield [*items[:place], other, *items[place + 1 :]]
