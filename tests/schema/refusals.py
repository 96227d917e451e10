"""The forms of a refusal by docs/PROTOCOL.md, written once more beside the schema: which words of a
fault stand with an id, with a place, and with a revision."""

FORMS = {
    # Has an id, a place, a revision.
    (False, False, False): "too-long not-json number shape",
    (True, False, False): "shape too-many too-heavy exhausted future read-only",
    (True, True, False): (
        "shape unknown-op pointer missing not-index past-end no-container root into-itself "
        "test-failed too-deep too-heavy"
    ),
    (True, False, True): "stale",
}


def fits(refusal):
    """True if the word of a refusal stands with the members that it has."""
    has = (refusal["id"] is not None, refusal["at"] is not None, "rev" in refusal)
    return refusal["fault"] in FORMS.get(has, "").split()
