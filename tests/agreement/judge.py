"""Checks what has to hold of what a client makes of a patch."""
import json

REFUSED = "refused"


class Wrong(Exception):
    pass


def judge(case, translation):
    """Returns what each slot came to: `exact`, `untouched` or `left`. `Wrong` if it shows what is
    not so, or less than the client knows."""
    if translation == REFUSED:
        if case.accepted:
            raise Wrong("it was accepted")
        return [REFUSED]
    if not case.accepted:
        if tells_all(case):
            raise Wrong("it was refused, as the slots tell")
        return []
    judge_touch(case, translation["touches"])
    judge_undone(case, translation["undone"])
    return [slot(case, place, shown) for place, shown in enumerate(translation["slots"])]


def judge_touch(case, touches):
    """An edit that is known to touch a slot waits for what the relay tells of it."""
    if touches and not case.told:
        raise Wrong("it is said to touch a slot, and the relay tells nothing")
    if case.told and not touches and "" in case.view:
        raise Wrong("it is not said to touch a slot, as the whole document tells")


def judge_undone(case, undone):
    """Judges what the inverse makes of the slots that the patch led to, if there is one."""
    if undone == REFUSED:
        raise Wrong("its inverse does not fit what it led to")
    for shown, before in zip(undone or [], case.before):
        if shown is not None and text(shown) != text(before):
            raise Wrong(f"its inverse leads to {undone}")


def slot(case, place, shown):
    """Of one slot: `shown` is None if the client does not know what it shows, and leaves it as it
    was."""
    if shown is not None:
        if text(shown) != text(case.after[place]):
            raise Wrong(f"{case.view[place]} shows {shown}, and is {case.after[place]}")
        return "exact" if operations_on(place, case.told) else "untouched"
    if knows(case.view, place, case.patch, case.told):
        stays = f"{case.view[place]} stays {case.before[place]}"
        raise Wrong(f"{stays}, and is {case.after[place]}: the client knows that")
    return "left"


def operations_on(place, told):
    return [operation for operation in told if operation["path"].split("/")[1] == str(place)]


def text(value):
    return json.dumps(value, sort_keys=True)


def tells_all(case):
    """True if the slots tell that a patch is refused: they show the document, or the value within
    which its one operation is."""
    if "" in case.view:
        return True
    shown = [
        pointer
        for pointer, slot in zip(case.view, case.before)
        if isinstance(pointer, str) and slot
    ]
    pointers = [case.patch[0][place] for place in ("path", "from") if place in case.patch[0]]
    return len(case.patch) == 1 and any(
        all(begins(pointer, value) for pointer in pointers) for value in shown
    )


def knows(view, place, patch, told):
    """True if a client has to know what the slot shows, by the protocol's table."""
    shown = view[place]
    if "" in view:
        return True
    if isinstance(shown, dict):
        return shown["size"] in view and knows(view, view.index(shown["size"]), patch, told)
    if len(patch) == 1 and patch[0]["op"] in ("add", "replace") and begins(shown, patch[0]["path"]):
        return not patch[0]["path"].endswith("/-")  # the value is the patch's own
    if any(
        may_shift(one[place], shown)
        for one in patch
        if one["op"] != "replace"
        for place in ("path", "from")
        if place in one
    ):
        return False
    from_outside = any(not begins(one["from"], shown) for one in patch if "from" in one)
    inside = all(operation["path"].count("/") > 1 for operation in operations_on(place, told))
    return inside and not from_outside


def may_shift(pointer, shown):
    """True if the slot is gone from its place if the pointer's last token is a position in a list:
    the slots may not tell."""
    holder, _, token = pointer.rpartition("/")
    return (token.isdigit() or token == "-") and shown.startswith(holder + "/")


def begins(pointer, prefix):
    return pointer == prefix or pointer.startswith(prefix + "/")
