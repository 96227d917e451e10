"""Attacks by heavy edits (heavy.py): what one client's few bytes make the relay compute and
hold."""

import heavy
from attackers import Wrong, attack
from support import relay, wire

LEAVING = 220
WATCHERS = 36
ROOMS = 9
EDITS_A_ROOM = 40
# Of lists, and of copies in one edit: each next size fits where the last one did not.
ITEMS = [15_000, 1_500, 150]
COPIES = [64, 32, 16, 8, 4, 2, 1]
EDITORS = 18


@attack
def edit_before_watchers(attackers):
    """One edit before 36 watchers of 16 slots, who read nothing more."""
    editor = attackers.open("heavy")
    heavy.begin(editor)
    for _ in range(WATCHERS):
        attackers.open("heavy").watch(heavy.VIEW)
    heavy.edit_heaviest(editor)


@attack
def resume(attackers):
    """A resume of 16 slots over 8 edits."""
    editor = attackers.open("heavy")
    heavy.begin(editor)
    edit_often(editor, 8)
    request = wire.request("resume", epoch=relay.EPOCH, rev=1, view=heavy.VIEW)
    try:
        reply = attackers.open("heavy").ask(request)
    except wire.Ended:  # memory was refused
        return
    if reply["kind"] != "resumed":
        raise Wrong(f"a resume is answered {reply}")


def edit_often(editor, count):
    copies = heavy.OPERATIONS
    for _ in range(count):
        copies = heavy.edit_heaviest(editor, copies)


@attack
def silent_watcher(attackers):
    """32 edits before one watcher, who reads nothing more and then leaves."""
    editor = attackers.open("heavy")
    heavy.begin(editor)
    attackers.open("heavy").watch(heavy.VIEW)
    edit_often(editor, 32)


@attack
def histories(attackers):
    """Edits to 9 rooms, which are then left. When memory is refused they go on with smaller ones,
    so that no memory is left."""
    sizes = [(items, copies) for items in ITEMS for copies in COPIES]
    accepted = 0
    for room in range(ROOMS):
        edits = 0
        while edits < EDITS_A_ROOM and sizes:
            made, copies = fill(attackers, f"heavy{room}", *sizes[0], EDITS_A_ROOM - edits)
            edits += made
            sizes[:1] = [(sizes[0][0], copies)] if copies else []
        accepted += edits
    if not accepted:
        raise Wrong("no edit to any room is accepted")


def fill(attackers, room, items, copies, count):
    """So many edits in one session. How many were accepted, and of how many copies the last one
    was; none if the relay then ended it: it refuses a session, or an edit, for which it finds no
    memory."""
    made = 0
    try:
        editor = attackers.open(room)
        heavy.begin(editor, items)
        while made < count:
            copies = heavy.edit_heaviest(editor, copies)
            made += 1
    except wire.Ended:
        return made, None
    return made, copies


@attack
def flood(attackers):
    """The heaviest edits from 18 connections for five seconds, as fast as they are read."""
    editors = begun(attackers, heavy.begin)
    attackers.pour(editors, heavy.edit(heavy.edit_heaviest(editors[0])))


@attack
def pinging_watchers(attackers):
    """An edit that makes a snapshot of 16 slots due for each of 36 watchers, who read, and ping for
    five seconds as fast as they are read."""
    editor = attackers.open("heavy")
    heavy.begin(editor)
    watchers = [attackers.open("heavy") for _ in range(WATCHERS)]
    for watcher in watchers:
        watcher.watch(heavy.VIEW)
    heavy.edit_heaviest(editor)
    attackers.pour(watchers, wire.frame(b"", wire.PING))


@attack
def removals(attackers):
    """Removals from large objects, from 18 connections for five seconds, as fast as they are
    read."""
    editors = begun(attackers, lambda editor: heavy.set_document(editor, heavy.OBJECT))
    attackers.pour(editors, heavy.EDIT_MEMBERS)


@attack
def wills(attackers):
    """The heaviest edits are the wills of 220 sessions of one room, which all end at once."""
    editor = attackers.open("heavy")
    heavy.begin(editor)
    copies = heavy.edit_heaviest(editor)
    for client in attackers.open_many(["heavy"] * LEAVING):
        heavy.leave(client, copies)
    attackers.leave()
    attackers.stay(5)


@attack
def watches(attackers):
    """Watches of 16 slots of a long string, from 18 connections for five seconds, as fast as they
    are read."""
    editors = begun(attackers, lambda editor: heavy.set_document(editor, heavy.STRING))
    attackers.pour(editors, heavy.WATCH_STRING)


def begun(attackers, begin):
    """Connections that each have a room of their own, with a document."""
    editors = [attackers.open(f"heavy{room}") for room in range(EDITORS)]
    for editor in editors:
        begin(editor)
    return editors
