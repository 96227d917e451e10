"""The words of the command `relay-keeper`, and what each does. Each gives the status of the
program."""
from __future__ import annotations

import argparse
import asyncio
import contextlib
import logging
import sys
from typing import Callable, Dict, Iterator, List, Optional

from .admin import Admin
from .keeping import Asked, keep
from .lines import exported, imported, listed
from .names import BadName, Chosen, is_name, listed as names_of
from .pace import Pace
from .putting_back import PuttingBack
from .restore import listing, restore_kept, restore_room
from .share import Group, share
from .store import Store
from .stores import BadStore, check_relay, opened, shared, take

log = logging.getLogger("relay_keeper")


def keeping(asked: argparse.Namespace) -> int:
    words = _with_store(asked)
    chosen = Chosen(words, asked.match)
    with _opened(asked, asked.history, asked.apart) as store:
        asyncio.run(
            keep(
                Asked(
                    asked.url,
                    store,
                    lambda: Pace(asked.pace, asked.age),
                    lambda: _named(chosen, asked, store),
                    chosen,
                    _admin(asked),
                    asked.every,
                )
            )
        )
    return 0


def sharing(asked: argparse.Namespace) -> int:
    store = shared(asked.store, asked.relay, asked.history, asked.apart)
    with contextlib.closing(store):
        asyncio.run(
            share(
                Group(
                    asked.url,
                    store,
                    lambda: Pace(asked.pace, asked.age),
                    Admin(asked.admin),
                    asked.idle,
                )
            )
        )
    return 0


def _named(chosen: Chosen, asked: argparse.Namespace, store: Store) -> List[str]:
    """The rooms that are kept without a list of the relay."""
    known = [entry.room for entry in store.list()] if asked.match else []
    if asked.list is not None:
        known += names_of(asked.list)
    rooms = chosen.among(known)
    if not rooms:
        raise BadName("no room is named, and none matches; with --admin the relay is asked")
    return rooms


def restoring(asked: argparse.Namespace) -> int:
    words, admin = _with_store(asked), _admin(asked)
    with _of_one_relay(asked) as store:
        if admin is not None and not words:
            return _restore_all(admin, store, Chosen([], asked.match))
        if admin is not None or not 1 <= len(words) <= 2 or not is_name(words[0]):
            raise BadName("restore takes a room, and perhaps a time; or --admin alone")
        if len(words) == 1:
            print("\n".join(listing(store, words[0])) or f"{words[0]}: no older state is kept")
        elif asked.url is not None:
            print(asyncio.run(restore_room(asked.url, store, *words)))
        else:
            take(store, "name its relay by --url, to restore the room there, or stop it first")
            print(restore_kept(store, *words))
    return 0


def _restore_all(admin: Admin, store: Store, chosen: Chosen) -> int:
    take(store)
    putting, there = PuttingBack(admin, store), admin.rooms()
    came = putting.put_back(chosen, there, putting.epoch(there))
    admin.open()
    left = f"; not put back: {', '.join(came.left)}" if came.left else ""
    print(f"{came.put_back} rooms have their documents{left}")
    return 1 if came.left else 0


def listing_all(asked: argparse.Namespace) -> int:
    chosen = Chosen(asked.words, asked.match)
    with _of_one_relay(asked) as store:
        for entry in store.list():
            if entry.room in chosen:
                print(listed(entry))
    return 0


def exporting(asked: argparse.Namespace) -> int:
    chosen = Chosen(asked.words, asked.match)
    with _of_one_relay(asked) as store:
        for entry in store.list():
            state = store.get(entry.room) if entry.room in chosen else None
            if state is not None:
                print(exported(state))
    return 0


def importing(asked: argparse.Namespace) -> int:
    count, older = 0, 0
    with _opened(asked) as store:
        take(store)
        for number, line in enumerate(sys.stdin, 1):
            if store.put(imported(line, number)) is None:
                older += 1
            else:
                count += 1
    print(f"{count} rooms written, {older} left out, of which the store has a later revision")
    return 0


COMMANDS: Dict[str, Callable[[argparse.Namespace], int]] = {
    "keep": keeping,
    "share": sharing,
    "restore": restoring,
    "list": listing_all,
    "export": exporting,
    "import": importing,
}


@contextlib.contextmanager
def _opened(asked: argparse.Namespace, history: int = 1, apart: float = 600.0) -> Iterator[Store]:
    with contextlib.closing(opened(asked.store, asked.relay, history, apart)) as store:
        yield store


@contextlib.contextmanager
def _of_one_relay(asked: argparse.Namespace) -> Iterator[Store]:
    """Opens what is there already, and checks of which relay it is."""
    with _opened(asked) as store:
        check_relay(store, asked.relay)
        yield store


def _with_store(asked: argparse.Namespace) -> List[str]:
    """The words without the store, which is the first one if no option names it."""
    words: List[str] = asked.words
    if asked.store is None:
        if not words:
            raise BadStore("no store is named: --store")
        asked.store, words = words[0], words[1:]
    return words


def _admin(asked: argparse.Namespace) -> Optional[Admin]:
    return None if asked.admin is None else Admin(asked.admin)
