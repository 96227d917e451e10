"""The store that the words of a command name."""
from __future__ import annotations

import pathlib
from typing import Optional

from .folder import Folder
from .names import is_name
from .shared import Shared
from .store import Store, Taken

NAME = "relay"
"""Of the relay whose rooms are kept, where none is given."""
POSTGRESQL = ("postgresql://", "postgres://")


class BadStore(Exception):
    """The words name no store."""


def opened(
    where: str, relay: Optional[str] = None, history: int = 1, apart: float = 600.0
) -> Store:
    """`where` is files:FOLDER, sqlite:PATH, postgresql://.., or a folder, in whose name no `:`
    stands before the first `/`: that would be a scheme. A database may have the rooms of several
    relays, each under a name of its own; a folder has those of one."""
    _check(relay)
    scheme, colon, rest = where.partition(":")
    if where.startswith(POSTGRESQL):
        from .postgresql import PostgreSQL

        return PostgreSQL(where, relay or NAME, history, apart)
    if scheme == "sqlite" and rest:
        from .sqlite import SQLite

        return SQLite(pathlib.Path(rest), relay or NAME, history, apart)
    is_named = scheme == "files" and rest != ""
    if not where or (colon and "/" not in scheme and not is_named):
        known = "files:FOLDER, sqlite:PATH, postgresql://.. or a folder"
        raise BadStore(f"{where!r}: a store is {known}, as ./NAME if its name has a colon")
    if relay is not None:
        raise BadStore("--relay is for databases; a folder has the rooms of one relay")
    return Folder(pathlib.Path(rest if is_named else where), history, apart)


def shared(where: str, relay: Optional[str], history: int, apart: float) -> Shared:
    """Of several keepers."""
    _check(relay)
    if not where.startswith(POSTGRESQL):
        raise BadStore(f"{where!r}: several keepers share a database, postgresql://..")
    return Shared(where, relay or NAME, history, apart)


def _check(relay: Optional[str]) -> None:
    if relay is not None and not is_name(relay):
        raise BadStore(f"{relay!r}: a relay's name is as that of a room")


def check_relay(store: Store, relay: Optional[str]) -> None:
    """`BadStore` if it is not clear whose rooms are meant: the store has those of other relays, and
    none is named, or one of which it has nothing."""
    known = store.relays()
    if known and known != [NAME] if relay is None else known and relay not in known:
        names = ", ".join(known)
        raise BadStore(f"{store.where} has rooms of these relays: {names}; name one by --relay")


def take(store: Store, instead: str = "stop it first") -> None:
    """`Taken` if another keeper holds the lease; `instead` is what to do then."""
    if not store.take():
        raise Taken(f"a keeper runs on {store.where}: {instead}")
