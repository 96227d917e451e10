"""A store in a file of SQLite."""
from __future__ import annotations

import pathlib
import sqlite3
import threading
from typing import Any, Callable, List, Optional, Sequence, Tuple, TypeVar

from .lock import Lock
from .store import StoreFailed
from .table import Row, Run, Table

T = TypeVar("T")


class SQLite(Table):
    """Others may read it meanwhile (WAL), and a write that was taken lasts over a loss of power
    (`synchronous=FULL`). The lock stands beside it, under its name and `.RELAY.lock`."""

    def __init__(self, path: pathlib.Path, relay: str, history: int, apart: float):
        super().__init__(f"sqlite:{path}", relay, history, apart)
        self._path, self._held = path, Lock(path.with_name(f"{path.name}.{relay}.lock"))
        self._one_at_a_time = threading.Lock()
        self._connection: Optional[sqlite3.Connection] = None

    def take(self) -> bool:
        self._path.parent.mkdir(parents=True, exist_ok=True)
        if not self._held.take():
            return False
        self._connect("rwc")
        self._transaction(self._make, leased=True)
        return True

    def check(self) -> None:
        self._held.check()

    def close(self) -> None:
        if self._connection is not None:
            self._connection.close()
            self._connection = None
        self._held.close()

    def _connect(self, mode: str) -> sqlite3.Connection:
        try:
            name = f"{self._path.absolute().as_uri()}?mode={mode}"
            made = sqlite3.connect(name, uri=True, isolation_level=None, check_same_thread=False)
            self._connection = made
            made.execute("PRAGMA journal_mode = WAL")
            made.execute("PRAGMA synchronous = FULL")
        except sqlite3.Error as error:
            raise StoreFailed(f"{self.where}: {error}") from error
        return made

    def _transaction(self, work: Callable[[Run], T], leased: bool = False) -> T:
        if leased:
            self._held.check()
        with self._one_at_a_time:
            connection = self._connection or self._connect("rw")
            try:
                connection.execute("BEGIN IMMEDIATE" if leased else "BEGIN")
                try:
                    done = work(_runs(connection))
                    connection.execute("COMMIT")
                    return done
                finally:
                    if connection.in_transaction:
                        connection.execute("ROLLBACK")
            except sqlite3.Error as error:
                raise StoreFailed(f"{self.where}: {error}") from error


def _runs(connection: sqlite3.Connection) -> Run:
    def run(statement: str, values: Sequence[Any]) -> Tuple[int, List[Row]]:
        cursor = connection.execute(statement, tuple(values))
        return cursor.rowcount, cursor.fetchall()

    return run
