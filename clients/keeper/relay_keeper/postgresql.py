"""A store in a database of PostgreSQL, by Debian's python3-psycopg."""
from __future__ import annotations

import contextlib
import hashlib
import importlib
import threading
from typing import Any, Callable, Dict, List, Optional, Sequence, Tuple, TypeVar

from .store import LeaseLost, StoreFailed
from .table import Row, Run, Table

T = TypeVar("T")

# A server that is gone is known after half a minute, and one that is there keeps the lease of a
# keeper whose machine is gone no longer. What the address says itself is left as it is.
SILENCE = {
    "connect_timeout": "10",
    "keepalives_idle": "10",
    "keepalives_interval": "5",
    "keepalives_count": "4",
    "tcp_user_timeout": "30000",
    "application_name": "relay-keeper",
}
ITS_SILENCE = """SET tcp_keepalives_idle = 10; SET tcp_keepalives_interval = 5;
SET tcp_keepalives_count = 4; SET tcp_user_timeout = 30000"""
LEASE = "SELECT pg_try_advisory_lock(?)"


class PostgreSQL(Table):
    """The lease is an advisory lock of the one connection by which everything is written. So what
    ends the lease ends the writes with it, and no write of an earlier holder can come later."""

    JSON = "json"
    BYTES = "octet_length(CAST(document AS text))"
    SILENCE, ITS_SILENCE, LEASE = SILENCE, ITS_SILENCE, LEASE

    def __init__(self, address: str, relay: str, history: int, apart: float):
        self._driver = _driver()
        given: Dict[str, Any] = self._parsed(address)
        shown = given.get("dbname", "postgresql"), given.get("host", "this machine")
        super().__init__("database {} of {}".format(*shown), relay, history, apart)
        self._hosts = _each_host({**self.SILENCE, **given})
        self._key = key(f"relay-keeper {relay}")
        self._one_at_a_time = threading.Lock()
        self._connection: Optional[Any] = None
        self._is_holder = False

    def take(self) -> bool:
        [[is_taken]] = self._transaction(lambda run: run(self.LEASE, (self._key,))[1])
        if is_taken:
            self._is_holder = True
            self._transaction(self._made, leased=True)
        return bool(is_taken)

    def check(self) -> None:
        self._transaction(lambda run: run("SELECT 1", ()), leased=True)

    def close(self) -> None:
        if self._connection is not None:
            self._connection.close()
            self._connection, self._is_holder = None, False

    def _made(self, run: Run) -> None:
        # Two at once would make it twice, each for a relay of its own.
        run("SELECT pg_advisory_xact_lock(?)", (key("relay-keeper"),))
        self._make(run)

    def _parsed(self, address: str) -> Dict[str, Any]:
        try:
            parsed = self._driver.conninfo.conninfo_to_dict(address)
        except self._driver.Error as error:
            raise StoreFailed(f"the address of the database: {error}") from error
        return dict(parsed)

    def _transaction(self, work: Callable[[Run], T], leased: bool = False) -> T:
        with self._one_at_a_time:
            connection = self._connected(leased)
            try:
                with connection.transaction(), connection.cursor() as cursor:
                    return work(_runs(cursor))
            except self._driver.Error as error:
                if connection.closed and self._is_holder:
                    raise LeaseLost(f"{self.where}: the lease is lost: {error}") from error
                raise StoreFailed(f"{self.where}: {error}") from error

    def _connected(self, leased: bool) -> Any:
        """The connection. It is made anew if it was lost, but never while it was to hold the
        lease."""
        is_there = self._connection is not None and not self._connection.closed
        if (leased or self._is_holder) and not (is_there and self._is_holder):
            state = "lost" if self._is_holder else "not held"
            raise LeaseLost(f"{self.where}: the lease is {state}")
        if is_there:
            return self._connection
        try:
            self._connection = self._connect()
            self._connection.execute(self.ITS_SILENCE)
        except self._driver.Error as error:
            raise StoreFailed(f"{self.where}: {error}") from error
        return self._connection

    def _connect(self) -> Any:
        """To the first host that is as the address wants it."""
        *others, last = self._hosts
        for words in others:
            with contextlib.suppress(self._driver.Error):
                return self._driver.connect(autocommit=True, **words)
        return self._driver.connect(autocommit=True, **last)


def _driver() -> Any:
    try:
        return importlib.import_module("psycopg")
    except ImportError:
        wanted = "the Python package psycopg is missing (Debian: python3-psycopg)"
        raise StoreFailed(f"postgresql: {wanted}") from None


def _each_host(words: Dict[str, Any]) -> List[Dict[str, Any]]:
    """The words for each host of an address. psycopg waits for all of them together as long as
    `connect_timeout` says, so one that is gone would keep it from the next."""
    hosts, ports = (str(words.get(name, "")).split(",") for name in ("host", "port"))
    if len(hosts) == 1 or "hostaddr" in words:
        return [words]
    if len(ports) != len(hosts):
        ports = ports[:1] * len(hosts)
    return [{**words, "host": host, "port": port} for host, port in zip(hosts, ports)]


def key(words: str) -> int:
    """A number of 64 bits for an advisory lock."""
    return int.from_bytes(hashlib.sha256(words.encode()).digest()[:8], "big", signed=True)


def _runs(cursor: Any) -> Run:
    def run(statement: str, values: Sequence[Any]) -> Tuple[int, List[Row]]:
        cursor.execute(statement.replace("?", "%s"), tuple(values))
        return cursor.rowcount, cursor.fetchall() if cursor.description else []

    return run
