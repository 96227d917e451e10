"""A store of several keepers in PostgreSQL: each has the rooms that its relay has.

Each room has an advisory lock, which the connection of its keeper holds, and by which that keeper
writes the room's states. So what ends the lock ends the writes with it, as with the lease of a
whole store (postgresql.py). That lease is shared here: a keeper of the whole store, or a `restore`,
is kept out.
"""
from __future__ import annotations

import contextlib
import os
import socket
from typing import Any, List, Optional, Set

from .postgresql import SILENCE, PostgreSQL, key
from .state import State
from .store import LeaseLost

CHECK, ANSWER = 1.0, 3.0
"""Seconds from one check of the locks to the next one, and how long a statement may take. Both
together are less than the server waits for a keeper that is silent, by more than a relay takes to
stop."""
SILENT = 12
"""Seconds after which the server takes the locks of a keeper that is silent."""
CHANNEL = "relay_keeper"


class Shared(PostgreSQL):
    SILENCE = {**SILENCE, "connect_timeout": "3"}
    ITS_SILENCE = f"""SET tcp_keepalives_idle = {SILENT // 2}; SET tcp_keepalives_interval = 2;
SET tcp_keepalives_count = {SILENT // 4}; SET tcp_user_timeout = {SILENT * 1000}"""
    LEASE = "SELECT pg_try_advisory_lock_shared(?)"

    def __init__(self, address: str, relay: str, history: int, apart: float):
        super().__init__(address, relay, history, apart)
        self._held: Set[str] = set()  # what the locks stand for
        self._asked: List[str] = []  # rooms that other keepers asked for

    def take(self) -> bool:
        if not super().take():
            return False
        self._transaction(lambda run: run(f"LISTEN {CHANNEL}", ()), leased=True)
        assert self._connection is not None
        self._connection.add_notify_handler(self._hear)
        return True

    # Rooms.

    def take_room(self, room: str) -> bool:
        """False if another keeper has it."""
        return self._take(f"room {room}")

    def give_room(self, room: str) -> None:
        """Writes of the room are refused from now on."""
        self._held.discard(f"room {room}")
        statement, values = "SELECT pg_advisory_unlock(?)", (self._key_of(f"room {room}"),)
        self._transaction(lambda run: run(statement, values), leased=True)

    def take_epoch(self, epoch: int) -> bool:
        """False if another keeper's relay has that number."""
        return self._take(f"epoch {epoch}")

    def ask_for(self, room: str) -> None:
        """Tells the other keepers that this one wants a room."""
        values = CHANNEL, f"{self._relay} {room}"
        self._transaction(lambda run: run("SELECT pg_notify(?, ?)", values), leased=True)

    def asked_for(self) -> List[str]:
        """The rooms that keepers asked for since the last call."""
        with self._one_at_a_time:
            connection = self._connected(leased=True)
            try:
                connection.pgconn.consume_input()
                while (note := connection.pgconn.notifies()) is not None:
                    self._note(note.extra.decode())
            except self._driver.Error as error:
                raise LeaseLost(f"{self.where}: the locks are lost: {error}") from error
            asked, self._asked = self._asked, []
        return asked

    def cut(self) -> None:
        """Ends the connection under a statement that waits for it."""
        connection = self._connection
        if connection is not None and not connection.closed:
            with contextlib.suppress(OSError, self._driver.Error):
                with socket.socket(fileno=os.dup(connection.fileno())) as line:
                    line.shutdown(socket.SHUT_RDWR)

    # What is written of a room that this keeper has.

    def put(self, state: State) -> Optional[int]:
        self._own(state.room)
        return super().put(state)

    def mark(self, room: str, epoch: int, revision: int) -> None:
        self._own(room)
        super().mark(room, epoch, revision)

    def set_aside(self, room: str) -> Optional[str]:
        self._own(room)
        return super().set_aside(room)

    def _own(self, room: str) -> None:
        if f"room {room}" not in self._held:
            raise LeaseLost(f"{self.where}: the lock of {room} is not held")

    def _take(self, what: str) -> bool:
        if what in self._held:
            return True
        statement, values = "SELECT pg_try_advisory_lock(?)", (self._key_of(what),)
        [[is_taken]] = self._transaction(lambda run: run(statement, values)[1], leased=True)
        if is_taken:
            self._held.add(what)
        return bool(is_taken)

    def _key_of(self, what: str) -> int:
        return key(f"relay-keeper {self._relay} {what}")

    def _hear(self, note: Any) -> None:
        self._note(note.payload)

    def _note(self, payload: str) -> None:
        relay, _, room = payload.partition(" ")
        if relay == self._relay:
            self._asked.append(room)
