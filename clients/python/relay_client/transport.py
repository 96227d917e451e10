"""A connection to a room, by the `websockets` package."""
from __future__ import annotations

import asyncio
import sys
from contextlib import asynccontextmanager
from typing import Any, AsyncContextManager, AsyncIterator, Callable, Dict, Protocol, Union

try:
    import websockets
    import websockets.exceptions
except ImportError as missing:
    raise ImportError(
        "relay_client needs the package websockets: pip install ./clients/python in a virtual"
        f" environment, or Debian's python3-websockets (for /usr/bin/python3; this is"
        f" {sys.executable})"
    ) from missing

from .faults import HandshakeFailed


_connect: Any = getattr(websockets, "connect")  # its types differ from version to version


class LinkLost(Exception):
    """The connection was lost."""


class Link(Protocol):
    """The interface that a client needs of a connection."""

    def __aiter__(self) -> AsyncIterator[str]:
        """The texts of the relay, until the connection is lost."""

    async def send(self, text: str) -> None:
        """`LinkLost` if the connection was lost."""

    def abort(self) -> None:
        """Ends it at once, without waiting for a peer that may be gone."""


OpenLink = Callable[[str], AsyncContextManager[Link]]
"""Opens a connection to an address, and closes it in the end. `HandshakeFailed` if there is none to
be had."""


class _Websocket:
    def __init__(self, socket: Any):
        self._socket = socket

    async def __aiter__(self) -> AsyncIterator[str]:
        try:
            async for text in self._socket:
                yield _text(text)
        except (OSError, websockets.exceptions.WebSocketException):
            pass

    async def send(self, text: str) -> None:
        try:
            await self._socket.send(text)
        except (OSError, websockets.exceptions.WebSocketException) as error:
            raise LinkLost() from error

    def abort(self) -> None:
        self._socket.transport.abort()


def _text(text: Union[str, bytes]) -> str:
    return text if isinstance(text, str) else text.decode()


def websocket(words: Dict[str, Any], patience: float) -> OpenLink:
    """Connections with further words for `websockets.connect`. The client asks by requests of its
    own whether the relay is still there, so `websockets` need not."""
    options = {
        "max_size": None,
        "ping_interval": None,
        "open_timeout": patience,
        "close_timeout": 1,
        **words,
    }

    @asynccontextmanager
    async def opened(url: str) -> AsyncIterator[Link]:
        try:
            socket: Any = await _connect(url, **options)
        except (OSError, asyncio.TimeoutError, websockets.exceptions.WebSocketException) as error:
            raise _failed(error) from error
        try:
            yield _Websocket(socket)
        finally:
            await socket.close()

    return opened


def _failed(error: Exception) -> HandshakeFailed:
    # Until version 13 of websockets the status is the error's own, from then on its response's.
    status = getattr(error, "status_code", None) or getattr(
        getattr(error, "response", None), "status_code", None
    )
    return HandshakeFailed(
        "unreachable" if status is None else "refused", status, str(error) or type(error).__name__
    )
