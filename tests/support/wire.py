"""A WebSocket client that speaks RFC 6455 as far as it has to. Its masks are of zeros, so its
frames can be made beforehand; and it can send what no good client sends."""

import json
import socket

from support.patience import Deadline, OutOfTime

HANDSHAKE = (
    "GET /rooms/%s HTTP/1.1\r\nHost: localhost\r\nUpgrade: websocket\r\nConnection: Upgrade\r\n"
    "Sec-WebSocket-Key: dGhlIHNhbXBsZSBub25jZQ==\r\nSec-WebSocket-Version: 13\r\n\r\n"
)
TEXT, BINARY, CONTINUATION, PING = 1, 2, 0, 9
LAST = 0x80


class Ended(Exception):
    """The relay ended the connection, or refused the opening; the words say how."""


class Refused(Ended):
    """The relay refused the opening, with another status than 101."""


def frame(content, opcode=TEXT, is_last=True):
    """A frame as a client sends it: a whole text message, or a fragment of one."""
    length = len(content).to_bytes(8, "big")
    if len(content) < 126:
        head = bytes([0x80 | len(content)])
    elif len(content) < 65_536:
        head = b"\xfe" + length[-2:]
    else:
        head = b"\xff" + length
    return bytes([opcode | (LAST if is_last else 0)]) + head + bytes(4) + content


def compact(value):
    return json.dumps(value, separators=(",", ":"))


def request(word, number=1, **members):
    """The frame of a request."""
    return frame(compact({"do": word, "id": number, **members}).encode())


def connected(port, address="127.0.0.1", seconds=60, source=None):
    """A TCP connection that delays nothing, from this address of the machine if one is named."""
    stream = socket.create_connection((address, port), seconds, source and (source, 0))
    stream.setsockopt(socket.IPPROTO_TCP, socket.TCP_NODELAY, 1)
    return stream


def listens(port, address="127.0.0.1"):
    try:
        connected(port, address).close()
    except OSError:
        return False
    return True


def all_of(stream):
    """Reads what comes until the other side closes."""
    return b"".join(iter(lambda: stream.recv(1 << 16), b""))


class Client:
    """One session. Every call ends by the deadline, or in PATIENCE if there is none, by OutOfTime;
    what had come by then is kept for the next call. `connect` makes its stream, as `connected`
    does."""

    def __init__(self, port, room, deadline=None, connect=connected):
        self.deadline, self.input = deadline, bytearray()
        try:
            self.stream = connect(port, seconds=self._left())
        except TimeoutError:
            raise OutOfTime from None
        except OSError as fault:
            raise Ended(f"ended: {fault.strerror}") from None
        try:
            self._enter(room)
        except BaseException:
            self.stream.close()
            raise

    def _enter(self, room):
        self.send((HANDSHAKE % room).encode())
        status = self._head().split(b"\r\n")[0].decode()
        if not status.startswith("HTTP/1.1 101 "):
            raise Refused(f"refused by {status}")
        self.welcome = self.message()

    def __enter__(self):
        return self

    def __exit__(self, *_):
        self.close()

    def send(self, frames):
        self._within(self.stream.sendall, frames)

    def message(self):
        """The next message."""
        while (text := self._text()) is None:
            self._receive()
        return json.loads(text)

    def until(self, **members):
        """The next message with such members; those before it are forgotten."""
        while not members.items() <= (message := self.message()).items():
            pass
        return message

    def ask(self, frames):
        """Sends a request, and gives the first reply; patches and snapshots before it are
        forgotten."""
        self.send(frames)
        while (reply := self.message())["kind"] in ("patch", "snapshot"):
            pass
        return reply

    def set(self, value, path="", number=1):
        """The reply to an edit that puts a value in a place."""
        return self.ask(
            request("edit", number, patch=[{"op": "add", "path": path, "value": value}])
        )

    def watch(self, view):
        """The snapshot of a new view."""
        self.send(request("watch", view=view))
        return self.until(kind="snapshot")

    def close(self):
        self.stream.close()

    def _left(self):
        return (self.deadline or Deadline()).left()

    def _within(self, call, *words):
        self.stream.settimeout(self._left())
        try:
            return call(*words)
        except TimeoutError:
            raise OutOfTime from None
        except OSError as fault:
            raise Ended(f"ended: {fault.strerror}") from None

    def _receive(self):
        part = self._within(self.stream.recv, 1 << 16)
        if not part:
            raise Ended("ended without a reply")
        self.input += part

    def _head(self):
        while (end := self.input.find(b"\r\n\r\n")) < 0:
            self._receive()
        return self._take(end + 4)

    def _text(self):
        """The text of the frame at the front, if all of it has come. The relay sends each message
        in one frame."""
        size, start = self.input[1] if len(self.input) > 1 else 0, 2
        if size > 125:
            start = 4 if size == 126 else 10
            size = int.from_bytes(self.input[2:start], "big")
        if len(self.input) < max(start, 2) or len(self.input) < start + size:
            return None
        if self.input[0] != LAST | TEXT:
            raise Ended(f"ended by a frame {self.input[0]:#x}")
        return self._take(start + size)[start:]

    def _take(self, count):
        taken = bytes(self.input[:count])
        del self.input[:count]
        return taken
