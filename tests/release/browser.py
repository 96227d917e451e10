"""Enters a room as Chromium does, with the bytes that it sends: browser.py PORT. What comes back is
the sample answer of RFC 6455, section 1.3, and the welcome of a new room."""

import json
import sys

from support.wire import connected

HEAD = (
    "GET /rooms/board HTTP/1.1\r\n"
    "Host: 127.0.0.1:{port}\r\n"
    "Connection: Upgrade\r\n"
    "Pragma: no-cache\r\n"
    "Cache-Control: no-cache\r\n"
    "User-Agent: Mozilla/5.0 (X11; Linux x86_64) AppleWebKit/537.36 (KHTML, like Gecko) "
    "Chrome/130.0.0.0 Safari/537.36\r\n"
    "Upgrade: websocket\r\n"
    "Origin: http://127.0.0.1:8000\r\n"
    "Sec-WebSocket-Version: 13\r\n"
    "Accept-Encoding: gzip, deflate, br, zstd\r\n"
    "Accept-Language: en-US,en;q=0.9\r\n"
    "Sec-WebSocket-Key: dGhlIHNhbXBsZSBub25jZQ==\r\n"
    "Sec-WebSocket-Extensions: permessage-deflate; client_max_window_bits\r\n"
    "\r\n"
)


def main(port):
    with connected(port) as link, link.makefile("rb") as received:
        link.sendall(HEAD.format(port=port).encode())
        assert received.readline() == b"HTTP/1.1 101 Switching Protocols\r\n"
        fields = (line.decode().rstrip() for line in iter(received.readline, b"\r\n"))
        fields = (field.split(": ", 1) for field in fields)
        members = {name.lower(): value for name, value in fields}
        assert members["sec-websocket-accept"] == "s3pPLMBiTxaQ9kYGzzhZRbK+xOo=", members
        assert "sec-websocket-extensions" not in members, members
        opcode, length = received.read(2)
        assert opcode == 0x81 and length < 126
        welcome = json.loads(received.read(length))
        assert (welcome["kind"], welcome["rev"]) == ("welcome", 0) and welcome["epoch"] > 1, welcome


main(int(sys.argv[1]))
