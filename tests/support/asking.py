"""Requests to the admin port, byte by byte as they are given, and their replies."""

import dataclasses
import json

from support.wire import all_of, connected


@dataclasses.dataclass(frozen=True)
class Reply:
    status: int
    fields: dict
    body: bytes


def head(line, *fields, host="localhost"):
    """The head of a request; no Host if `host` is None."""
    hosts = [] if host is None else [f"Host: {host}"]
    return "\r\n".join([line, *hosts, *fields, "", ""]).encode()


def ask(port, *parts):
    """The reply to what these parts are together, each sent by itself."""
    with connected(port) as stream:
        for part in parts:
            stream.sendall(part)
        front, _, body = all_of(stream).partition(b"\r\n\r\n")
    line, *fields = front.decode().split("\r\n")
    version, status, _ = line.split(" ", 2)
    assert version == "HTTP/1.1", line
    reply = Reply(int(status), dict(field.split(": ", 1) for field in fields), body)
    assert reply.fields["Connection"] == "close", reply
    assert reply.fields["X-Content-Type-Options"] == "nosniff", reply
    # A reply without content has no length.
    assert (status in ("204", "304")) == ("Content-Length" not in reply.fields), reply
    assert int(reply.fields.get("Content-Length", 0)) == len(body), reply
    return reply


def delete(port, room):
    return ask(port, head(f"DELETE /rooms/{room} HTTP/1.1"))


def get(port, path):
    return ask(port, head(f"GET {path} HTTP/1.1"))


def metric(port, name):
    """The value of a metric; the name has its labels, as `a_total{of="b"}`."""
    lines = get(port, "/metrics").body.decode().splitlines()
    return next(int(line[len(name) + 1 :]) for line in lines if line.startswith(f"{name} "))


def rooms(port):
    """The entry that is told of each room, by its name."""
    return {room.pop("name"): room for room in json.loads(get(port, "/rooms").body)}


def wanted(port):
    """The rooms of a closed relay at which clients were refused."""
    return json.loads(get(port, "/wanted").body)


def door(port, method, room):
    """Opens a room to clients by PUT, or closes it by DELETE: the status, and what is said."""
    reply = ask(port, head(f"{method} /open/{room} HTTP/1.1"))
    return reply.status, reply.body
