"""The answer to each request: its name, its bytes, and the status, with the methods that a 405
allows."""

from support.asking import head

HEALTH = "GET /health HTTP/1.1"
OPEN = "POST /open HTTP/1.1"
STOP = "POST /stop HTTP/1.1"
FORGET = "DELETE /rooms/none HTTP/1.1"
ADMIT = "PUT /open/none HTTP/1.1"
GETS = ["GET /metrics HTTP/1.1", "GET /rooms HTTP/1.1", "GET /wanted HTTP/1.1"]

HERE = [
    "localhost",
    "LOCALHOST",
    "LocalHost:1",
    "127.0.0.1",
    "127.0.0.1:65535",
    "[::1]",
    "[::1]:8080",
]
ELSEWHERE = [
    "evil.example",
    "localhost.evil.example",
    "evil.localhost",
    "localhost.",
    "localhost:",
    "localhost:80x",
    "localhost:80:80",
    "127.0.0.2",
    "127.0.0.1.evil.example",
    "127.1",
    "0.0.0.0",
    "[::]",
    "::1",
    "",
]
ORIGINS = ["null", "http://localhost", "http://127.0.0.1:8081", "https://evil.example", ""]


def rows():
    """(name, bytes, status, allowed), none of which stops the relay."""
    for host in HERE:
        yield f"Host {host}", head(HEALTH, host=host), 200, None
    for host in ELSEWHERE:
        yield f"Host {host}", head(HEALTH, host=host), 403, None
        yield f"stop, Host {host}", head(STOP, host=host), 403, None
        yield f"forget, Host {host}", head(FORGET, host=host), 403, None
        yield f"open, Host {host}", head(OPEN, host=host), 403, None
    for origin in ORIGINS:
        for line in (HEALTH, OPEN, STOP, FORGET, ADMIT, *GETS):
            yield f"Origin {origin}: {line}", head(line, f"Origin: {origin}"), 403, None
    yield "oRiGiN", head(STOP, "oRiGiN: http://localhost"), 403, None
    yield "no Host", head(STOP, host=None), 400, None
    yield "two Hosts", head(STOP, "Host: localhost"), 400, None
    yield "another Host behind", head(STOP, "host: evil.example"), 400, None
    yield "HTTP/1.0", head("GET /health HTTP/1.0"), 200, None
    yield "HTTP/2.0", head("GET /health HTTP/2.0"), 400, None
    yield "no request", b"\x16\x03\x01\x02\x00\x01\x00\r\n\r\n", 400, None
    for path in (
        "/",
        "/healthy",
        "/health/",
        "/health?x=1",
        "//health",
        "/HEALTH",
        "*",
        "http://localhost/health",
    ):
        yield path, head(f"GET {path} HTTP/1.1"), 404, None
    for path in ("/health", "/metrics", "/rooms", "/wanted"):
        for method in ("POST", "HEAD", "PUT", "get"):
            yield f"{method} {path}", head(f"{method} {path} HTTP/1.1"), 405, "GET"
    for path in ("/open", "/stop"):
        for method in ("GET", "HEAD", "OPTIONS", "DELETE"):
            yield f"{method} {path}", head(f"{method} {path} HTTP/1.1"), 405, "POST"
    yield "open, as it is", head(OPEN), 204, None
    yield "a room is open, as all are", head(ADMIT), 204, None
    yield "no room can be closed", head("DELETE /open/none HTTP/1.1"), 409, None
    for method in ("GET", "POST", "PATCH", "put"):
        yield f"{method} a door", head(f"{method} /open/none HTTP/1.1"), 405, "PUT, DELETE"
    yield "the door of no name", head("PUT /open/no%20name HTTP/1.1"), 404, None
    for method in ("HEAD", "PUT", "POST", "delete"):
        line = f"{method} /rooms/none HTTP/1.1"
        yield line, head(line), 405, "GET, PATCH, DELETE"
    yield "GET of no room", head("GET /rooms/none HTTP/1.1"), 404, None
    yield "no such room", head(FORGET), 404, None
    yield "a room without a name", head("DELETE /rooms/ HTTP/1.1"), 404, None
    yield from lengths()


def lengths():
    """The same of heads that are long."""
    yield "32 fields", head(HEALTH, *["X: x"] * 31), 200, None
    yield "33 fields", head(HEALTH, *["X: x"] * 32), 431, None
    whole = head(HEALTH, "X: ")
    yield "4,096 bytes", whole.replace(b"X: ", b"X: " + b"x" * (4_096 - len(whole))), 200, None
    yield "4,097 bytes", whole.replace(b"X: ", b"X: " + b"x" * (4_097 - len(whole))), 431, None
    yield "no end", HEALTH.encode() + b"\r\nX: " + b"x" * 8_000, 431, None
    yield "a body", head(HEALTH, "Content-Length: 5") + b"hello", 200, None
