"""An operator's port that is played: rooms of a relay that nobody else is in, each request noted,
and answers that are given first, where a test says so. And a store beside it."""

import contextlib
import http.server
import json
import logging
import tempfile
import threading

from relay_keeper.admin import Admin
from relay_keeper.names import Chosen
from relay_keeper.putting_back import PuttingBack
from relay_keeper.state import State
from relay_keeper.stores import opened

LIMIT = 64
EPOCH = 7
KEPT, OTHER = {"cards": ["milk"]}, {"cards": ["faster"]}
ALL = Chosen([], [])
logging.getLogger("relay_keeper").setLevel(logging.CRITICAL)


class Played:
    def __init__(self):
        self.epoch, self.limit, self.is_open = EPOCH, LIMIT, False
        self.rooms = {}  # by name: revision, document
        self.asked = []  # each request: method, path, and If-Match or None
        self.first = {}  # by method and path: answers that come before any other one
        self.meanwhile = lambda: None  # what somebody else does before the next edit

    def answer(self, method, path, fields, body):
        """The status, the further fields and the body."""
        self.asked.append((method, path, fields.get("If-Match")))
        if answers := self.first.get((method, path)):
            return answers.pop(0)
        if (method, path) == ("GET", "/rooms"):
            rooms = [self.listed(name) for name in sorted(self.rooms)]
            return 200, {}, json.dumps(rooms)
        if (method, path) == ("GET", "/metrics"):
            return 200, {}, f"# HELP relay_rooms_limit x\nrelay_rooms_limit {self.limit}\n"
        if (method, path) == ("POST", "/open"):
            self.is_open = True
            return 204, {}, ""
        room = path.removeprefix("/rooms/")
        if method == "PATCH":
            somebody, self.meanwhile = self.meanwhile, lambda: None
            somebody()
            return self.edit(room, fields, json.loads(body))
        if room not in self.rooms:
            return 404, {}, "there is no such room\n"
        if fields.get("If-None-Match") == "*":
            return 304, self.tag(room), ""
        return 200, self.tag(room), json.dumps(self.rooms[room][1])

    def listed(self, name):
        return {"name": name, "revision": self.rooms[name][0], "sessions": 0, "weight": 8}

    def tag(self, room):
        return {"ETag": f'"{self.epoch}-{self.rooms[room][0]}"'}

    def edit(self, room, fields, patch):
        assert fields["Content-Type"] == "application/json-patch+json", fields
        revision, document = self.rooms.get(room, (0, None))
        if fields.get("If-Match") not in (None, f'"{self.epoch}-{revision}"'):
            return 412, self.tag(room), '{"fault":"stale"}'
        for operation in patch:
            if operation["op"] == "test" and operation["value"] != document:
                return 422, {}, '{"at":0,"fault":"test-failed","id":1,"kind":"refused"}'
            document = operation["value"]
        if len(self.rooms | {room: 0}) > self.limit:
            return 503, {"Retry-After": "1"}, "all rooms are taken\n"
        self.rooms[room] = (revision + 1, document)
        return 200, self.tag(room), json.dumps({"kind": "done", "rev": revision + 1})


@contextlib.contextmanager
def played():
    """The port, and its address."""
    port = Played()

    class Handler(http.server.BaseHTTPRequestHandler):
        def log_message(self, *_):
            pass

        def serve(self):
            length = int(self.headers.get("Content-Length", 0))
            body = self.rfile.read(length).decode()
            status, fields, text = port.answer(self.command, self.path, self.headers, body)
            self.send_response(status)
            for name, value in fields.items():
                self.send_header(name, value)
            if status not in (204, 304):
                self.send_header("Content-Length", str(len(text.encode())))
            self.end_headers()
            self.wfile.write(text.encode())

        do_GET = do_PATCH = do_POST = serve

    server = http.server.ThreadingHTTPServer(("127.0.0.1", 0), Handler)
    serving = threading.Thread(target=server.serve_forever, args=(0.01,))
    serving.start()
    try:
        yield port, f"http://127.0.0.1:{server.server_port}"
    finally:
        server.shutdown()
        serving.join()
        server.server_close()


class Play:
    """A store, the played port, and what puts the one into the other."""

    def __init__(self, store, port, url):
        self.store, self.port, self.url, self.pauses = store, port, url, []
        self.admin = Admin(url)
        self.putting = PuttingBack(self.admin, store, self.pauses.append)

    def keep(self, room, document=KEPT, epoch=5, revision=3, at=0):
        self.store.put(State(room, epoch, revision, document, at))

    def put_back(self, chosen=ALL):
        listed = self.admin.rooms()
        return self.putting.put_back(chosen, listed, self.putting.epoch(listed))

    def has(self, room):
        return self.port.rooms.get(room, (0, "no room"))[1]


@contextlib.contextmanager
def play():
    with tempfile.TemporaryDirectory() as folder, played() as (port, url):
        with contextlib.closing(opened(folder)) as store:
            assert store.take()
            yield Play(store, port, url)
