"""A client under test, over the lines of docs/CONFORMANCE.md."""
import contextlib, json, queue, subprocess, threading

URL = "ws://127.0.0.1:1/rooms/board"
"""A room's address at which nothing listens: the client's connections are played over the driver's
lines."""
PATIENCE = 60
"""Seconds for an answer of the driver, or for another connection."""
SHORT = 400
"""Characters of a value in the words of a failure."""


class Failed(Exception):
    """The client did something that it may not, or did not do what it has to. If it holds something
    wrong, `should` is what it should hold."""

    def __init__(self, words, should=None):
        super().__init__(words)
        self.should = should


class Driver:
    def __init__(self, command):
        pipe = subprocess.PIPE
        try:
            self.process = subprocess.Popen(
                command, stdin=pipe, stdout=pipe, text=True, encoding="utf-8"
            )
        except OSError as error:
            raise Failed(f"the driver cannot be started: {error.strerror}") from error
        self.lines = queue.Queue()
        self.traits = []  # what the driver says of the client
        # The relay's last text, and what was held when the client was looked at last.
        self.heard, self.held = None, None
        threading.Thread(target=self._read, daemon=True).start()

    def begin(self, view, **more):
        self.opened, self.said, self.ended, self.left = 0, [], {}, False
        self.address = f"{URL}/watch" if more.get("readOnly") else URL
        self.tell(do="connect", url=URL, view=view, **more)

    def end(self):
        self.tell(do="end")
        self.look()

    def quit(self):
        with contextlib.suppress(BrokenPipeError):
            self.process.stdin.close()
        try:
            return self.process.wait(PATIENCE)
        except subprocess.TimeoutExpired:
            self.process.kill()
            return self.process.wait()

    def tell(self, **line):
        try:
            self.process.stdin.write(json.dumps(line, ensure_ascii=False) + "\n")
            self.process.stdin.flush()
        except OSError as error:
            raise Failed("the client has ended") from error

    def hear(self, text):
        """The relay's text arrives."""
        self.heard = text
        self.tell(do="hear", text=text)

    def hear_late(self, text):
        """The relay's text arrives on the connection that the client lost or left last."""
        self.heard = f"{text} (late, on a connection that is gone)"
        self.tell(do="late", text=text)

    def look(self):
        """Returns what the client holds, when it has done all that follows from what it was
        told."""
        self.tell(do="look")
        self.held = self._until("held")
        return self.held

    def until_opening(self):
        """Waits for the next handshake, if it has not begun yet."""
        if not self.opened:
            self._until("opens")
        self.opened -= 1

    def _read(self):
        for line in self.process.stdout:
            self.lines.put(line)
        self.lines.put(None)

    def _until(self, word):
        while True:
            try:
                line = self.lines.get(timeout=PATIENCE)
            except queue.Empty:
                raise Failed(f"no line with {word} within {PATIENCE} seconds") from None
            if line is None:
                raise Failed("the client has ended")
            try:
                told = json.loads(line)
                self._take(told)
            except (ValueError, TypeError, KeyError) as error:
                raise Failed(f"not a line of a driver: {line.strip()[:SHORT]}") from error
            if word in told:
                return told[word]

    def _take(self, told):
        if "traits" in told:
            self.traits = told["traits"]
        elif "opens" in told:
            self.opened += 1
            if told["opens"] != self.address:
                raise Failed(f"it opens {told['opens']}, and not {self.address}")
        elif "says" in told:
            self.said.append(told["says"])
        elif "leaves" in told:
            self.left = True
        elif "ends" in told:
            if told["ends"] in self.ended:
                raise Failed(f"{told['ends']} ends a second time: {told}")
            self.ended[told.pop("ends")] = told
        elif "held" not in told:
            raise KeyError("no known member")


def short(value):
    """A value's text, cut where a line would be too long to read."""
    told = (
        value if isinstance(value, str) else json.dumps(value, ensure_ascii=False, sort_keys=True)
    )
    return told if len(told) < SHORT else f"{told[:SHORT]}.."
