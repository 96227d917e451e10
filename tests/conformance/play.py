"""Defines what a case of the suite says: a client under test, a relay, and what is between them."""
import json
from driver import Failed
from relay import shows, text


class Play:
    def __init__(self, driver, relay, view, **more):
        self.driver, self.relay = driver, relay
        self.keys = 0
        self.more = {}  # members that the relay's messages have besides
        self.resumes_of = None  # what the slots are that a resume has to be of
        driver.begin(view, **more)

    # Connections.

    def accept(self):
        """The client's next handshake is good, and the welcome comes."""
        self.driver.until_opening()
        self.driver.left = False
        self.relay.open()
        self.driver.tell(do="accept")
        self.draw(1)

    def fail(self, **answer):
        """There is no connection to be had; `status` if the handshake is answered."""
        self.driver.until_opening()
        self.driver.tell(do="fail", **answer)

    def cut(self):
        self.resumes_of = self.held()
        self.driver.tell(do="cut")

    # What the client says.

    def heard(self, count=None):
        """The relay reads what the client has said, or so many texts of it, and answers. Gives the
        requests."""
        self.driver.look()
        count = len(self.driver.said) if count is None else count
        said, self.driver.said = self.driver.said[:count], self.driver.said[count:]
        requests = []
        for text in said:
            requests.append(self.relay.hear(text))
            if requests[-1].get("do") == "resume":
                self.check_resume(requests[-1])
        return requests

    def check_resume(self, request):
        """A resume is of what the client holds."""
        held = self.resumes_of
        if held is None or held["slots"] is None:
            raise Failed(f"it resumes, and holds nothing that it could go on from: {request}")
        for member in ("view", "rev", "epoch"):
            if request[member] != held[member]:
                raise Failed(
                    f"it resumes with the {member} {request[member]}, and its slots are of {held}"
                )

    def asked(self, *words):
        """The relay reads: requests of these kinds came, in this order."""
        requests = self.heard()
        if [request.get("do") for request in requests] != list(words):
            raise Failed(f"it says {requests}, and not {words}")
        return requests

    def asked_for_slots(self):
        """The first request of a connection is a resume or a watch, of which a client may take
        either."""
        requests = self.heard()
        if not requests or requests[0].get("do") not in ("resume", "watch"):
            raise Failed(f"it says {requests}, and first of all neither resume nor watch")
        return requests

    def asks_anew(self):
        """A message that came does not follow from what is held, so that may be wrong: the client
        watches, on this connection or on another one, and does not resume."""
        requests = self.heard()
        if self.driver.left:
            self.resumes_of = None
            self.accept()
            requests = self.heard()
        if [request.get("do") for request in requests][:1] != ["watch"]:
            raise Failed(f"it says {requests}, and does not watch anew")

    def drops(self):
        """Something is wrong, on the relay's side or on the client's: the client drops the
        connection, and watches on the next one."""
        self.driver.look()
        if not self.driver.left:
            raise Failed("it goes on with a connection on which something is wrong")
        self.asks_anew()

    # What the relay says.

    def draw(self, count=None):
        """So many messages, or all that wait."""
        drawn = []
        while count is None or len(drawn) < count:
            message = self.relay.draw()
            if message is None:
                break
            self.say(message)
            drawn.append(message)
        if count is not None and len(drawn) < count:
            raise Failed(f"{drawn} alone wait for the client, which has not asked for more")
        return drawn

    def say(self, message):
        """In the relay's words: compact, with members in order."""
        self.driver.look()
        if self.driver.left:
            raise Failed("it has left a connection on which nothing is wrong")
        self.driver.hear(words_of({**message, **self.more}))

    def say_late(self, message):
        """Says what was on its way on a connection that is gone."""
        self.driver.hear_late(words_of(message))

    def talk(self, rounds=20):
        """Both say what they have to say, until nobody says more. Connections that the client
        leaves are opened anew. Gives the requests."""
        requests = []
        for _ in range(rounds):
            requests += self.heard()
            if self.driver.left:
                self.resumes_of = self.held()
                self.accept()
            elif not self.draw():
                return requests
        raise Failed("it goes on saying something")

    # What an application asks.

    def edit(self, *patch, **more):
        self.keys += 1
        self.driver.tell(do="edit", key=self.keys, patch=list(patch), **more)
        return self.keys

    def end_room(self):
        self.keys += 1
        self.driver.tell(do="endRoom", key=self.keys)
        return self.keys

    def will(self, *patch):
        self.keys += 1
        self.driver.tell(do="will", key=self.keys, patch=list(patch))
        return self.keys

    def present(self, path, entry):
        """The application is to be seen at a path, by an entry."""
        self.keys += 1
        self.driver.tell(do="present", key=self.keys, path=path, entry=entry)
        return self.keys

    def watch(self, view):
        self.keys += 1
        self.driver.tell(do="watch", key=self.keys, view=view)
        return self.keys

    # What has to hold.

    def held(self):
        return self.driver.look()

    def holds(self, view, slots, rev, epoch=7):
        self.look_for({"view": view, "slots": slots, "rev": rev, "epoch": epoch})

    def shows(self, slots):
        """Checks what a client shows that lays its own edits over the slots."""
        self.look_for({"shown": slots})

    def look_for(self, wanted):
        held = self.held()
        wrong = [name for name, value in wanted.items() if text(held.get(name)) != text(value)]
        if wrong:
            raise Failed(f"its {' and '.join(wrong)} should be another", should=wanted)

    def holds_nothing(self):
        if self.held()["slots"] is not None:
            raise Failed(f"it holds {self.held()}, and was shown nothing")

    def holds_present(self, view):
        self.holds(view, shows(self.relay.document, view), self.relay.rev, self.relay.epoch)

    def ended(self, key, **wanted):
        end = self.end_of(key)
        if end is None or any(end.get(member) != value for member, value in wanted.items()):
            raise Failed(f"request {key} ends with {end}, and not with {wanted}")

    def end_of(self, key):
        """The end of a request; None if it has not ended."""
        self.driver.look()
        return self.driver.ended.get(key)

    def has_not_ended(self, key):
        end = self.end_of(key)
        if end is not None:
            raise Failed(f"request {key} ends with {end}, and has no answer yet")


def words_of(message):
    return json.dumps(message, ensure_ascii=False, separators=(",", ":"), sort_keys=True)
