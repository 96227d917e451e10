"""A connection to a room that comes back when it is lost, and the requests that go over it, in
order."""
from __future__ import annotations

import asyncio
import json
import random
from collections import deque
from dataclasses import dataclass
from typing import Any, Callable, Deque, Literal, Optional

from .faults import Closed, HandshakeFailed, Refused
from .length import ends_connection
from .patience import Patience
from .pointers import is_watching, overlap
from .requests import Asked, Edit, Message, Setting
from .transport import Link, LinkLost, OpenLink
from .values import Patch, State
from .will import Will

ON_THE_WAY = 31
"""With one request more on the way 32 replies could wait, and the relay would read nothing from
this client until it drew one."""

NO_ROOM = 404
"""As what answers says that there is no room at the address."""

TOO_LONG: Message = {"kind": "refused", "fault": "too-long", "at": None}
"""As the relay refuses a text that it still reads."""

REPLIES = {"done": "edit", "watching": "watch", "resumed": "resume", "willing": "will"}
"""The messages that answer a request if it is not refused, each with what it answers. The welcome
answers none."""


class Astray(Exception):
    """A message that does not follow from those before it. Should never be; the slots are asked for
    anew, on another connection."""


@dataclass(frozen=True)
class Options:
    first_wait: float
    longest_wait: float
    quiet: float
    patience: float
    queue: Literal["all", "guarded"]
    read_only: bool


@dataclass(frozen=True)
class Hearer:
    """A listener that is told what becomes of the connections."""

    entered: Callable[[], None]
    """Welcomed: the first requests are to be asked by `ask_first`."""
    told: Callable[[Message], None]
    """A snapshot or a patch. May fail with `Astray`."""
    astray: Callable[[], None]
    """The slots that are held may be wrong. The connection is given up."""
    lost: Callable[[], None]
    turned: Callable[[State, Optional[Exception]], None]
    """`waiting`, with its cause if the handshake failed, or `connecting`."""
    ended: Callable[[Exception], None]
    """No connection can ever be had."""


class RoomLink:
    def __init__(self, url: str, open_link: OpenLink, options: Options, hearer: Hearer):
        self._url, self._open_link, self._options, self._on = url, open_link, options, hearer
        self._patience = Patience(options.quiet, options.patience)
        self._loop = asyncio.get_running_loop()
        self.welcome: Optional[Message] = None
        """Of this connection; None while there is none."""
        self.is_closed = False
        self._link: Optional[Link] = None
        self._welcomed = False  # on the newest connection
        self._was_entered = False  # by any connection
        self._away = False  # a connection was lost, and no other one is there
        self._due = False  # slots were promised, and are on their way
        self._slots_came = 0.0  # when they came that were due last
        self._unsent: Deque[Asked] = deque()
        self._sent: Deque[Asked] = deque()  # requests without an answer, oldest first
        self._will: Optional[Will] = None  # that the relay took last
        self._ids = 0
        self._failures = 0
        self._to_send = asyncio.Event()
        self._timer: Optional[asyncio.TimerHandle] = None
        self._task = asyncio.ensure_future(self._run())

    # What is asked.

    def ask(self, asked: Asked) -> None:
        self._unsent.append(asked)
        self._to_send.set()

    def ask_first(self, asked: Asked) -> None:
        """Before whatever waits."""
        self._unsent.appendleft(asked)
        self._to_send.set()

    def edit(self, edit: Edit) -> None:
        if self.is_closed:
            edit.fail(Closed())
        elif self._away and self._options.queue == "guarded" and not edit.guarded:
            edit.fail(Refused("away", None))
        else:
            self.ask(edit)

    def leave(self, patch: Patch) -> "asyncio.Future[None]":
        """A will in place of the one before."""
        will = Will(patch, self._left)
        if self.is_closed:
            will.drop()
        else:
            self.ask(will)
        return will.answer

    def _left(self, will: Will) -> None:
        self._will = will

    def unsent(self, setting: Setting) -> Optional[Edit]:
        """The edit that sets the same place and was not sent yet, if all that was asked for since
        sets places apart."""
        for asked in reversed(self._unsent):
            if isinstance(asked, Edit) and asked.setting == setting:
                return asked
            if asked.setting is None or overlap(asked.setting.pointer, setting.pointer):
                return None
        return None

    def close(self) -> None:
        self.is_closed = True
        self._disarm()
        self._drop()

    async def left(self, at_once: bool) -> None:
        """Comes back when the connection is left."""
        if at_once:
            self._task.cancel()
        await asyncio.wait([self._task])

    # Connections.

    async def _run(self) -> None:
        try:
            while not self.is_closed:
                cause = await self._connect()
                if cause is not None and self._is_final(cause):
                    return self._on.ended(cause)
                if not self.is_closed:
                    await self._wait(cause)
        except Exception as error:
            self._on.ended(error)  # as words for `websockets` that it does not take

    async def _connect(self) -> Optional[HandshakeFailed]:
        """One connection, from the handshake to its loss. Gives the cause if there was none."""
        try:
            async with self._open_link(self._url) as link:
                await self._serve(link)
        except HandshakeFailed as failed:
            return failed.at(self._url)
        if self._welcomed:
            return None
        return HandshakeFailed("unreachable", detail="no welcome came").at(self._url)

    def _is_final(self, cause: HandshakeFailed) -> bool:
        """True if the address is none of a room. A room that is only watched may begin later. And
        once one was entered there, the answer may be that of a proxy that is being set up anew."""
        may_begin = self._options.read_only and is_watching(self._url)
        return cause.status == NO_ROOM and not self._was_entered and not may_begin

    async def _serve(self, link: Link) -> None:
        self._link, self._welcomed = link, False
        self._listen()
        sending = asyncio.ensure_future(self._send(link))
        try:
            async for text in link:
                self._hear(text)
                if self.is_closed:
                    return
        except Astray:
            self._on.astray()
        finally:
            sending.cancel()
            self._lose()

    def _lose(self) -> None:
        """Requests that were sent have no answer any more, and only edits wait for the next
        connection, if there is to be one."""
        self._disarm()
        self._away = self._away or self._welcomed
        self._link, self.welcome, self._due = None, None, False
        self._on.lost()
        sent, self._sent = self._sent, deque()
        unsent, self._unsent = self._unsent, deque()
        self._unsent.extend(asked for asked in sent if self._is_again(asked))
        for asked in unsent:
            if isinstance(asked, Edit):
                self.edit(asked)
            elif isinstance(asked, Will) and asked is not self._will:
                self._unsent.append(asked)
        if self.is_closed:
            self._drop()

    def _is_again(self, asked: Asked) -> bool:
        """True if it is sent on the next connection as well. A will that was taken is left there
        anyhow."""
        if isinstance(asked, Will):
            return asked is not self._will
        return isinstance(asked, Edit) and asked.lost()

    def _drop(self) -> None:
        unsent, self._unsent = self._unsent, deque()
        for asked in unsent:
            if isinstance(asked, (Edit, Will)):
                asked.drop()

    async def _wait(self, cause: Optional[Exception]) -> None:
        self._on.turned("waiting", cause)
        longest = min(self._options.first_wait * 2**self._failures, self._options.longest_wait)
        self._failures = min(self._failures + 1, 30)
        await asyncio.sleep(longest * random.uniform(0.5, 1))
        self._on.turned("connecting", None)

    # A peer that is gone without a word is found out by a request that does nothing: it has no
    # `do`, and is refused.

    def _listen(self) -> None:
        """Sets the time at which the connection is given up, or at which the relay is asked whether
        it is there."""
        self._disarm()
        if self._due:
            # An answer would come behind the slots, and they may take long: to ask for one would
            # say nothing about the peer.
            self._timer = self._loop.call_later(self._patience.for_slots, self._give_up)
        elif self._sent:
            # The oldest one: those that are sent behind it say nothing about the peer.
            asked_at = max(self._sent[0].sent_at, self._slots_came)
            self._timer = self._loop.call_at(asked_at + self._patience.for_answers, self._give_up)
        elif self.welcome is None:
            self._timer = self._loop.call_later(self._patience.for_answers, self._give_up)
        else:
            self._timer = self._loop.call_later(self._options.quiet, self.ask, Asked({}))

    def _disarm(self) -> None:
        if self._timer is not None:
            self._timer.cancel()
            self._timer = None

    def _give_up(self) -> None:
        self._patience.lost()
        if self._link is not None:
            self._link.abort()

    # Requests.

    async def _send(self, link: Link) -> None:
        while True:
            await self._to_send.wait()
            self._to_send.clear()
            while self.welcome is not None and len(self._sent) < ON_THE_WAY:
                asked = self._next(self.welcome)
                if asked is None:
                    break
                text = self._text(asked, self.welcome)
                if self.is_closed:
                    link.abort()
                    return
                try:
                    if text is not None:
                        await link.send(text)
                except LinkLost:
                    return

    def _next(self, welcome: Message) -> Optional[Asked]:
        """Takes the request that has waited longest, or one that has to be sent before it. None if
        there is none, or if it has to wait."""
        if self._holds():
            return None
        ahead = self._unsent[0].ahead(welcome) if self._unsent else None
        if not self._unsent or (ahead is not None and ahead is self._unsent[0]):
            return None
        return ahead or self._unsent.popleft()

    def _holds(self) -> bool:
        """True if nothing waits but values of places of which another one is on its way. The next
        one waits until that is answered, or something else is asked for: until then a newer one is
        sent for it."""
        settings = [asked.setting for asked in self._unsent]
        sent = {asked.setting.pointer for asked in self._sent if asked.setting is not None}
        return all(setting is not None and setting.pointer in sent for setting in settings)

    def _text(self, asked: Asked, welcome: Message) -> Optional[str]:
        """The text that is sent of a request. None if it is not sent, and has ended."""
        if isinstance(asked, Edit) and not asked.goes_to(welcome):
            return None
        request = {"id": self._ids + 1, **asked.request}
        text = json.dumps(request, ensure_ascii=False, separators=(",", ":"))
        if ends_connection(text):
            asked.answered(TOO_LONG)
            return None
        self._ids += 1
        asked.id, asked.sent_at = self._ids, self._loop.time()
        self._sent.append(asked)
        if len(self._sent) == 1 and not self._due:
            self._listen()
        return text

    # Messages.

    def _hear(self, text: str) -> None:
        try:
            message = json.loads(text)
            kind = message["kind"]
            if kind == "welcome":
                self._enter(message)
            elif kind in ("snapshot", "patch"):
                self._tell(message)
            else:
                self._answer(message)
        except (KeyError, TypeError, ValueError) as error:
            raise Astray() from error
        self._to_send.set()
        if not self.is_closed:
            self._listen()

    def _enter(self, welcome: Message) -> None:
        if self.welcome is not None:
            raise Astray()
        self.welcome, self._welcomed, self._away = welcome, True, False
        self._was_entered = True
        if self._will is not None:
            self.ask_first(self._will)
        self._on.entered()

    def _tell(self, message: Message) -> None:
        if self.welcome is None:
            raise Astray()
        self._failures = 0
        self._patience.slots_came()
        if self._due:
            self._due, self._slots_came = False, self._loop.time()
        self._on.told(message)

    def _answer(self, reply: Message) -> None:
        """Replies come in the order of their requests; the id says so, if the relay could read it.
        None of another kind comes that was not asked for by something new."""
        if not self._sent or reply["id"] not in (self._sent[0].id, None):
            raise Astray()
        kind, asked = reply["kind"], self._sent[0].request
        if kind != "refused" and (kind not in REPLIES or REPLIES[kind] != asked.get("do")):
            raise Astray()
        if kind == "watching" or reply.get("how") in ("patch", "snapshot"):
            self._due = True
        elif reply.get("how") == "nothing":
            self._patience.slots_came()
        self._sent.popleft().answered(reply)


def settle(future: "asyncio.Future[Any]", cause: Exception) -> None:
    """Has a future fail that nobody has ended before."""
    if not future.done():
        future.set_exception(cause)
