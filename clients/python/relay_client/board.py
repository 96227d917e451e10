"""A room, seen through a view: what an application uses."""
from __future__ import annotations

import asyncio
import itertools
from functools import partial
from typing import Any, AsyncIterator, Callable, Dict, List, Literal, Mapping, Optional

from . import follower as following
from . import link as linking
from .change import ChangeOptions, change, pause
from .changes import Change, Listener, Listeners, told
from .draft import Draft
from .faults import Closed, Refused
from .follower import Follower, Held
from .forms import check_base, checked_patch, checked_view
from .guard import Guard
from .known import UNKNOWN, known_by
from .once import Counter
from .pending import Pending, laid_over
from .place import Place
from .pointers import check_room, watching
from .requests import Edit, Setting, beginning
from .said import Said
from .transport import OpenLink, websocket
from .undo import History, Inverse, OwnEdit, fits
from .values import Json, Operation, Patch, Shown, Slots, State, View, as_json
from .warning import warning

TRIES = 20
"""The number of times that `update` and `undo` try at most when others are faster."""

_NO_BASE: Any = object()


def connect(url: str, *, view: View, **options: Any) -> "Board":
    """Connects to a room, as ws://127.0.0.1:8080/rooms/NAME, and comes back to it whenever the
    connection is lost. To be called while an event loop runs. `ValueError` if the address is none
    of a room, and `TypeError` if the view is no list.

    `help(relay_client.Board)` says what each option does: `on_change`, `on_state`, `on_taken_back`,
    `first_wait`, `longest_wait`, `quiet`, `patience`, `begin`, `read_only`, `once`, `queue`,
    `link`, `open_link`. So `link={"ssl": context}` gives the certificates to trust."""
    return Board(url, view=view, **options)


class Board:
    """A room, seen through a view.

    `on_change` is told after each change of the slots, as a first listener. `on_state` is told of
    each new state with its cause, if there is one: `connecting` (the slots are awaited), `open`,
    `waiting` (there is no connection, and the next try comes after a while; the cause is a
    `HandshakeFailed` if the last try failed), `closed`. If it is not given, a warning of the logger
    `relay_client` says why there is no connection. `on_taken_back` is told when an optimistic edit
    failed, with its patch and the cause: what it showed is taken back. Any other failure at which
    nobody looks, asyncio reports as never retrieved.

    The first try after a loss waits at most `first_wait` seconds, each further one up to twice as
    long, and at most `longest_wait`. After `quiet` seconds without a message the relay is asked
    whether it is there, and a connection is given up if its oldest request has no answer after
    `patience` seconds. While slots are on their way it is not asked, and is given up after both
    together. Each connection in a row that is given up doubles the patience, at most 32 times,
    until slots come: a slow line may take long for them.

    `begin` is the document that the room is given if it has none: the client adds it, if `null`
    stands there, on each connection before anything else. So the slots show it, and edits that
    waited while the relay was restarted meet it. It is no edit for `undo`. If it is refused for
    another reason than that the room has a document, as `too-heavy`, the board ends with that.

    A board that is `read_only` enters the room only to watch it, by its address with `/watch`
    behind the name. Each edit fails at once with `Refused`, as `read-only`, and nothing is sent: so
    do `change`, `end`, `will`, `undo` and `redo`. `begin` is not written. If there is no room
    of the name yet, the relay answers 404, and the board is `waiting` until there is one.

    `once` is a pointer to an object of the document, as `begin` makes it, in which this client
    keeps a counter for its edits that are `once`.

    `queue` says which edits that are made while the connection is lost are sent later: `all`, or
    only those that are `guarded`, by a `base` or by a `test` as their first operation; the others
    are refused, as `away`.

    `link` has further words for `websockets.connect`, as `{"ssl": context}`; `open_link` is another
    kind of connection."""

    def __init__(
        self,
        url: str,
        *,
        view: View,
        on_change: Listener = lambda change: None,
        on_state: Optional[Callable[[State, Optional[Exception]], None]] = None,
        on_taken_back: Optional[Callable[[Patch, Exception], None]] = None,
        first_wait: float = 0.2,
        longest_wait: float = 10.0,
        quiet: float = 20.0,
        patience: float = 10.0,
        begin: Json = None,
        read_only: bool = False,
        once: Optional[str] = None,
        queue: Literal["all", "guarded"] = "all",
        link: Optional[Dict[str, Any]] = None,
        open_link: Optional[OpenLink] = None,
    ):
        check_room(url)
        self._begin, view = as_json(begin, "/begin"), checked_view("connect", view)
        self._read_only = read_only
        self._counter = None if once is None else Counter(once)
        self._on_state, self._on_taken_back = on_state or warning(), on_taken_back
        self._listeners = Listeners()
        self._listeners.add(on_change)
        self._pending, self._history, self._said = Pending(), History(), Said()
        self._shown: Optional[Slots] = None
        self._waiting: List[Edit] = []  # optimistic edits, as they were laid over last
        self._state: State = "connecting"
        opened = open_link or websocket(link or {}, patience)
        options = linking.Options(first_wait, longest_wait, quiet, patience, queue, read_only)
        address = watching(url) if read_only else url
        self._link = linking.RoomLink(address, opened, options, self._hearer())
        on = following.Hearer(self._took, self._present, self._finish)
        self._follower = Follower(view, self._link, on)
        self.ready: "asyncio.Future[Slots]" = self._follower.shown()
        """The first slots. Fails with `Refused` if the view is refused, and with `Closed`."""

    async def __aenter__(self) -> "Board":
        return self

    async def __aexit__(self, *_: object) -> None:
        await self.close()

    # What is shown.

    @property
    def view(self) -> View:
        """The pointers whose slots are shown."""
        held = self._follower.held
        return held.of.view if held else []

    @property
    def slots(self) -> Optional[Slots]:
        """The slots that are shown: what the relay has shown, with the optimistic edits that wait
        laid over it. None before the first snapshot."""
        return self._shown

    @property
    def confirmed(self) -> Optional[Slots]:
        """The slots as the relay has shown them; None before the first snapshot."""
        held = self._follower.held
        return held.slots if held else None

    @property
    def pending(self) -> int:
        """The number of optimistic edits that wait."""
        return len(self._pending.optimistic())

    @property
    def rev(self) -> Optional[int]:
        """The revision that the relay has shown; None before the first snapshot."""
        held = self._follower.held
        return held.rev if held else None

    @property
    def epoch(self) -> Optional[int]:
        """The run of the relay that it is of; None before the first snapshot."""
        held = self._follower.held
        return held.epoch if held else None

    @property
    def state(self) -> State:
        return self._state

    @property
    def undoable(self) -> int:
        """The number of edits that `undo` can take back."""
        return self._history.undoable

    @property
    def redoable(self) -> int:
        """The number of edits that `redo` can do again."""
        return self._history.redoable

    def at(self, shown: Shown) -> Place:
        """One value of the view, or within it; or a size of the view, as {"size": "/cards"}."""
        return Place(self, shown)

    def subscribe(self, listener: Listener) -> Callable[[], None]:
        """Tells a listener of each change from now on. Gives what ends it."""
        return self._listeners.add(listener)

    def changes(self) -> AsyncIterator[Change]:
        """Yields what is shown, and then each change, until the board is closed. A reader that is
        slow misses those between, and not the newest one. Fails with what closed the board, if
        something did."""
        return self._listeners.read(self._change(None))

    async def watch(self, view: View) -> Slots:
        """Shows other pointers from now on. Gives their slots. Fails with `Refused`, and the view
        before stays; with `Superseded`, if another view was watched and its slots came in their
        place; and with `Closed`."""
        return await self._follower.watch(checked_view("watch", view))

    async def sync(self) -> Slots:
        """The slots, once all that was said so far is answered and shown: this client's edits, and
        all that was done before the relay heard of this. `rev` is the room's revision then. It
        costs a snapshot. Fails with `Closed`, and with no refusal."""
        await self._said.ended()
        slots = await self._follower.watch_again()
        return self._shown or slots

    async def close(self) -> None:
        """Leaves the room, and does not come back."""
        was_closed = self._state == "closed"
        self._finish(None)
        await self._link.left(at_once=not was_closed)

    # Edits.

    def edit(
        self,
        patch: Patch,
        *,
        base: Optional[int] = _NO_BASE,
        epoch: Optional[int] = None,
        optimistic: bool = False,
        undo: bool = True,
        once: bool = False,
    ) -> "asyncio.Future[int]":
        """Edits the document, all of it or nothing. Gives a future of the new revision, which the
        slots may still be on their way to. The edit is asked for at once, whether the future is
        awaited or not.

        Fails with `Refused`, and nothing changed; with `Unknown`, if the connection was lost before
        the answer; with `Closed`. What is no JSON, no number that the relay takes, no list of
        operations or no base is a `TypeError` or a `ValueError` of the call. At most 31 requests
        are on their way at once; the others wait here, also for a connection, in order.

        An `optimistic` edit shows at once in the slots, as far as they tell what it does, and is
        taken back if it fails. With `undo` left out of the history by False, `undo()` passes it
        over.

        With a `base`, as `rev` of the slots from which it was made, it is done only if the room is
        at that revision, and gives the next one. Else it is refused, as `stale`: what was seen may
        have changed, or anything else in the document. Then `sync()` gives slots of the room's
        revision; `rev` by itself stays behind it if an edit touches none of the slots. The base is
        a revision of the run `epoch`; if nothing is said, of that of the slots. It is to be kept
        beside a base that is used later. A base that is None, as `rev` is before the first slots,
        is refused.

        If the answer of an edit with a `base` was lost, it is sent again once the client is back,
        and is never done twice. It fails with `Unknown` if it is `stale` then, with the room's
        revision as `rev`: it was done the first time, or another edit was faster and it never will
        be. Also if the relay was restarted in between, if the board is closed, and after five lost
        connections. One that was not sent yet when the relay was restarted is refused, as `stale`,
        without being sent.

        An edit that is `once` tests and raises a counter of this client, at the pointer that the
        board was given as `once`. Then it is sent again if its answer was lost, and is never done
        twice. It gives its revision, or a later one if the answer was lost. One is on its way at a
        time: what was asked for behind it waits. It has 62 operations of its own at most, and no
        `base`."""
        own = OwnEdit(checked_patch("edit", patch))
        if base is not _NO_BASE:
            check_base(base)
        answer = self._edit(own, base, epoch, optimistic, self._counter_of(base) if once else None)
        if undo:
            self._history.edited(own)
        return answer

    def replace(self, operation: Operation, optimistic: bool, undo: bool) -> "asyncio.Future[int]":
        """Replaces the value of a place; `Place.set` is made of it."""
        setting = Setting(operation["path"], optimistic, undo)
        earlier = self._link.unsent(setting)
        if earlier is None:
            own = OwnEdit(checked_patch("set", [operation]))
            answer = self._edit(own, _NO_BASE, None, optimistic, setting=setting)
            if undo:
                self._history.edited(own)
            return answer
        later = earlier.exchange(checked_patch("set", [operation]))
        self._waiting = []  # what was laid over is to be laid anew
        self._lay_over()
        return later

    def change(
        self,
        make: Callable[[Any], Any],
        *,
        guard: Guard = "values",
        tries: int = TRIES,
        optimistic: bool = True,
        undo: bool = True,
        once: bool = False,
    ) -> "asyncio.Future[int]":
        """Changes a draft of what is shown, as any value: by assignments, `del` and the methods of
        lists and dicts. The least patch that does it is sent, with moves if a value moved; nothing
        is, if nothing was changed. It shows at once. Gives a future of the new revision.

        If it is refused since what the function read or addressed is another by then, the function
        is called again, on what is shown then: so it looks for what it means, and takes no index
        from outside. It keeps nothing of the draft. Before the first slots it waits for them. Fails
        as `edit`; as it was refused last, after so many `tries`.

        What has to be as it was seen is the `guard`: `values`, what the function read and each
        element that it addressed, by tests in front; by the revision, if they would be too many or
        too large. `base`, the whole document. `none`, nothing."""
        options = ChangeOptions(guard, tries, optimistic, undo, once)
        return self.change_draft(lambda draft: make(draft.at(())), {}, options)

    def change_draft(
        self, make: Callable[[Draft], Any], keys: Mapping[str, str], options: ChangeOptions
    ) -> "asyncio.Future[int]":
        """`change` and what is done to a list are made of it."""
        return _read_only() if self._read_only else change(self, make, keys, options)

    def edit_anew(
        self, patch: Patch, by_base: bool, options: ChangeOptions
    ) -> "asyncio.Future[int]":
        """An edit of a change. If it is refused the application is told nothing: it is made
        anew."""
        base, epoch = (self.rev, self.epoch) if by_base else (_NO_BASE, None)
        counter = self._counter_of(base) if options.once and not by_base else None
        own = OwnEdit(patch)
        answer = self._edit(own, base, epoch, options.optimistic, counter, silent=True)
        if options.undo:
            self._history.edited(own)
        return answer

    def begin_saying(self) -> Callable[[], None]:
        """For what asks more than once: `sync` waits for it. Gives its end."""
        return self._said.begin()

    def taken_back(self, patch: Patch, cause: Exception) -> bool:
        """Tells the application of an optimistic edit that is shown no more. Gives whether it
        listens: then nobody has to look at the future as well."""
        if self._on_taken_back is None:
            return False
        told(self._on_taken_back, patch, cause)
        return True

    async def watch_again(self) -> None:
        """Comes back with slots of the room's revision."""
        await self._follower.watch_again()

    async def quiet(self) -> None:
        """Comes back when the edits that waited are shown."""
        waiting = self._pending.optimistic()
        if waiting:
            await asyncio.wait([edit.answer for edit in waiting])
        await self._follower.watch_again()

    async def end(self) -> int:
        """Ends the room: replaces the whole document by None. It is an edit with `rev` as its base,
        so it is refused, as `stale`, if anybody edited since. Before the first slots it waits for
        them. Once everybody has left, the room makes place for a new name if the relay has no
        other. Fails as `edit` does."""
        self._check_edits()
        with self._said.during():
            if self.rev is None:
                await self.ready
            return await self.edit([{"op": "replace", "path": "", "value": None}], base=self.rev)

    def will(self, patch: Patch) -> "asyncio.Future[None]":
        """Leaves a will: a patch that the relay does when this session ends, however it ends, by
        `close`, by the end of the program, or by a lost connection. It is done as an edit without a
        base that nobody is answered: if it is refused, nothing happens. A later will replaces it,
        and an empty patch withdraws it. Each new connection leaves it again, before the edits that
        wait. The session that was lost has done its own by then, or does it once the relay finds
        out: so guard by a `test` what a later session may have written anew.

        Gives a future that is done when the relay has it; without a connection, once there is one.
        Fails with `Refused`, and the will before stays: as `shape` by a relay that knows no wills,
        as `too-heavy` if it weighs more than 65,536; and with `Closed`."""
        checked = checked_patch("will", patch)
        if self._read_only:
            return _read_only()
        left = self._link.leave(checked)
        over = self._said.begin()
        left.add_done_callback(lambda left: over())
        return left

    async def undo(self) -> Optional[int]:
        """Undoes the newest edit of this client that the slots showed and that is not undone. It
        shows at once. Gives the new revision; None if there is no such edit. Fails as `edit` does:
        with `Refused`, as `changed`, if somebody has changed since what the edit left. Then it is
        passed over."""
        return await self._turn(self._history.undoing, self._history.redoing)

    async def redo(self) -> Optional[int]:
        """Does again what was undone last, unless there was another edit since. Otherwise as
        `undo`."""
        return await self._turn(self._history.redoing, self._history.undoing)

    async def _turn(self, stack: List[OwnEdit], other: List[OwnEdit]) -> Optional[int]:
        self._check_edits()
        with self._said.during():
            inverse = await History.take(stack)
            if inverse is None:
                return None
            try:
                return await self._take_back(inverse, partial(History.keep, other))
            except Refused as refused:
                if refused.fault == "away":
                    raise
                raise Refused("changed", refused.at, refused.rev) from refused

    async def _take_back(self, inverse: Inverse, keep: Callable[[OwnEdit], None]) -> int:
        if inverse.puts_back:
            return await self._compare_and_set(partial(_fitting, inverse), TRIES, True, keep)
        own = OwnEdit(inverse.patch)
        answer = self._edit(own, _NO_BASE, None, True)
        keep(own)
        return await answer

    async def update_place(
        self, make: Callable[[Held], Patch], tries: int, optimistic: bool, undo: bool
    ) -> int:
        """An edit that is made of what the relay has shown, and is done to that alone.
        `Place.update` is made of it."""
        self._check_edits()
        keep = self._history.edited if undo else lambda own: None
        with self._said.during():
            return await self._compare_and_set(make, tries, optimistic, keep)

    def _check_edits(self) -> None:
        """Before what waits for something else than the answer of an edit."""
        if self._read_only:
            raise Refused("read-only")

    async def _compare_and_set(
        self,
        make: Callable[[Held], Patch],
        tries: int,
        optimistic: bool,
        keep: Callable[[OwnEdit], None],
    ) -> int:
        """The edit is made anew as long as others are faster."""
        await self.ready
        for tried in itertools.count(1):
            held = self._follower.held
            if held is None or self._state == "closed":
                raise Closed()
            own = OwnEdit(checked_patch("update", make(held)))
            answer = self._edit(own, held.rev, held.epoch, optimistic)
            keep(own)
            try:
                return await answer
            except Refused as refused:
                if refused.fault != "stale" or tried >= tries:
                    raise
            if tried > 1:
                await pause(tried)
            # An edit elsewhere leaves the slots' revision behind the room's: only slots that come
            # anew are of that one.
            await self._follower.watch_again()
        raise AssertionError("the last try has ended it")

    def _edit(
        self,
        own: OwnEdit,
        base: Optional[int],
        epoch: Optional[int],
        optimistic: bool,
        counter: Optional[Counter] = None,
        silent: bool = False,
        setting: Optional[Setting] = None,
    ) -> "asyncio.Future[int]":
        """Of a silent one that is taken back the application is told nothing: it is made anew."""
        if self._read_only:
            return _read_only()
        has_base = base is not _NO_BASE
        epoch = self.epoch if epoch is None else epoch
        over = self._said.begin()

        def ended(edit: Edit) -> None:
            over()
            self._ended(edit, silent)

        told = (ended, self._link.ask_first, self._done_before)
        edit = Edit(own, base if has_base else None, has_base, epoch, optimistic, counter, *told)
        edit.setting = setting
        self._pending.add(edit)
        self._link.edit(edit)
        self._lay_over()
        return edit.answer

    def _counter_of(self, base: Optional[int]) -> Counter:
        if self._counter is None:
            advice = 'say where this client may keep its counter, as `once="/once"`'
            raise TypeError(f"an edit is `once` by a counter: {advice}")
        if base is not _NO_BASE:
            raise TypeError("an edit with a base is done once by that")
        return self._counter

    def _done_before(self, edit: Edit) -> None:
        """It was done on a connection that was lost. The slots that come now are of its revision,
        or of a later one, and what undoes it is not known."""
        edit.own.not_done()

        def shown(slots: "asyncio.Future[Slots]") -> None:
            if slots.cancelled() or slots.exception() is not None or self.rev is None:
                edit.drop()
            else:
                edit.done_at(self.rev)

        self._follower.watch_again().add_done_callback(shown)

    def _ended(self, edit: Edit, silent: bool) -> None:
        held = self._follower.held
        if edit.cause is not None:
            self._pending.failed(edit)
        elif held is not None:
            self._pending.done(edit, held)
        self._lay_over()
        if edit.cause is None or not edit.optimistic or silent:
            return
        if self.taken_back(edit.patch, edit.cause):
            edit.look_at()

    # What the link and the follower tell.

    def _hearer(self) -> linking.Hearer:
        """The link has nothing to tell before the loop goes on, and then there is a follower."""
        return linking.Hearer(
            entered=self._entered,
            told=lambda message: self._follower.told(message),
            astray=lambda: self._follower.astray(),
            lost=lambda: self._follower.lost(),
            turned=self._enter,
            ended=self._finish,
        )

    def _entered(self) -> None:
        """The room has to have a document before anything else, so that the slots are never of a
        room that has none."""
        self._follower.entered()
        if self._begin is not None and not self._read_only:
            self._link.ask_first(beginning(self._begin, self._finish))

    def _took(
        self, before: Optional[Held], held: Held, patch: Optional[Patch], single: bool
    ) -> None:
        if before is not None and before.epoch != held.epoch:
            # What this client did was done to a document that is not there any more.
            self._history.forget()
        document = UNKNOWN if before is None else known_by(before.of.view, before.slots)
        self._pending.reached(held, document, single)
        self._waiting = self._pending.optimistic()
        self._shown = laid_over(held, self._waiting)
        self._enter("open", None)
        self._tell(patch)

    def _present(self) -> None:
        self._pending.all_seen()
        self._lay_over()
        self._enter("open", None)

    def _enter(self, state: State, cause: Optional[Exception]) -> None:
        if self._state not in (state, "closed"):
            self._state = state
            told(self._on_state, state, cause)

    def _finish(self, cause: Optional[Exception]) -> None:
        if self._state == "closed":
            return
        self._state = "closed"
        self._link.close()
        self._follower.end(cause)
        self._listeners.close(cause)
        told(self._on_state, "closed", cause)

    # What is told.

    def _lay_over(self) -> None:
        """Lays the edits that wait over what is held, and tells of it if another number of them
        waits."""
        held, before = self._follower.held, self._waiting
        self._waiting = self._pending.optimistic()
        if held is not None and before != self._waiting:
            self._shown = laid_over(held, self._waiting)
            self._tell(None)

    def _tell(self, patch: Optional[Patch]) -> None:
        change = self._change(patch)
        if change is not None:
            self._listeners.tell(change)

    def _change(self, patch: Optional[Patch]) -> Optional[Change]:
        held = self._follower.held
        if held is None or self._shown is None:
            return None
        return Change(self._shown, held.slots, held.rev, self.pending, patch)


def _read_only() -> "asyncio.Future[Any]":
    """An edit of who only watches."""
    refused: "asyncio.Future[Any]" = asyncio.get_running_loop().create_future()
    refused.set_exception(Refused("read-only"))
    return refused


def _fitting(inverse: Inverse, held: Held) -> Patch:
    if not fits(known_by(held.of.view, held.slots), inverse.patch):
        raise Refused("changed")
    return inverse.patch
