"""Defines what a case is, and what cases have in common."""
from dataclasses import dataclass
from typing import Callable, List, Optional
from driver import Driver
from play import Play
from relay import Relay

BOARD = {"n": 1, "cards": ["milk", "tea"], "players": {"ann": 3}}
CARDS = ["/cards"]

CASES: "List[Case]" = []
"""All cases, by subject."""


@dataclass(frozen=True)
class Case:
    name: str
    wants: str
    """The things that a client has to do, in words."""
    needs: Optional[str]
    """The traits of the client without which it is not asked."""
    unless: Optional[str]
    """A trait with which it is not asked."""
    act: Callable[[Driver], None]
    """Plays a relay to a client, and fails if the client holds or says what it may not."""

    @property
    def subject(self):
        """The module that it stands in."""
        return self.act.__module__

    def concerns(self, traits):
        return set((self.needs or "").split()) <= set(traits) and self.unless not in traits


def case(wants, needs=None, unless=None):
    def add(act):
        CASES.append(Case(act.__name__, wants, needs, unless, act))
        return act

    return add


def begun(driver, view=CARDS, document=BOARD, **more):
    """A client that holds the slots of a view."""
    play = Play(driver, Relay(document, **more), view)
    play.accept()
    play.asked("watch")
    play.draw(2)
    play.holds_present(view)
    return play


def back(play):
    """The client is back, and has asked for its slots."""
    play.accept()
    return play.asked_for_slots()


def push(card):
    return {"op": "add", "path": "/cards/-", "value": card}


def replace(path, value):
    return {"op": "replace", "path": path, "value": value}
