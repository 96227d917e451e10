#!/usr/bin/env python3
"""Plays a relay to a client: tests/conformance/run CLIENT_COMMAND, or with `--case NAME` in front
one case alone."""
import os, sys, textwrap
from concurrent.futures import ThreadPoolExecutor
from dataclasses import dataclass
from typing import List, Optional
from cases import CASES
from driver import Driver, Failed, short

ABREAST = os.cpu_count() or 1
"""Cases that are played side by side, each with a driver of its own."""


@dataclass(frozen=True)
class Played:
    """The outcome of a case: `wrong` is None if the client did what it has to, and `asked` is false
    if the case does not concern it."""

    name: str
    asked: bool = True
    wrong: Optional[List[str]] = None


def traits_of(command):
    """Returns what the driver says of its client. Ends the program if it says nothing."""
    try:
        driver = Driver(command)
        try:
            driver.begin([""])
            driver.look()
        finally:
            driver.quit()
    except Failed as failed:
        print(f"FAILED {' '.join(command)}: {failed}\n0 passed, 1 failed")
        sys.exit(1)
    return driver.traits


def play(command, traits, case):
    if not case.concerns(traits):
        return Played(case.name, asked=False)
    try:
        driver = Driver(command)
    except Failed as failed:
        return Played(case.name, wrong=[str(failed)])
    try:
        case.act(driver)
        driver.end()
        status = driver.quit()
        return Played(case.name, wrong=None if status == 0 else [f"the driver ends with {status}"])
    except Failed as failed:
        driver.quit()
        return Played(case.name, wrong=[str(failed), *circumstances(case, driver, failed)])


def circumstances(case, driver, failed):
    """The circumstances that a reader of a failure needs to know."""
    lines = textwrap.wrap(f"wanted:      {case.wants}", 96, subsequent_indent=" " * 13)
    lines.append(f"came last:   {short(driver.heard or 'nothing')}")
    lines.append(f"is held:     {short(driver.held or 'nothing')}")
    if failed.should is not None:
        lines.append(f"should hold: {short(failed.should)}")
    return lines


def play_all(command, cases=CASES, abreast=ABREAST):
    """The outcomes of these cases, in their order."""
    traits = traits_of(command)
    with ThreadPoolExecutor(abreast) as players:
        yield from players.map(lambda case: play(command, traits, case), cases)


def line_of(played):
    if not played.asked:
        return f"not asked {played.name}"
    if played.wrong is None:
        return f"ok {played.name}"
    return f"FAILED {played.name}: " + "\n    ".join(played.wrong)


def main(words):
    cases = CASES
    if words[:1] == ["--case"]:
        name = words[1] if len(words) > 1 else ""
        cases = [case for case in CASES if case.name == name]
        if name and not cases:
            sys.exit(f"no case has the name {name}")
        words = words[2:]
    if not words or not cases:
        sys.exit("usage: tests/conformance/run [--case NAME] CLIENT_COMMAND")
    passed = failed = 0
    for played in play_all(words, cases):
        print(line_of(played), flush=True)
        passed += played.asked and played.wrong is None
        failed += played.wrong is not None
    print(f"{passed} passed, {failed} failed")
    sys.exit(failed > 0)


if __name__ == "__main__":
    main(sys.argv[1:])
