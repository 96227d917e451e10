"""The one shape of the tests in Python: functions, each named for what it shows. Standard output
has a line for each, and last the count, `N passed, M failed`."""

import asyncio
import contextlib
import inspect
import pathlib
import subprocess
import sys
import traceback

# Seconds that one of them may take.
LONGEST = 300
TESTS = []


def shows(test):
    """Marks a function, or a coroutine function, as a test."""
    TESTS.append(test)
    return test


def needs(test):
    """Ends the process if the test lacks something, as tests/needs has it."""
    words = [pathlib.Path(__file__).resolve().parents[1] / "needs", test]
    missing = subprocess.run(words, stdout=subprocess.PIPE, text=True, check=True).stdout
    if missing:
        sys.exit(f"tests/{test}: missing {missing.strip()}")


def count(passed, failed):
    """The last line. The status that the process ends with."""
    print(f"{passed} passed, {failed} failed", flush=True)
    return 1 if failed else 0


async def play(*given, names=(), each=None):
    """Plays the tests of these names, or all, each with what is given, and with what `each` makes
    anew for it, a context manager. The status."""
    unknown = set(names) - {test.__name__ for test in TESTS}
    if unknown:
        raise SystemExit(f"no test {', '.join(sorted(unknown))}")
    chosen = [test for test in TESTS if not names or test.__name__ in names]
    passed = [await passes(test, given, each) for test in chosen]
    return count(passed.count(True), passed.count(False))


async def passes(test, given, each):
    what = test.__name__.replace("_", " ")
    try:
        with contextlib.ExitStack() as stack:
            own = [stack.enter_context(each())] if each else []
            coming = test(*own, *given)
            if inspect.isawaitable(coming):
                await asyncio.wait_for(coming, LONGEST)
    except Exception:
        traceback.print_exc()
        print(f"FAILED: {what}", flush=True)
        return False
    print(what, flush=True)
    return True


def main(*given, each=None):
    """Plays the tests that the words of the command name, or all, and ends the process."""
    sys.exit(asyncio.run(play(*given, names=sys.argv[1:], each=each)))
