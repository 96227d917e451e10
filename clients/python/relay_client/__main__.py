"""The program `relay-client`."""
from __future__ import annotations

import argparse
import asyncio
import json
import os
import sys
from typing import Any, Callable, Coroutine, Optional, Sequence

from . import commands
from .commands import NoAnswer, NoRoom
from .faults import Closed, HandshakeFailed, Refused, Unknown
from .pointers import check_room, shown_address, tokens, without_watch
from .values import Patch, as_json

DONE, REFUSED, WRONG, NO_RELAY = 0, 1, 2, 3
NEEDS = {
    "add": ("path", "value"),
    "remove": ("path",),
    "replace": ("path", "value"),
    "move": ("path", "from"),
    "copy": ("path", "from"),
    "test": ("path", "value"),
}

ABOUT = """Gets, watches and edits the document of a room. What it prints is one JSON a line."""
EXAMPLES = """\
A relay that listens on port 8080 runs these as they stand, in this order:

  relay-client edit ws://127.0.0.1:8080/rooms/shop '[{"op":"add","path":"","value":{"n":1}}]'
  relay-client get ws://127.0.0.1:8080/rooms/shop
  relay-client get ws://127.0.0.1:8080/rooms/shop /n
  relay-client watch ws://127.0.0.1:8080/rooms/shop /n | head -n 1
  echo '[{"op":"replace","path":"/n","value":2}]' |
    relay-client edit ws://127.0.0.1:8080/rooms/shop - --base 1

It exits with 0 if all was done, 1 if the relay refused it, 2 if the words are wrong or the address
is none of a room, and 3 if there is no relay, it has no room to get, or it lets nobody in, or the
connection was lost before the answer.
"""
GET = """Prints the value at each pointer, by default the whole document. If one of them leads to
nothing, it prints none and exits with 1. It begins no room: if there is none of this name, it exits
with 3."""
WATCH = """Prints {"rev":R,"slots":[..]} at first and for each change, until Ctrl-C or until nobody
reads it any more. A slot is [value], or [] if its pointer leads to nothing. If the connection is
lost it comes back by itself, and says so on standard error. It begins no room: if there is none of
this name, it says so, and waits for it however long that takes."""
EDIT = """Applies a JSON Patch, whole or not at all, and prints {"rev":N}, the revision that it
made."""


def main(words: Optional[Sequence[str]] = None) -> int:
    asked = _parser().parse_args(words)
    try:
        asyncio.run(_running(asked))
        return DONE
    except BrokenPipeError:
        # What was not written is not tried again when Python ends.
        os.dup2(os.open(os.devnull, os.O_WRONLY), sys.stdout.fileno())
        return DONE
    except KeyboardInterrupt:
        return DONE if asked.command == "watch" else NO_RELAY
    except Refused as refused:
        print(f"relay-client: refused: {_in_words(refused, asked)}", file=sys.stderr)
        return REFUSED
    except (Closed, HandshakeFailed, NoAnswer, NoRoom, Unknown) as error:
        is_open = asked.command == "edit" and isinstance(error, (NoAnswer, Unknown))
        also = ": the edit may have been done, or not" if is_open else ""
        print(f"relay-client: {error}{also}", file=sys.stderr)
        return WRONG if isinstance(error, HandshakeFailed) and error.status == 404 else NO_RELAY


def _running(asked: argparse.Namespace) -> Coroutine[Any, Any, None]:
    if asked.command == "get":
        return commands.get(asked.url, asked.pointers or [""], asked.timeout)
    if asked.command == "watch":
        return commands.watch(asked.url, asked.pointers or [""], asked.timeout)
    return commands.edit(asked.url, asked.patch, asked.base, asked.timeout)


def _in_words(refused: Refused, asked: argparse.Namespace) -> str:
    of = "operation" if asked.command == "edit" else "pointer"
    place = "" if refused.at is None else f", at {of} {refused.at} (the first is 0)"
    room = "" if refused.rev is None else f", the room is at revision {refused.rev}"
    return f"{refused.fault}{place}{room}"


def _parser() -> argparse.ArgumentParser:
    shape: Any = argparse.RawDescriptionHelpFormatter
    parser = argparse.ArgumentParser(
        prog="relay-client", description=ABOUT, epilog=EXAMPLES, formatter_class=shape
    )
    of_room = "as ws://127.0.0.1:8080/rooms/NAME"
    watched = _room_words(_watched, of_room)
    room = _room_words(_room, of_room)
    jobs = parser.add_subparsers(dest="command", required=True, metavar="get|watch|edit")
    for name, help_line, about in (
        ("get", "print the values at pointers", GET),
        ("watch", "print each change", WATCH),
    ):
        job = jobs.add_parser(name, parents=[watched], help=help_line, description=about)
        about_pointers = "a JSON Pointer, as /cards/0; none is the whole document"
        job.add_argument(
            "pointers", nargs="*", type=_pointer, metavar="POINTER", help=about_pointers
        )
    job = jobs.add_parser("edit", parents=[room], help="apply a JSON Patch", description=EDIT)
    about_patch = "a JSON Patch, or - to read it from standard input"
    job.add_argument("patch", type=_patch, metavar="PATCH", help=about_patch)
    about_base = "the revision that the patch was made for; at another it is refused, as stale"
    job.add_argument("--base", type=_count, metavar="REV", help=about_base)
    return parser


def _room_words(url: Callable[[str], str], about_url: str) -> argparse.ArgumentParser:
    """The words that a command for a room begins with."""
    words = argparse.ArgumentParser(add_help=False)
    words.add_argument("url", type=url, metavar="URL", help=about_url)
    words.add_argument(
        "--timeout",
        type=_seconds,
        default=10.0,
        metavar="SECONDS",
        help="how long to wait for the first answer (10)",
    )
    return words


def _room(word: str) -> str:
    if without_watch(word) != word:
        advice = "leave out `/watch`: who only watches edits nothing"
        raise argparse.ArgumentTypeError(f"{shown_address(word)}: {advice}")
    return _watched(word)


def _watched(word: str) -> str:
    try:
        check_room(without_watch(word))
    except ValueError as error:
        raise argparse.ArgumentTypeError(str(error)) from error
    return word


def _pointer(word: str) -> str:
    try:
        tokens(word)
    except ValueError as error:
        raise argparse.ArgumentTypeError(str(error)) from error
    return word


def _patch(word: str) -> Patch:
    try:
        value = json.loads(sys.stdin.buffer.read() if word == "-" else word)
    except (RecursionError, ValueError) as error:
        raise argparse.ArgumentTypeError(f"no JSON: {error}") from error
    try:
        patch: Patch = as_json(value)
    except ValueError as error:
        raise argparse.ArgumentTypeError(str(error)) from error
    if not isinstance(patch, list):
        raise argparse.ArgumentTypeError('a patch is a list of operations, as [{"op":..},..]')
    for at, operation in enumerate(patch):
        _check_operation(operation, f"operation {at} (the first is 0)")
    return patch


def _check_operation(operation: Any, which: str) -> None:
    if not isinstance(operation, dict) or operation.get("op") not in [*NEEDS]:
        raise argparse.ArgumentTypeError(f"{which} is no object with an `op` of {', '.join(NEEDS)}")
    for name in NEEDS[operation["op"]]:
        if name not in operation:
            raise argparse.ArgumentTypeError(f"{which} needs `{name}`")
        if name != "value":
            _check_pointer(operation[name], f"{which}: `{name}`")


def _check_pointer(pointer: Any, which: str) -> None:
    if not isinstance(pointer, str):
        raise argparse.ArgumentTypeError(f"{which} is no text")
    try:
        tokens(pointer)
    except ValueError as error:
        raise argparse.ArgumentTypeError(f"{which}: {error}") from error


def _count(word: str) -> int:
    number = int(word)
    if not 0 <= number < 2**53:
        raise argparse.ArgumentTypeError(f"{word} is no revision")
    return number


def _seconds(word: str) -> float:
    number = float(word)
    if not 0 < number < float("inf"):
        raise argparse.ArgumentTypeError(f"{word} is no time")
    return number


if __name__ == "__main__":
    sys.exit(main())
