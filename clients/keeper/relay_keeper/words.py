"""The words of the command `relay-keeper`."""
from __future__ import annotations

import argparse
import pathlib
from typing import Optional, Sequence

from .finding import EVERY

KEEP = """Keeps the rooms of a relay in a store, and puts them back when the relay was restarted.
Says `ready` when that is done: on standard output, and to systemd (Type=notify). With --admin it
finds the rooms itself, and puts them back before it lets clients into a relay that was started with
--closed; without, clients should be let in once it is ready. SIGTERM ends it, once everything is
written. A document is written once edits have brought a tenth of its bytes (--pace), and at the
latest when its oldest unwritten edit is so old (--age). So a crash of the keeper and the relay
together, as of the machine, loses at most the edits of that time, and one of the keeper alone
nothing. A second keeper on a store waits until the first one ends."""
SHARE = """Keeps the rooms of one of several relays in PostgreSQL, which all of their keepers share:
each room is open on one relay at a time, and is put back there before clients are let in. Start the
relay with --closed, and with an --epoch that no other one has. This keeper has a lock for each room
that its relay has. It takes those that clients want, unless another keeper has them, which is asked
then to give them up, and it gives up those that are empty (--idle). Says `ready` once it has the
database, so that the relay is started. However it ends, it stops its relay: by SIGTERM once
everything is written; with status 1 if the locks are lost, or the relay does not answer. An edit
that was answered is written within a second."""
RESTORE = """Without a room: puts all kept documents back into a relay, by its operator's port
(--admin), and lets its clients in. With a room: puts an older state of it back, or lists those that
there are. With --url it becomes the document of the room, by an edit; without, that of the store,
and of the room at the next start. What stood there before is set aside."""
LIST = """Prints a line for each room: its name, its revision, the run of the relay that this is of
(its epoch), the bytes of its document, and how many seconds ago it was written, with tabs between
them."""
EXPORT = """Prints a line for each room: an object of JSON with the members room, epoch, revision,
at (milliseconds since 1970) and document."""
IMPORT = """Reads such lines as `export` prints. A state is left out if the store has a later
revision of the same epoch. No keeper may run on the store."""
STATUS = """Exit status: 0 if it is done; 1 if a name, the store, the relay or another keeper
prevents it, as a line on standard error says; 2 if the words are no command."""

STORE = """files:FOLDER or just a folder, sqlite:PATH, or postgresql://USER@HOST/DATABASE (this
needs Debian's python3-psycopg; give the password in PGPASSWORD or ~/.pgpass)"""


def parsed(words: Optional[Sequence[str]]) -> argparse.Namespace:
    """Ends the program with status 2 if they are no command."""
    made = _parser()
    asked, rest = made.parse_known_args(words)
    if rest and (not hasattr(asked, "words") or any(word.startswith("-") for word in rest)):
        made.error(f"unrecognized arguments: {' '.join(rest)}")
    if rest:  # words behind an option
        asked.words = [*asked.words, *rest]
    return asked


def _parser() -> argparse.ArgumentParser:
    made = argparse.ArgumentParser(
        prog="relay-keeper", description="Keeps the rooms of a relay in a store.", epilog=STATUS
    )
    commands = made.add_subparsers(dest="command", required=True)
    _keep(commands)
    _share(commands)
    _restore(commands)
    for word, what, text, example in (
        ("list", "list what is kept", LIST, "list --store /var/lib/relay-keeper/8081"),
        ("export", "print what is kept", EXPORT, "export --store sqlite:rooms.db > rooms.jsonl"),
        ("import", "keep what was exported", IMPORT, "import --store rooms < rooms.jsonl"),
    ):
        command = _command(commands, word, what, text, example)
        _store(command, required=True)
        if word != "import":
            command.add_argument("words", nargs="*", metavar="ROOM", help="(all)")
            _match(command, "also the rooms that match, as 'board-*'; may be given again")
    return made


def _keep(commands: "argparse._SubParsersAction[argparse.ArgumentParser]") -> None:
    example = """keep ws://127.0.0.1:8081 --admin http://127.0.0.1:9081 --store sqlite:rooms.db"""
    command = _command(commands, "keep", "keep rooms", KEEP, example)
    command.add_argument("url", metavar="URL", help="of the relay, as ws://127.0.0.1:8081")
    command.add_argument(
        "words", nargs="*", metavar="ROOM", help="rooms to keep; without --store the store first"
    )
    _store(command)
    _admin(command, "find the rooms there: all, or those that are named or match")
    command.add_argument(
        "--every",
        type=_positive,
        default=EVERY,
        metavar="SECONDS",
        help="from one list of the rooms to the next one (%(default)s)",
    )
    _match(
        command,
        "also the rooms that match, as 'board-*': of the relay with --admin, else of the store "
        "and of --list; may be given again",
    )
    command.add_argument(
        "--list", type=pathlib.Path, metavar="FILE", help="names for --match, one a line"
    )
    _writing(command, age=5.0)


def _share(commands: "argparse._SubParsersAction[argparse.ArgumentParser]") -> None:
    example = """share ws://127.0.0.1:8081 --admin http://127.0.0.1:9081 --store
    postgresql://keeper@db1,db2/rooms?target_session_attrs=read-write --relay boards"""
    command = _command(commands, "share", "keep the rooms of several relays", SHARE, example)
    command.add_argument("url", metavar="URL", help="of the relay, as ws://127.0.0.1:8081")
    _store(command, required=True)
    _admin(command, "open and close rooms there", required=True)
    command.add_argument(
        "--idle",
        type=_positive,
        default=30.0,
        metavar="SECONDS",
        help="after which an empty room is given up (30)",
    )
    _writing(command, age=0.5)


def _writing(command: argparse.ArgumentParser, age: float) -> None:
    """Adds the options that say when is written, and what."""
    command.add_argument(
        "--pace",
        type=_positive,
        default=10.0,
        metavar="FACTOR",
        help="how many times the bytes that edits bring are written at most (10)",
    )
    command.add_argument(
        "--age",
        type=_seconds,
        default=age,
        metavar="SECONDS",
        help="how old an unwritten edit of a document of 1 MiB may be, and in proportion of a "
        "smaller one (%(default)s); 0 writes all at once",
    )
    command.add_argument(
        "--history", type=_count, default=1, metavar="N", help="states kept of each room (1)"
    )
    command.add_argument(
        "--apart",
        type=_seconds,
        default=600.0,
        metavar="SECONDS",
        help="how far older states are apart, at least (600)",
    )


def _restore(commands: "argparse._SubParsersAction[argparse.ArgumentParser]") -> None:
    example = "restore --store sqlite:rooms.db --admin http://127.0.0.1:9081"
    command = _command(commands, "restore", "put documents back", RESTORE, example)
    command.add_argument(
        "words", nargs="*", metavar="WORD", help="[ROOM [TIME]]; without --store the store first"
    )
    _store(command)
    _admin(command, "put all kept documents back, and let clients in")
    _match(command, "with --admin, only the rooms that match; may be given again")
    command.add_argument("--url", metavar="URL", help="of the relay, for one room, if it runs")


def _command(
    commands: "argparse._SubParsersAction[argparse.ArgumentParser]",
    word: str,
    what: str,
    text: str,
    example: str,
) -> argparse.ArgumentParser:
    return commands.add_parser(
        word, help=what, description=text, epilog=f"Example: relay-keeper {example} -- {STATUS}"
    )


def _store(command: argparse.ArgumentParser, required: bool = False) -> None:
    command.add_argument("--store", required=required, metavar="STORE", help=STORE)
    command.add_argument(
        "--relay",
        metavar="NAME",
        help="which relay's rooms, if a database has those of several (relay)",
    )


def _admin(command: argparse.ArgumentParser, what: str, required: bool = False) -> None:
    text = f"the relay's operator's port, as http://127.0.0.1:9081: {what}"
    command.add_argument("--admin", required=required, metavar="URL", help=text)


def _match(command: argparse.ArgumentParser, what: str) -> None:
    command.add_argument("--match", action="append", default=[], metavar="GLOB", help=what)


def _count(word: str) -> int:
    number = int(word)
    if number < 1:
        raise ValueError(word)
    return number


def _positive(word: str) -> float:
    number = float(word)
    if not 0 < number < float("inf"):
        raise ValueError(word)
    return number


def _seconds(word: str) -> float:
    return 0.0 if float(word) == 0 else _positive(word)
