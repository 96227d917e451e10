"""JSON Pointers (RFC 6901), and the names of rooms."""
from __future__ import annotations

import re
from typing import Optional, Tuple, Union
from urllib.parse import SplitResult, urlsplit

from .values import Shown

Path = Tuple[str, ...]

_INDEX = re.compile("0|[1-9][0-9]*")
_ESCAPES = re.compile("(?:[^~]|~[01])*", re.DOTALL)
_ROOM = re.compile("[A-Za-z0-9_-]{1,64}")
# What stands before the host: a name and a password, or a token. A password that is not escaped may
# have a slash, so it ends at the last `@`.
_USER = re.compile(r"^([\w+.-]+:)?([/\\]*)([^:]*:)?.*@", re.DOTALL)
_WATCHED = re.compile(r"/rooms/[A-Za-z0-9_-]{1,64}/watch\Z")


def tokens(pointer: str) -> Path:
    """The tokens of a pointer; `ValueError` if the text is no pointer."""
    if (pointer and not pointer.startswith("/")) or not _ESCAPES.fullmatch(pointer):
        raise ValueError(f"{pointer!r} is no JSON Pointer")
    return tuple(token.replace("~1", "/").replace("~0", "~") for token in pointer.split("/")[1:])


def pointer(*keys: Union[str, int]) -> str:
    """The pointer of keys, names of members and indexes: `pointer("cards", 0)` is `/cards/0`.
    `TypeError` if one is neither."""
    for key in keys:
        is_index = isinstance(key, int) and not isinstance(key, bool) and key >= 0
        if not is_index and not isinstance(key, str):
            raise TypeError(f"{key!r} is no key: a name, or an index")
    return spelled(tuple(map(str, keys)))


def spelled(path: Path) -> str:
    return "".join("/" + token.replace("~", "~0").replace("/", "~1") for token in path)


def overlap(one: str, other: str) -> bool:
    """True if one of two pointers leads to the other's value, or into it."""
    return f"{one}/".startswith(f"{other}/") or f"{other}/".startswith(f"{one}/")


def index(token: str) -> Optional[int]:
    """The index that a token names in a list, if it names one."""
    if not _INDEX.fullmatch(token):
        return None
    return int(token) if len(token) < 20 else 2**64  # which is past the end of every list


def shown_path(shown: Shown) -> Path:
    return tokens(shown if isinstance(shown, str) else shown["size"])


def shown_address(url: str) -> str:
    """The address as it may be shown, in a message or a log: with `***` in place of a password, or
    of a name that has none."""
    return _USER.sub(r"\1\2\3***@", url, count=1)


def _has_host(parts: SplitResult) -> bool:
    try:
        return bool(parts.hostname) and parts.port != 0
    except ValueError:  # a port that is no number
        return False


def check_room(url: str) -> None:
    """`ValueError` if the address is none of a room, as ws://127.0.0.1:8080/rooms/NAME. A path
    before it is a proxy's concern."""
    parts, shown = urlsplit(url), shown_address(url)
    if parts.scheme not in ("ws", "wss") or not _has_host(parts):
        raise ValueError(f"{shown}: an address begins with ws://HOST or wss://HOST")
    _, rooms, name = parts.path.rpartition("/rooms/")
    if without_watch(url) != url:
        raise ValueError(f"{shown}: leave out `/watch`, and connect with `read_only=True`")
    if not rooms or not _ROOM.fullmatch(name):
        raise ValueError(
            f"{shown}: an address ends with /rooms/NAME, and a name is 1 to 64 ASCII letters, "
            "digits, `-` and `_`"
        )


def watching(url: str) -> str:
    """The address by which a room is entered only to watch it."""
    parts = urlsplit(url)
    return parts._replace(path=f"{parts.path}/watch").geturl()


def without_watch(url: str) -> str:
    """The address of the room that such an address is of. A room may be named `watch`."""
    parts = urlsplit(url)
    if parts.path.endswith("/rooms/watch") or not _WATCHED.search(parts.path):
        return url
    return parts._replace(path=parts.path[: -len("/watch")]).geturl()


def is_watching(url: str) -> bool:
    """True if it is such an address, as far as it shows: a path before it is a proxy's concern."""
    parts = urlsplit(url)
    return not parts.query and _WATCHED.search(parts.path) is not None
