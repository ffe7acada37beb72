"""Values as `where` and `trace` write them, taken apart. Of a value that was cut the last parts are not known."""
from __future__ import annotations

import re
from typing import Optional, Union

from .scopes import Type

Value = Union[str, list, dict, None]
LEAF = re.compile(r"'.'|chr\(\d+\)|[^,\])]+")
CHANNEL = re.compile(r"0(?:/\d+\.\d+)*#\d+")
LONG = 120


def parsed(text: Optional[str]) -> Value:
    """A value: an array as a list, a record as a dictionary."""
    if text is None:
        return None
    is_cut = len(text) > LONG and text.endswith("..")
    return read(text[:-2] + "\0" if is_cut else text, 0)[0]


def read(text: str, at: int) -> tuple[Value, int]:
    """The value that begins here, and the place after it."""
    try:
        if text[at] == "[":
            return read_array(text, at + 1)
        if text[at] == "(":
            return read_record(text, at + 1)
        got = LEAF.match(text, at)
        if got is None or "\0" in got[0]:
            return None, len(text)
        return got[0], got.end()
    except IndexError:
        return None, len(text)


def read_array(text: str, at: int) -> tuple[Value, int]:
    """The elements of an array."""
    found: list[Value] = []
    while at < len(text) and text[at] != "]":
        value, at = read(text, at)
        if value is None or at >= len(text):
            return found + ([value] if isinstance(value, (list, dict)) else []), len(text)
        found.append(value)
        at += 2 if text[at] == "," else 0
    return found, at + 1


def read_record(text: str, at: int) -> tuple[Value, int]:
    """The fields of a record."""
    found: dict[str, Value] = {}
    while at < len(text) and text[at] != ")":
        name, colon, _ = text[at:].partition(": ")
        if not colon or not name.isidentifier():
            return found, len(text)
        value, at = read(text, at + len(name) + 2)
        found[name] = value
        if at >= len(text):
            return found, at
        at += 2 if text[at] == "," else 0
    return found, at + 1


def channels_in(value: Value) -> set[str]:
    """The names of the channels in a value."""
    if isinstance(value, str):
        return {value} if CHANNEL.fullmatch(value) else set()
    parts = value if isinstance(value, list) else value.values() if isinstance(value, dict) else ()
    return set().union(*(channels_in(it) for it in parts))


def order(text: str, kind: Optional[Type]) -> Optional[int]:
    """The number of a value of an ordinal type among those of its type, if it is written as one."""
    if kind is not None and kind.constants:
        return kind.constants.index(text) if text in kind.constants else None
    got = re.fullmatch(r"-?\d+|'(.)'|''''|chr\((\d+)\)", text)
    if got is None:
        return None
    return 39 if text == "''''" else ord(got[1]) if got[1] else int(got[2]) if got[2] else int(text)


def named_at(number: int, kind: Optional[Type]) -> str:
    """The value of an ordinal type with this number."""
    if kind is not None and kind.constants:
        return kind.constants[number] if 0 <= number < len(kind.constants) else str(number)
    if kind is not None and kind.name == "char":
        return "'%s'" % chr(number) if 32 <= number <= 126 else "chr(%d)" % number
    return str(number)


def counted(count: int, what: str) -> str:
    """A number of things, as `1 entry` or `2 entries`."""
    more = {"process": "processes", "entry": "entries"}.get(what, what + "s")
    return "%d %s" % (count, what if count == 1 else more)


def short(text: Optional[str], most: int) -> str:
    """A value, of a long one the beginning."""
    said = "away" if text is None else text
    return said if len(said) <= most else said[:most - 2] + ".."
