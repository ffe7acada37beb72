"""Tokens of a program, with their places."""
from __future__ import annotations

import re
from typing import NamedTuple

MAXINT = 9223372036854775807

WORDS = frozenset("""and array assume begin case const div do downto else end for forall function if mod not of or
parallel procedure program record repeat then to type until var while""".split())

TOKEN = re.compile(r"""(?P<blank>[ \t\f\r\n]+|\{[^}]*\}|\(\*.*?\*\))
|(?P<name>[A-Za-z][A-Za-z0-9_]*)|(?P<number>[0-9]+)
|(?P<text>'(?:[^'\r\n]|'')*')
|(?P<sign>:=|<>|<=|>=|\.\.|[-+*=<>()\[\].,;:|])""", re.S | re.X)

Place = tuple[int, int]


class Token(NamedTuple):
    """A token: its kind (word, sign, name, number, text, bad or end), its spelling in lower case, and its place."""

    kind: str
    word: str
    place: Place


def tokens_of(text: str) -> list[Token]:
    """The tokens of a text, whose characters are its bytes; the last one has the kind `end`."""
    found: list[Token] = []
    at, line, begun = 0, 1, 0
    while at < len(text):
        got = TOKEN.match(text, at)
        if got is None:
            found.append(Token("bad", text[at], (line, at - begun + 1)))
            at += 1
            continue
        kind, word = got.lastgroup or "", got.group()
        if kind != "blank":
            if kind == "name":
                word = word.lower()
                kind = "word" if word in WORDS else "name"
            found.append(Token(kind, word, (line, at - begun + 1)))
        breaks = word.count("\n") if kind == "blank" else 0
        if breaks:
            line += breaks
            begun = at + word.rindex("\n") + 1
        at = got.end()
    found.append(Token("end", "", (line, at - begun + 1)))
    return found


def place_of(text: bytes, at: int) -> Place:
    """The place of a byte."""
    return text.count(b"\n", 0, at) + 1, at - text.rfind(b"\n", 0, at)
