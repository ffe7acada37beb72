"""A text as the editor has it, in one state, and places in it.

The editor counts lines from 0 and columns in units of UTF-16, and ends a line at CR, too. The program counts bytes.
"""
from __future__ import annotations

import re
import threading
from bisect import bisect_left, bisect_right
from typing import Any, Callable, Optional

from .messages import BAD_PARAMS, Bad
from .outline import Outline
from .tokens import TOKEN, Place, Token

BREAK = re.compile(rb"\r\n|\n|\r")
SAFE = "surrogatepass"
Range = dict[str, dict[str, int]]


class Dropped(Exception):
    """There is a newer text, so nobody wants the answer any more."""


def decoded(data: bytes) -> str:
    """Bytes as the editor has them, which may be halves of pairs of UTF-16."""
    try:
        return data.decode("utf-8", SAFE)
    except UnicodeDecodeError:
        return data.decode("utf-8", "replace")


class Reading(Outline):
    """An outline that is given up if `is_dropped` says so."""

    def __init__(self, text: str, is_dropped: Callable[[], bool]) -> None:
        self.is_dropped = is_dropped
        super().__init__(text)

    def statement(self) -> None:
        if self.is_dropped():
            raise Dropped()
        super().statement()


class Text:
    """One state of a document. `version` is the editor's number of it."""

    def __init__(self, uri: str, version: Optional[int], data: bytes) -> None:
        self.uri, self.version, self.data = uri, version, data
        self.is_old = False
        self.starts = [0] + [it.end() for it in BREAK.finditer(data)]
        self.feeds = [0] + [it.end() for it in re.finditer(rb"\n", data)]
        self.lock = threading.Lock()
        self.read: Optional[Reading] = None
        self.sets: Optional[dict[tuple[Any, ...], tuple[str, str]]] = None

    def outline(self) -> Reading:
        """The outline of the text, which is made once."""
        with self.lock:
            if self.read is None:
                self.read = Reading(self.data.decode("latin1"), lambda: self.is_old)
            return self.read

    # Places: of the program, as a number of bytes, of the editor.
    def offset_of(self, place: Place) -> int:
        """The number of bytes before a place of the program."""
        return min(self.feeds[min(place[0], len(self.feeds)) - 1] + place[1] - 1, len(self.data))

    def place_at(self, offset: int) -> Place:
        """The place of the program after n bytes."""
        line = bisect_right(self.feeds, offset)
        return line, offset - self.feeds[line - 1] + 1

    def offset_at(self, position: Any) -> int:
        """The number of bytes before a position of the editor; one after the end of a line is at its end."""
        try:
            line, column = position["line"], position["character"]
        except (TypeError, KeyError):
            line = column = None
        if not isinstance(line, int) or not isinstance(column, int) or line < 0 or column < 0:
            raise Bad(BAD_PARAMS, "a position has a line and a character, from 0")
        if line >= len(self.starts):
            return len(self.data)
        start = self.starts[line]
        end = self.starts[line + 1] if line + 1 < len(self.starts) else len(self.data)
        text = self.data[start:end].rstrip(b"\r\n")
        if text.isascii():
            return start + min(column, len(text))
        for char in decoded(text):
            column -= 2 if ord(char) > 0xFFFF else 1
            if column < 0:
                break
            start += len(char.encode("utf-8", SAFE))
        return start

    def position(self, offset: int) -> dict[str, int]:
        """The position of the editor after n bytes."""
        line = bisect_right(self.starts, offset) - 1
        before = self.data[self.starts[line]:offset]
        wide = len(before) if before.isascii() else len(decoded(before).encode("utf-16-le", SAFE)) // 2
        return {"line": line, "character": wide}

    def range(self, first: int, last: int) -> Range:
        """The range from one number of bytes to another."""
        return {"start": self.position(first), "end": self.position(last)}

    def whole(self) -> Range:
        """The whole text."""
        return self.range(0, len(self.data))

    # Tokens.
    def span(self, token: Token) -> tuple[int, int]:
        """Where a token begins and ends, in bytes."""
        first = self.offset_of(token.place)
        return first, first + len(token.word)

    def range_of(self, token: Token) -> Range:
        """The range of a token."""
        return self.range(*self.span(token))

    def refused(self, place: Place) -> Range:
        """The range of what is refused at a place: its token, else one character."""
        first = self.offset_of(place)
        got = TOKEN.match(self.data[first:first + 4096].decode("latin1"))
        last = first + (got.end() if got and got.lastgroup != "blank" else 1)
        while first < last < len(self.data) and self.data[last] & 0xC0 == 0x80:
            last += 1
        return self.range(first, min(last, len(self.data)))

    def token_at(self, position: Any) -> Optional[int]:
        """The index of the token at a position; rather of a name that ends there than of a sign."""
        offset, tokens = self.offset_at(position), self.outline().tokens
        place = self.place_at(offset)
        after = bisect_right(tokens, place, key=lambda it: it.place)
        found = None
        for at in range(max(0, after - 2), after):
            first, last = self.span(tokens[at])
            if first <= offset < last or offset == last and tokens[at].kind == "name":
                found = found if found is not None and tokens[at].kind == "sign" else at
        return found

    def index_of(self, place: Place) -> int:
        """The index of the token at a place of the program."""
        return bisect_left(self.outline().tokens, place, key=lambda it: it.place)

    def changed(self, version: Optional[int], changes: Any) -> "Text":
        """The next state, after changes of the editor in their order."""
        text = self
        for change in changes:
            if not isinstance(change, dict) or not isinstance(change.get("text"), str):
                raise Bad(BAD_PARAMS, "a change has a text")
            data = change["text"].encode("utf-8", SAFE)
            if change.get("range") is not None:
                if not isinstance(change["range"], dict):
                    raise Bad(BAD_PARAMS, "a range has a start and an end")
                first = text.offset_at(change["range"].get("start"))
                last = max(first, text.offset_at(change["range"].get("end")))
                data = text.data[:first] + data + text.data[last:]
            text = Text(self.uri, version, data)
        return text if text is not self else Text(self.uri, version, self.data)
