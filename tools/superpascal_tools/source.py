"""Lines of a text with a caret below a place."""
from __future__ import annotations

from .tokens import Place

WIDE = 100
BEFORE = 64


class Source:
    """A text by its lines, and the name of its file."""

    def __init__(self, file: str, text: bytes) -> None:
        self.file, self.lines = file, text.split(b"\n")

    def line(self, place: Place, indent: str = "") -> str:
        """The line of a place, its number before it, and a caret below the place. Long lines are cut around it."""
        number, column = place
        if number > len(self.lines):
            return indent + "(the end of the text)\n"
        text = self.lines[number - 1].rstrip(b"\r")
        before = shown(text[:column - 1])
        # (a character has at most four bytes, and a line may be very long)
        whole = shown(text[:column + 4 * WIDE])
        first = max(0, len(before) - BEFORE)
        cut = "…" if first else ""
        more = "…" if len(whole) > first + WIDE else ""
        margin = "%s%5d | " % (indent, number)
        return "%s%s%s%s\n%s%s^\n" % (margin, cut, whole[first:first + WIDE], more, " " * len(margin),
                                     " " * (len(before) - first + len(cut)))

    def message(self, place: Place, words: str, name: str = "", indent: str = "") -> str:
        """One line as compilers have it, and the line of the program below it."""
        head = "%s%s:%d:%d: %s" % ((indent, self.file) + place + (words,))
        return "%s%s\n%s" % (head, " (%s)" % name if name else "", self.line(place, indent))

    def named(self, place: Place, indent: str = "") -> str:
        """The line of a place, with the file and the place above it."""
        return "%s%s:%d:%d\n%s" % ((indent, self.file) + place + (self.line(place, indent),))


def shown(text: bytes) -> str:
    """Bytes as they are shown: each that cannot be printed as a blank or a mark."""
    return "".join(it if it.isprintable() else " " for it in text.decode("utf-8", "replace"))
