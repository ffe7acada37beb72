"""A run along a journal, as `where` and `trace` of the program tell it."""
from __future__ import annotations

import io
import re
from functools import cached_property
from typing import Iterator, NamedTuple, Optional

from .errors import REFUSED, UNFIT, ToolError, Unfit, read_file
from .inspector import Inspector
from .journal import Entry, Journal
from .outline import Outline
from .program import Answer, Caller, Limits, limit_words, limits_of
from .source import Source
from .states import State
from .tokens import Place

class Traced(NamedTuple):
    """A line of a trace: the place of an entry, the entry, and the value of its message."""

    place: Place
    entry: Entry
    value: Optional[str]


class Followed:
    """A text, a journal of it, and what the program says of both."""

    def __init__(self, caller: Caller, file: str, options: dict[str, str], data: bytes, journal: Journal) -> None:
        self.caller, self.file, self.options, self.data, self.journal = caller, file, options, data, journal
        self.text = read_file(file)
        self.source = Source(file, self.text)
        self.outline = Outline(self.text.decode("latin1"))
        self.notes = ""

    @property
    def limits(self) -> Limits:
        """The limits of the run."""
        return limits_of(self.options)

    def ask(self, command: str, count: Optional[int] = None) -> Answer:
        """`trace` or `where` along the first entries."""
        journal = self.journal.first(self.journal.count if count is None else count)
        words = [command, *limit_words(self.options), "--", self.file]
        answer = self.caller.beside(words, journal, self.data)
        unfit = re.match(r"journal unfit (\d+)\n", answer.notes)
        if unfit:
            raise Unfit(int(unfit[1]), str(self.journal.entry(int(unfit[1]))))
        if not answer.notes.startswith("replayed"):
            said = answer.notes.split("\n")[0]
            if answer.status == 1:
                raise ToolError(REFUSED, "the program says of %s: %s" % (self.file, said))
            raise ToolError(UNFIT, "the program says of this journal: %s" % said)
        return answer

    def state(self, count: Optional[int] = None) -> State:
        """The state after the last entry, or after the first ones."""
        answer = self.ask("where", count)
        if count is None:
            self.notes = answer.notes
        return State(answer.output.decode("latin1"))

    @cached_property
    def inspector(self) -> Inspector:
        """The state after the last entry, with the names of the text."""
        return Inspector(self.outline, self.state())

    @cached_property
    def last_inspector(self) -> Inspector:
        """The last state in which a process has not ended."""
        if self.inspector.state or not self.journal.count:
            return self.inspector
        return Inspector(self.outline, self.state(self.journal.count - 1))

    @cached_property
    def trace(self) -> bytes:
        """The lines of the trace, and a line feed before them."""
        return self.ask("trace").output[len("trace"):]

    def traced(self, at: int) -> Traced:
        """The line of an entry."""
        return next(self.lines(at, at))

    def rows(self, first: int, last: int) -> Iterator[list[str]]:
        """The lines of these entries by their words: the index, place, process and kind; what else is there."""
        if first > last:
            return
        stream = io.BytesIO(self.trace)
        stream.seek(self.trace.index(b"\n%d " % first) + 1)
        for at, line in zip(range(first, last + 1), io.TextIOWrapper(stream, "latin1", newline="\n")):
            words = line[:-1].split(" ", 5)
            if words[0] != str(at):
                raise ToolError(UNFIT, "a line of the trace is not as expected: entry %d" % at)
            yield words

    def lines(self, first: int, last: int) -> Iterator[Traced]:
        """The lines of these entries."""
        for _, place, name, kind, *rest in self.rows(first, last):
            row, _, column = place.partition(":")
            yield Traced((int(row), int(column)), Entry(name, kind, rest[0] if rest else ""), "".join(rest[1:]) or None)
