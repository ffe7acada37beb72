"""The answer of the command `where`: processes, what they do, their calls and variables."""
from __future__ import annotations

import re
from functools import cached_property
from typing import NamedTuple, Optional

from .errors import UNFORESEEN, ToolError
from .tokens import Place

LINE = re.compile(r"^(0\S*) (\d+):(\d+) (runs to its end|\w+)(?: (\S+))?$", re.M)
FRAME = re.compile(r"  (\S+)(?: (\d+):(\d+))?$")


class Frame(NamedTuple):
    """A call, or a part of an ancestor's: its block, the place of the call, and its variables. `None` is away."""

    block: str
    place: Optional[Place]
    values: dict[str, Optional[str]]


class Process:
    """A process that has not ended. `does` is the condition, `argument` its channel or fault."""

    __slots__ = ("name", "place", "does", "argument", "lines", "_frames")

    def __init__(self, name: str, place: Place, does: str, argument: str, lines: str) -> None:
        self.name, self.place, self.does, self.argument, self.lines = name, place, does, argument, lines
        self._frames: Optional[list[Frame]] = None

    @property
    def waits(self) -> bool:
        """Whether it waits at an offer."""
        return self.does in ("send", "receive")

    @property
    def frames(self) -> list[Frame]:
        """All frames that are shown for it, the innermost first."""
        if self._frames is None:
            self._frames = []
            for line in self.lines.split("\n"):
                if line.startswith("    "):
                    name, equals, value = line[4:].partition(" = ")
                    self._frames[-1].values[name if equals else name.partition(" ")[0]] = value if equals else None
                elif line:
                    block, *place = FRAME.match(line).groups()  # type: ignore[union-attr]
                    self._frames.append(Frame(block, (int(place[0]), int(place[1])) if place[0] else None, {}))
        return self._frames


class State:
    """The processes that have not ended. Each is looked up in the text when it is asked for."""

    def __init__(self, text: str) -> None:
        self.text = text
        self.found: dict[str, Process] = {}

    def at(self, begin: int) -> Process:
        """The process whose line begins here."""
        got = LINE.match(self.text, begin)
        if got is None:
            raise ToolError(UNFORESEEN, "a line of a state is not as expected: %s" % self.text[begin:begin + 80])
        name, line, column, does, argument = got.groups()
        if name not in self.found:
            stop = self.text.find("\n0", got.end())
            below = self.text[got.end() + 1:stop + 1 if stop >= 0 else len(self.text)]
            self.found[name] = Process(name, (int(line), int(column)), does, argument or "", below)
        return self.found[name]

    def get(self, name: str) -> Optional[Process]:
        """The process of this name, if it has not ended."""
        begin = self.text.find("\n%s " % name) + 1 if name and name not in self.found else 0
        return self.at(begin) if begin else self.found.get(name)

    def __getitem__(self, name: str) -> Process:
        found = self.get(name)
        if found is None:
            raise KeyError(name)
        return found

    @cached_property
    def names(self) -> frozenset[str]:
        """The names of all these processes."""
        return frozenset(re.findall(r"^(0\S*) ", self.text, re.M))

    def __contains__(self, name: object) -> bool:
        return name in self.names

    def __bool__(self) -> bool:
        return "\n0 " in self.text

    def those(self, does: str = r"\w") -> list[Process]:
        """The processes with a condition that matches, in the order of names; all of them by default."""
        return [self.at(got.start()) for got in re.finditer(r"^0\S* \S+ (?:%s)" % does, self.text, re.M)]
