"""Which variables statements change and use, and where: for the rules of interference."""
from __future__ import annotations

from bisect import bisect_left
from typing import Iterator, NamedTuple, Optional

from .outline import Outline
from .scopes import Name, Scope
from .tokens import Place


class Way(NamedTuple):
    """How a variable is reached: a position of it, or a call of a block that reaches it."""

    place: Place
    block: Optional[Scope]


Reached = dict[tuple[Name, bool], Way]


class Uses:
    """The variables of statements of a program, each with one way to it."""

    def __init__(self, program: Outline) -> None:
        self.program = program
        self.positions = [at for at, _, _ in program.uses]
        self.calls = [at for at, _ in program.called]
        self.implicit: dict[Scope, Reached] = {block: {} for block in program.blocks}
        self.callers: dict[Scope, list[tuple[Scope, Place]]] = {}
        todo = []
        for block in program.blocks:
            for place, callee in self.calls_in(block.first, block.last):
                self.callers.setdefault(callee, []).append((block, place))
            for key, way in self.direct(block.first, block.last).items():
                if not key[0].block.is_inside(block):
                    self.implicit[block][key] = way
                    todo.append((block, key))
        while todo:
            callee, key = todo.pop()
            for block, place in self.callers.get(callee, []):
                if key not in self.implicit[block] and not key[0].block.is_inside(block):
                    self.implicit[block][key] = Way(place, callee)
                    todo.append((block, key))

    def calls_in(self, first: int, last: int) -> Iterator[tuple[Place, Scope]]:
        """The calls in these tokens."""
        for at, callee in self.program.called[bisect_left(self.calls, first):bisect_left(self.calls, last)]:
            yield self.program.tokens[at].place, callee

    def direct(self, first: int, last: int) -> Reached:
        """The variables that have a position in these tokens, with the first one; no index of a forall among them."""
        found: Reached = {}
        begin, end = bisect_left(self.positions, first), bisect_left(self.positions, last)
        for at, declared, target in self.program.uses[begin:end]:
            if declared.block.what == "forall" and declared.block.first >= first:
                continue
            found.setdefault((declared, target), Way(self.program.tokens[at].place, None))
        return found

    def reached(self, first: int, last: int) -> Reached:
        """The variables of the statement of these tokens: targets (true) and expression variables (false)."""
        found = self.direct(first, last)
        for place, callee in self.calls_in(first, last):
            for key in self.implicit[callee]:
                found.setdefault(key, Way(place, callee))
        return found

    def verb(self, key: tuple[Name, bool]) -> str:
        """What is done to a variable, as `changes x`."""
        word = "reads" if key[0] is self.program.input and key[1] else \
            "writes" if key[0] is self.program.output else "changes" if key[1] else "uses"
        return "%s %s" % (word, key[0].name)

    def brief(self, key: tuple[Name, bool], reached: Reached) -> str:
        """What is done to a variable, and by which call."""
        way = reached[key]
        return self.verb(key) + (" by calling %s" % way.block.name if way.block is not None else "")

    def short(self, key: tuple[Name, bool], reached: Reached) -> str:
        """The same with its place: `changes x at 5:3`."""
        return "%s at %d:%d" % ((self.brief(key, reached),) + reached[key].place)

    def told(self, key: tuple[Name, bool], way: Way) -> str:
        """A way in words: `changes x at 5:3, in show, called at 12:5`."""
        calls = []
        while way.block is not None and len(calls) < 5:
            calls.append("in %s, called at %d:%d" % ((way.block.name,) + way.place))
            way = self.implicit[way.block][key]
        return ", ".join(["%s at %d:%d" % ((self.verb(key),) + way.place)] + calls[::-1])
