"""What a process may still do with its channels, by the text: the offers in the statements that can follow its place.

Nothing is evaluated. A channel is known if it stands in a variable or parameter, or in an element whose index is known;
of an element with another index all channels of the array are possible.
"""
from __future__ import annotations

from bisect import bisect_left
from typing import NamedTuple, Optional

from .inspector import Inspector, Range
from .scopes import Name, Scope
from .states import Process
from .values import channels_in, parsed

DEEP = 12
Known = tuple[frozenset[str], bool]
Environment = dict[Name, Known]
NOTHING: Known = (frozenset(), False)


class Offer(NamedTuple):
    """An offer in the text: its token, and whether its channel is certain."""

    at: int
    is_certain: bool


Offers = dict[tuple[str, str], Offer]


class Reach:
    """The offers that processes may still make."""

    def __init__(self, inspector: Inspector) -> None:
        self.inspector, self.outline, self.tokens = inspector, inspector.outline, inspector.tokens
        self.acts = sorted([(at, it.name) for at, it in self.outline.named.items()
                            if it.what == "standard" and it.name in ("send", "receive")] + self.outline.called,
                           key=lambda it: it[0])
        self.numbers = [at for at, _ in self.acts]
        self.bodies = dict(self.outline.parallels)
        self.bodies.update({place: [part] for place, part in self.outline.foralls})

    # Which statements can follow.
    def after(self, at: int, region: Range) -> list[Range]:
        """The tokens in this region that can be executed after the statement or call at a token."""
        loops = [it for it in self.outline.repeated
                 if it[0] <= at < it[1] and region[0] <= it[0] and it[1] <= region[1]]
        loop = min(loops, default=None)
        here, first = (loop[0], loop[1]) if loop else (at, self.end_of(at))
        others = [part for parts in self.outline.choices for number, part in enumerate(parts)
                  if any(begin <= here < end for begin, end in parts[:number])]
        found = [loop] if loop else []
        for begin, end in sorted(others):
            if first <= begin < region[1]:
                found.append((first, begin))
                first = end
        return found + [(first, region[1])]

    def end_of(self, at: int) -> int:
        """The token after what is left of a statement at whose word a process stands."""
        parts = self.bodies.get(self.tokens[at].place)
        return parts[-1][1] if parts else at + 1

    def region(self, process: Process) -> Optional[Range]:
        """The tokens of the process statement or element statement of a process; of the root its statement part."""
        if process.name == "0":
            return self.outline.main.first, self.outline.main.last
        parent = self.inspector.parent(process)
        return self.statement_of(parent, process.name) if parent is not None else None

    def statement_of(self, parent: Process, child: str) -> Optional[Range]:
        """The tokens of the process statement of a child of a process that waits for it."""
        parts, number = self.bodies.get(parent.place), int(child.rpartition(".")[2])
        if parts is None:
            return None
        at = self.inspector.token_at[parent.place]
        return parts[0] if self.tokens[at].word == "forall" else parts[number] if number < len(parts) else None

    # Which offers stand there.
    def ahead(self, process: Process) -> Offers:
        """The offers that a process may still make, by direction and channel: the first one of each in the text."""
        found: Offers = {}
        at = self.inspector.token_at[process.place]
        calls = self.inspector.stack(process)[0]
        for call in calls:
            if call.scope is None or call.frame.place is None:
                continue
            self.collect(process, self.after(at, (call.scope.first, call.scope.last)), {}, found, 0)
            at = self.inspector.token_at[call.frame.place]
        region = self.region(process)
        if region is not None:
            self.collect(process, self.after(at, region), {}, found, 0)
        return found

    def within(self, parent: Process, child: str) -> Offers:
        """The offers in the statement of a child that has ended."""
        found: Offers = {}
        region = self.statement_of(parent, child)
        if region is not None:
            self.collect(parent, [region], {}, found, 0)
        return found

    def collect(self, process: Process, ranges: list[Range], known: Environment, found: Offers, deep: int) -> None:
        """Adds the offers in these tokens, and in the calls there, of which `known` has the parameters."""
        for first, last in ranges:
            for number in range(bisect_left(self.numbers, first), bisect_left(self.numbers, last)):
                at, what = self.acts[number]
                given = self.inspector.arguments(at)
                if isinstance(what, Scope):
                    if deep < DEEP:
                        inner: Environment = {**known, **{it: NOTHING for it in what.names.values()}}
                        for formal, part in zip(what.formals, given):
                            inner[formal] = self.channels(process, part, known)
                        self.collect(process, [(what.first, what.last)], inner, found, deep + 1)
                    continue
                channels, is_certain = self.channels(process, given[0], known)
                for channel in channels:
                    old = found.get((what, channel))
                    if old is None or is_certain and not old.is_certain:
                        found[what, channel] = Offer(at, is_certain)

    def channels(self, process: Process, part: Range, known: Environment) -> Known:
        """The channels that an expression of these tokens can be, and whether it is certain."""
        declared = self.outline.named.get(part[0])
        if declared is None:
            return NOTHING
        if declared in known:
            channels, is_certain = known[declared]
            return channels, is_certain and part[1] - part[0] == 1 and declared not in self.inspector.changed
        variable = self.inspector.variable(process, part[0])
        if variable is None:
            return NOTHING
        those = frozenset(channels_in(variable.value))
        if those and variable.kind is not None and variable.kind.form == "channel" and self.is_fixed(part):
            return those, True
        return frozenset(channels_in(parsed(self.inspector.value(process, declared)))), False

    def is_fixed(self, part: Range) -> bool:
        """Whether the text changes no variable in these indices."""
        names = [self.outline.named.get(at) for at in range(part[0] + 1, part[1])]
        return all(it is None or it.what not in ("var", "byvar") or it not in self.inspector.changed for it in names)
