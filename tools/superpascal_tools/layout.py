"""Where the parts of a picture are: which entries are drawn, at which height, in which lane."""
from __future__ import annotations

from bisect import bisect_left
from dataclasses import dataclass, field
from typing import Optional

from .columns import OUTSIDE, Lanes
from .timing import Timing

LANE, ROW, SUB, NAME, LEFT, HEAD = 136.0, 32.0, 18.0, 32.0, 46.0, 84.0
Point = tuple[float, float]


@dataclass
class View:
    """What is drawn: the timing and lanes of a run, which entries, and what is known of the text."""

    timing: Timing
    lanes: Lanes
    first: int
    last: int
    title: str
    foot: list[str]
    race: Optional[tuple[int, int]] = None
    clash: Optional[tuple[int, int]] = None
    values: dict[int, str] = field(default_factory=dict)
    titles: dict[str, str] = field(default_factory=dict)
    lines: dict[int, int] = field(default_factory=dict)
    channels: dict[str, str] = field(default_factory=dict)
    waits: list[tuple[str, str]] = field(default_factory=list)
    circle: list[str] = field(default_factory=list)


class Layout:
    """The rows and lanes of one picture."""

    def __init__(self, view: View) -> None:
        self.view, self.timing, self.lanes = view, view.timing, view.lanes
        self.entries = view.timing.entries
        self.shift = 1 if any(self.is_shown(at) and OUTSIDE in self.ends_of(at)
                              for at in range(view.first, view.last + 1)) else 0
        self.shown = [at for at in range(view.first, view.last + 1) if self.is_shown(at)]
        self.racing = set(view.race or ())
        self.forks_of: dict[str, list[tuple[str, int]]] = {}
        for fork in self.timing.forks:
            self.forks_of.setdefault(fork[0], []).append(fork)
        self.waits_of: dict[str, list[int]] = {}
        for at in self.shown:
            if at in self.timing.ready and self.entries[at].name in self.lanes.lane:
                self.waits_of.setdefault(self.entries[at].name, []).append(at)
        self.levels()

    # What is shown.
    def owner(self, at: int) -> str:
        """The lane of an entry's process."""
        return self.lanes.owner(self.entries[at].name)

    def ends_of(self, at: int) -> set[str]:
        """The lanes that an entry touches."""
        found = {self.owner(at)}
        if at in self.timing.meets:
            found.add(self.owner(self.timing.meets[at]))
        return found

    def is_shown(self, at: int) -> bool:
        """Whether an entry is drawn: none inside a fold or outside all lanes."""
        name, kind, _ = self.entries[at]
        lanes = self.ends_of(at)
        if kind in ("send", "receive") and at in self.timing.meets:
            return len(lanes) > 1 or (lanes == {name})
        if kind in ("fault", "send", "receive"):
            return lanes != {OUTSIDE}
        return lanes == {name}

    def is_born(self, name: str) -> bool:
        """Whether the birth of a process is in the part that is drawn."""
        at = self.timing.born[name][1]
        return self.view.first <= at <= self.view.last or at < 0 == self.view.first

    # Rows.
    def levels(self) -> None:
        """A height for each row in which something happens; messages of one row that cross lie below each other."""
        timing = self.timing
        rows, births = set(), set()
        for at in self.shown:
            rows.add(timing.row[at])
            if at in timing.ready:
                rows.add(timing.ready[at])
        for name in self.lanes.lane:
            if name in timing.born and name != "0" and self.is_born(name):
                rows.add(timing.born[name][0])
                births.add(timing.born[name][0])
        barred = set(births)
        for row, at in timing.joined.values():
            if self.view.first <= at <= self.view.last:
                rows.add(row)
                barred.add(row)
        self.rows = sorted(rows) or [0]
        counts = self.layers()
        self.heights, at_height = [], HEAD
        self.bars_at: dict[int, float] = {}
        for row in self.rows:
            self.heights.append(at_height)
            self.bars_at[row] = at_height + SUB * counts.get(row, 0)
            below = counts.get(row, 1) - (row not in barred or row not in counts)
            at_height += ROW + SUB * below + (NAME if row in births else 0)
        self.bottom = at_height

    def layers(self) -> dict[int, int]:
        """How many messages lie below each other in a row; and at which layer each one is."""
        spans: dict[int, list[tuple[float, float, int]]] = {}
        for at in self.shown:
            other = self.timing.meets.get(at, at)
            if at > other:
                left, right = sorted((self.x(self.owner(at)), self.x(self.owner(other))))
                spans.setdefault(self.timing.row[at], []).append((left, right, at))
        self.layer: dict[int, int] = {}
        counts = {}
        for row, those in spans.items():
            ends: list[float] = []
            for left, right, at in sorted(those):
                layer = next((number for number, end in enumerate(ends) if end <= left), len(ends))
                ends[layer:layer + 1] = [right]
                self.layer[at] = self.layer[self.timing.meets[at]] = layer
            counts[row] = len(ends)
        return counts

    def x(self, lane: str) -> float:
        """How far right a lane is."""
        return LEFT if lane == OUTSIDE else LEFT + (self.lanes.lane[lane] + self.shift) * LANE

    def y(self, row: int, at: int = -1) -> float:
        """How far down a row is; with the layer of a message."""
        rank = bisect_left(self.rows, row)
        return self.heights[rank] + SUB * self.layer.get(at, 0) if rank < len(self.rows) else self.bottom

    def y_bar(self, row: int) -> float:
        """How far down the forks and joins of a row are: below its messages."""
        return self.bars_at[row] if row in self.bars_at else self.y(row)

    def point(self, at: int) -> Point:
        """Where an entry is."""
        return self.x(self.owner(at)), self.y(self.timing.row[at], at)
