"""Lanes: a place across for each process that is shown. If there would be too many, subtrees are folded."""
from __future__ import annotations

from typing import Iterable, Iterator, Optional

from .journal import order_of, parent_of

MOST = 60
OUTSIDE = "outside"


class Lanes:
    """The lane of each process: its own, or the one that it is folded into.

    A process has its children to its right; the children of its next fork take the same lanes again.
    """

    def __init__(self, names: Iterable[str], top: str = "0") -> None:
        inside = {name for name in names if name == top or name.startswith(top + "/")}
        inside.add(top)
        for name in list(inside):
            while name != top:
                name = parent_of(name)
                inside.add(name)
        self.top = top
        self.depth_of_top = top.count("/")
        self.children: dict[str, dict[int, list[str]]] = {}
        for name in sorted(inside - {top}, key=order_of):
            fork = int(name.rpartition("/")[2].split(".")[0])
            self.children.setdefault(parent_of(name), {}).setdefault(fork, []).append(name)
        self.deep, self.most = self.fold()
        self.lane: dict[str, int] = {}
        self.rests: dict[str, str] = {}
        self.place()

    def forks(self, name: str, level: int, deep: int, most: Optional[int]) -> Iterator[tuple[int, list[str], int]]:
        """The forks of a process whose children are shown, if they are down to this depth and at the last one only this
        many: the number of each fork, the children that are shown, and how many are not."""
        for fork, those in self.children.get(name, {}).items() if level < deep else ():
            shown = those if most is None or level + 1 < deep else those[:most]
            yield fork, shown, len(those) - len(shown)

    def widths(self, deep: int, most: Optional[int]) -> dict[str, int]:
        """How many lanes each process takes with all below it; the last one is the top."""
        order: list[tuple[str, int]] = []
        todo = [(self.top, 0)]
        while todo:
            name, level = todo.pop()
            order.append((name, level))
            todo.extend((child, level + 1) for _, shown, _ in self.forks(name, level, deep, most) for child in shown)
        wide: dict[str, int] = {}
        for name, level in reversed(order):
            sums = (sum(wide[child] for child in shown) + (rest > 0)
                    for _, shown, rest in self.forks(name, level, deep, most))
            wide[name] = 1 + max(sums, default=0)
        return wide

    def width(self, deep: int, most: Optional[int]) -> int:
        """The number of all lanes."""
        return self.widths(deep, most)[self.top]

    def fold(self) -> tuple[int, Optional[int]]:
        """How deep children are shown, and how many of a fork at that depth."""
        deep, deepest = 0, max((name.count("/") for name in self.children), default=self.depth_of_top - 1)
        deepest -= self.depth_of_top - 1
        while deep < deepest and self.width(deep + 1, None) <= MOST:
            deep += 1
        if deep == deepest:
            return deep, None
        low, high = 0, MOST
        while low < high:
            middle = (low + high + 1) // 2
            if self.width(deep + 1, middle) <= MOST:
                low = middle
            else:
                high = middle - 1
        return (deep + 1, low) if low else (deep, None)

    def place(self) -> None:
        """Gives each process that is shown its lane."""
        self.lane[self.top] = 0
        wide = self.widths(self.deep, self.most)
        for name in reversed(wide):
            level = name.count("/") - self.depth_of_top
            for fork, shown, more in self.forks(name, level, self.deep, self.most):
                at = self.lane[name] + 1
                for child in shown:
                    self.lane[child] = at
                    at += wide[child]
                if more:
                    rest = "%s/%d.*" % (name, fork)
                    self.lane[rest] = at
                    self.rests[rest] = "%d more" % more
        self.count = wide[self.top]

    def owner(self, name: str) -> str:
        """The process, or the fold, in whose lane a process is shown."""
        if name != self.top and not name.startswith(self.top + "/"):
            return OUTSIDE
        pairs = name.split("/")
        shown = "/".join(pairs[:1 + self.depth_of_top + self.deep])
        if shown in self.lane:
            return shown
        while shown != self.top:
            parent, pair = parent_of(shown), shown.rpartition("/")[2]
            rest = "%s/%s.*" % (parent, pair.split(".")[0])
            if rest in self.lane:
                return rest
            if parent in self.lane:
                return parent
            shown = parent
        return self.top
