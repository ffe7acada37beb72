"""When the entries of a journal happen: each has a row, right below what had to come before it, or one of its own."""
from __future__ import annotations

from .journal import Entry, parent_of

Fork = tuple[str, int]


class Timing:
    """The rows of the entries, the partners of offers, and when processes begin, join and end."""

    def __init__(self, entries: list[Entry], in_order: bool) -> None:
        self.entries, self.in_order = entries, in_order
        self.row = [0] * len(entries)
        self.ready: dict[int, int] = {}
        self.meets: dict[int, int] = {}
        self.waiting: dict[str, int] = {}
        self.born: dict[str, tuple[int, int]] = {"0": (0, -1)}
        self.ended: dict[str, tuple[int, int]] = {}
        self.forks: dict[Fork, tuple[int, int, int]] = {}
        self.joined: dict[Fork, tuple[int, int]] = {}
        self.last: dict[str, int] = {"0": 0}
        self.made: dict[str, int] = {}
        self.alive: dict[Fork, int] = {}
        self.pending: dict[str, int] = {}
        self.opened: dict[int, str] = {}
        self.opens: dict[str, int] = {}
        self.opening: dict[str, int] = {}
        for at, entry in enumerate(entries):
            if entry.name not in self.last:
                continue
            self.enter(at, entry)

    def step(self, at: int, name: str) -> int:
        """The next row of a process."""
        self.last[name] = at + 1 if self.in_order else self.last[name] + 1
        return self.last[name]

    def enter(self, at: int, entry: Entry) -> None:
        """One entry."""
        name, kind, argument = entry
        if kind == "open":
            self.open(at, name)
            return
        self.opening.pop(name, None)
        self.row[at] = self.step(at, name)
        if kind == "fork":
            fork = self.made[name] = self.made.get(name, -1) + 1
            self.forks[name, fork] = (self.row[at], at, int(argument))
            self.alive[name, fork] = int(argument)
            for child in range(int(argument)):
                born = "%s/%d.%d" % (name, fork, child)
                self.last[born] = self.row[at]
                self.born[born] = (self.row[at], at)
        elif kind in ("send", "receive"):
            self.ready[at] = self.row[at]
            self.offer(at, name, argument)
        elif kind == "end":
            self.ended[name] = (self.row[at], at)
            if name != "0":
                self.join(at, name)
        elif kind in ("fault", "laid"):
            self.ended[name] = (self.row[at], at)

    def open(self, at: int, name: str) -> None:
        """Channels that a process opens one after the other share a row."""
        count = self.opens[name] = self.opens.get(name, -1) + 1
        self.opened[at] = "%s#%d" % (name, count)
        if self.in_order or name not in self.opening:
            self.opening[name] = self.step(at, name)
        self.row[at] = self.opening[name]

    def offer(self, at: int, name: str, channel: str) -> None:
        """An offer; if it meets another one, both are in one row."""
        other = self.pending.get(channel)
        if other is None or self.entries[other].kind == self.entries[at].kind:
            self.pending[channel] = at
            self.waiting[name] = at
            return
        del self.pending[channel]
        partner = self.entries[other].name
        self.waiting.pop(partner, None)
        self.meets[at], self.meets[other] = other, at
        row = at + 1 if self.in_order else max(self.last[name], self.last[partner])
        self.last[name] = self.last[partner] = self.row[at] = self.row[other] = row

    def join(self, at: int, name: str) -> None:
        """A child has ended; its parent goes on below the last one."""
        parent, pair = parent_of(name), name.rpartition("/")[2]
        fork = int(pair.split(".")[0])
        self.alive[parent, fork] -= 1
        self.last[parent] = max(self.last[parent], self.row[at])
        if not self.alive[parent, fork]:
            self.joined[parent, fork] = (self.last[parent], at)
