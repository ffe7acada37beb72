"""The longest chain of a journal: entries of which each had to wait for the one before it."""
from __future__ import annotations

from typing import Callable, NamedTuple

from .journal import Entry, parent_of, partners

# A process that has computed for long pauses: this number of ticks lie between its pause and the entry before it.
TICKS = 100_000


class Chain(NamedTuple):
    """A chain, from its first entry to its last, and the sum of the weights of its entries. Of an ordered run it is the
    same weight in all schedules."""

    weight: int
    entries: list[int]


def each_entry(_: Entry) -> int:
    """Each entry counts alike."""
    return 1


def each_pause(entry: Entry) -> int:
    """Only long computing counts."""
    return int(entry.kind == "pause")


def longest_chain(entries: list[Entry], weight_of: Callable[[Entry], int] = each_entry) -> Chain:
    """The heaviest chain. An entry waits for the one before it of its process, the first of a child for the fork, the
    one after a fork for the ends of its children, and both that follow a meeting for the later of its two offers."""
    met = partners(entries)
    # of each process the weight of the heaviest chain so far, and the entry at which it ends
    heads: dict[str, tuple[int, int]] = {"0": (0, -1)}
    before = [-1] * len(entries)
    forks: dict[str, int] = {}
    best = (0, -1)
    for at, entry in enumerate(entries):
        name = entry.name
        weight, last = heads.get(name, (0, -1))
        head = (weight + weight_of(entry), at)
        before[at] = last
        heads[name] = head
        if entry.kind == "fork":
            fork = forks[name] = forks.get(name, -1) + 1
            for child in range(int(entry.argument)):
                heads["%s/%d.%d" % (name, fork, child)] = head
        elif met.get(at, at) < at:
            # (which of the two offers came first is the schedule's: both go on from the heavier one)
            partner = entries[met[at]].name
            head = max(head, heads[partner], key=lambda it: it[0])
            heads[name] = heads[partner] = head
        elif entry.kind == "end" and name != "0":
            parent = parent_of(name)
            heads[parent] = max(heads.get(parent, (0, -1)), head, key=lambda it: it[0])
        best = max(best, head, key=lambda it: it[0])
    return Chain(best[0], path_to(before, best[1]))


def path_to(before: list[int], last: int) -> list[int]:
    """The entries that lead to this one."""
    path = []
    while last >= 0:
        path.append(last)
        last = before[last]
    return path[::-1]
