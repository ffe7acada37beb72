"""Journals and timelines: reading them, the order of names, and the offers that race."""
from __future__ import annotations

import re
from array import array
from typing import Container, Iterator, NamedTuple, Optional

from .errors import BAD_JOURNAL, ToolError

PROCESS = r"(0(?:/\d+\.\d+)*)"
ENTRY = re.compile(PROCESS + r" (?:(fork) (\d+)|(send|receive) (0(?:/\d+\.\d+)*#\d+)|(fault) (F\d+)"
                   r"|(open|end|laid|pause))$")
HEADS = ("superpascal journal 1", "superpascal journal 2", "timeline")
OTHERS = ("census", "tree", "waiting")
HEAD = b"superpascal journal 2\n"
OFFER = re.compile(rb"^(\S+) (send|receive) (\S+)$", re.M)


class Entry(NamedTuple):
    """An entry: its process, what the process did, and the count of children, the channel or the fault."""

    name: str
    kind: str
    argument: str

    def __str__(self) -> str:
        return " ".join(part for part in self if part)


class Record(NamedTuple):
    """What was reported of a run: the lines of its end and verdict, if they are there, and its entries."""

    head: list[str]
    entries: list[Entry]


def entry_of(line: str) -> Optional[Entry]:
    """The entry that a line spells, if it does."""
    got = ENTRY.match(line)
    if got is None:
        return None
    name, *parts = got.groups()
    kind = parts[0] or parts[2] or parts[4] or parts[6]
    return Entry(name, kind, parts[1] or parts[3] or parts[5] or "")


def read_record(text: str) -> Record:
    """Reads what `--show journal`, `timeline` or `all` wrote; with the lines of the end and the verdict before it."""
    lines = text.split("\n")
    cut = lines.pop()
    if cut:
        raise ToolError(BAD_JOURNAL, "line %d is cut off: %s" % (len(lines) + 1, cut[:80]))
    head: list[str] = []
    entries: list[Entry] = []
    known: dict[str, str] = {}
    part = ""
    for number, line in enumerate(lines, 1):
        if not part:
            if line in HEADS:
                part = line
            else:
                head.append(line)
            continue
        if line in OTHERS:
            break
        if part == "timeline":
            index, _, line = line.partition(" ")
            if index != str(len(entries)):
                said = (index + " " + line)[:80]
                raise ToolError(BAD_JOURNAL, "line %d is no entry of a timeline: %s" % (number, said))
        entry = entry_of(line)
        if entry is None:
            raise ToolError(BAD_JOURNAL, "line %d is no entry of a journal: %s" % (number, line[:80]))
        entries.append(Entry(*[known.setdefault(word, word) for word in entry]))
    if not part:
        raise ToolError(BAD_JOURNAL, "this is no journal: it has no line `superpascal journal 2` or `timeline`")
    return Record(head, entries)


class Journal:
    """The lines of a journal that the program has written or followed. An entry is taken apart when it is asked for."""

    def __init__(self, lines: bytes) -> None:
        self.lines = lines
        self.count = lines.count(b"\n")
        self._ends: Optional[array[int]] = None

    @property
    def ends(self) -> array[int]:
        """Where each line ends, by its index."""
        if self._ends is None:
            self._ends = array("Q", (got.end() for got in re.finditer(rb"\n", self.lines)))
        return self._ends

    def begins(self, at: int) -> int:
        """Where a line begins."""
        return self.ends[at - 1] if at else 0

    def entry(self, at: int) -> Entry:
        """The entry at this index."""
        found = entry_of(self.lines[self.begins(at):self.ends[at] - 1].decode("latin1"))
        if found is None:
            raise ToolError(BAD_JOURNAL, "entry %d is no entry of a journal" % at)
        return found

    def first(self, count: int) -> bytes:
        """The text of the journal that has the first entries only."""
        return HEAD + (self.lines if count >= self.count else self.lines[:self.begins(count)])

    def last_of(self, name: str) -> int:
        """The index of the last entry of a process, or -1."""
        begin = self.lines.rfind(b"\n%s " % name.encode()) + 1
        if begin == 0 and not self.lines.startswith(b"%s " % name.encode()):
            return -1
        return self.lines.count(b"\n", 0, begin)

    def offers(self, channels: Container[str]) -> Iterator[tuple[int, str, str, str]]:
        """The offers on these channels: the index, the process, the direction and the channel of each."""
        at = last = 0
        for got in OFFER.finditer(self.lines):
            channel = got[3].decode()
            if channel in channels:
                at += self.lines.count(b"\n", last, got.start())
                last = got.start()
                yield at, got[1].decode(), got[2].decode(), channel

    def counts(self) -> dict[str, int]:
        """How many entries there are of each kind, and how many `children` the forks have started."""
        words = re.findall(rb"^\S+ (\w)", self.lines, re.M)
        found = {kind: words.count(kind[:1].encode()) for kind in ("open", "send", "receive", "pause", "end")}
        found["children"] = sum(map(int, re.findall(rb" fork (\d+)$", self.lines, re.M)))
        return found


def journal_in(notes: bytes) -> tuple[list[str], Journal]:
    """What `--show timeline`, `all` or `journal` wrote: the lines of the end and the verdict, and the journal."""
    head, mark, rest = notes.partition(b"timeline\n")
    if not mark:
        head, _, rest = notes.partition(HEAD)
        return head.decode("utf-8", "replace").splitlines(), Journal(rest)
    ends = (rest.find(b"\n%s\n" % other.encode()) for other in OTHERS)
    rest = rest[:min((end + 1 for end in ends if end >= 0), default=len(rest))]
    return head.decode("utf-8", "replace").splitlines(), Journal(re.sub(rb"^\d+ ", b"", rest, flags=re.M))


def partner_of(journal: Journal, channel: str, at: int) -> Optional[int]:
    """The entry that an offer on this channel met, if it met one."""
    pending: Optional[int] = None
    for index, _, _, _ in journal.offers((channel,)):
        if pending is not None and at in (pending, index):
            return index if at == pending else pending
        pending = index if pending is None else None
    return None


def journal_text(entries: list[Entry]) -> str:
    """The entries as a journal that `replay` takes."""
    return "superpascal journal 2\n" + "".join(str(entry) + "\n" for entry in entries)


def order_of(name: str) -> list[tuple[int, ...]]:
    """By what the names of processes are in order."""
    return [tuple(map(int, pair.split("."))) for pair in name.split("/")[1:]]


def parent_of(name: str) -> str:
    """The name of the parent of a process that is not the root."""
    return name.rpartition("/")[0]


def racing(entries: list[Entry]) -> Optional[tuple[int, int]]:
    """The least pair of offers that race, by the later one and then the earlier: as the program's verdict has it.

    A clock has the number of known entries only for a process of which another one's later offer asks.
    """
    if any(entry.kind == "fault" for entry in entries):
        return None
    clocks: dict[str, dict[str, int]] = {"0": {}}
    asked, met = who_is_asked(entries), partners(entries)
    forks: dict[str, int] = {}
    offers: dict[tuple[str, str], list[int]] = {}
    for at, (name, kind, argument) in enumerate(entries):
        if kind == "fork":
            fork = forks[name] = forks.get(name, -1) + 1
            given = {**clocks[name], name: at} if name in asked else clocks[name]
            for child in range(int(argument)):
                clocks["%s/%d.%d" % (name, fork, child)] = given
        elif kind in ("send", "receive"):
            those = offers.setdefault((argument, kind), [])
            if those and not knows(entries, met, clocks[name], name, those[-1], at):
                return next(it for it in those if not knows(entries, met, clocks[name], name, it, at)), at
            those.append(at)
            other = met.get(at, at)
            if other < at:
                partner = entries[other].name
                both = merged(clocks[name], clocks[partner], at, [who for who in (name, partner) if who in asked])
                clocks[name] = clocks[partner] = both
        elif kind == "end" and name != "0":
            parent = parent_of(name)
            clocks[parent] = merged(clocks[parent], clocks.pop(name), at, [name] if name in asked else [])
    return None


def merged(one: dict[str, int], other: dict[str, int], at: int, those: list[str]) -> dict[str, int]:
    """What two processes know together, and all that these have done up to the entry `at`."""
    if one is other and not those:
        return one
    both = {**one}
    for who, count in other.items():
        if count > both.get(who, -1):
            both[who] = count
    for who in those:
        both[who] = at
    return both


def knows(entries: list[Entry], met: dict[int, int], clock: dict[str, int], name: str, offer: int, at: int) -> bool:
    """Whether the process knows, before the entry `at`, that this offer has met its partner."""
    if offer not in met or max(offer, met[offer]) >= at:
        return False
    return entries[offer].name == name or clock.get(entries[offer].name, -1) >= max(offer, met[offer])


def who_is_asked(entries: list[Entry]) -> set[str]:
    """The processes whose offers are followed by one of another process, of the same way on the same channel."""
    last: dict[tuple[str, str], str] = {}
    asked = set()
    for name, kind, argument in entries:
        if kind in ("send", "receive"):
            before = last.get((argument, kind), name)
            if before != name:
                asked.add(before)
            last[argument, kind] = name
    return asked


def partners(entries: list[Entry]) -> dict[int, int]:
    """For each offer that met another one, the index of that."""
    pending: dict[str, int] = {}
    met: dict[int, int] = {}
    for at, (_, kind, argument) in enumerate(entries):
        if kind in ("send", "receive"):
            other = pending.pop(argument, None)
            if other is None:
                pending[argument] = at
            else:
                met[at], met[other] = other, at
    return met
