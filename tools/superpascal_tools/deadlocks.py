"""A deadlock: who waits for whom, by the state that `where` shows, the journal, and the offers in the text."""
from __future__ import annotations

from itertools import islice
from typing import NamedTuple, Optional

from .followed import Followed
from .journal import order_of
from .reach import Offer, Offers, Reach
from .states import Process
from .tokens import Place

OTHER = {"send": "receive", "receive": "send"}
DONE = {"send": "sent", "receive": "received"}
MOST = 2_000
SIBLINGS = 200


class Use(NamedTuple):
    """How often a process offered on a channel, and its last entry there."""

    count: int
    last: int


class Comer(NamedTuple):
    """A process that could come to meet one that waits, the place of its offer, and whether its channel is certain."""

    name: str
    place: Place
    is_certain: bool


class Deadlock:
    """The processes that wait at offers, and what is known of the other end of their channels."""

    def __init__(self, run: Followed) -> None:
        self.run, self.inspector = run, run.inspector
        self.state = self.inspector.state
        self.stuck = self.state.those("send|receive")
        self.reach = Reach(self.inspector)
        self.uses: dict[tuple[str, str], dict[str, Use]] = {}
        for at, name, kind, channel in run.journal.offers({it.argument for it in self.stuck}):
            those = self.uses.setdefault((channel, kind), {})
            those[name] = Use(those.get(name, Use(0, 0)).count + 1, at)
        self.own: dict[str, Offer] = {}
        self.comers: dict[str, list[Comer]] = {it.name: [] for it in self.stuck}
        self.find_comers()

    def find_comers(self) -> None:
        """Who could come: of the processes that wait at offers or for children, those with such an offer ahead."""
        waiting: dict[tuple[str, str], Process] = {(OTHER[it.does], it.argument): it for it in self.stuck}
        for process in self.state.those("send|receive|join")[:MOST]:
            for key, offer in self.reach.ahead(process).items():
                met = waiting.get(key)
                if met is not None and met.name == process.name:
                    self.own[met.name] = offer
                elif met is not None:
                    self.comers[met.name].append(Comer(process.name, self.place(offer), offer.is_certain))
        for process in self.stuck:
            before = self.before(process)
            self.comers[process.name].sort(key=lambda it: (
                self.state[it.name].does == "join", -before[it.name].last if it.name in before else 1,
                not it.is_certain))

    def place(self, offer: Offer) -> Place:
        """The place of an offer in the text."""
        return self.run.outline.tokens[offer.at].place

    def before(self, process: Process) -> dict[str, Use]:
        """Who offered the other way on the channel of a process that waits."""
        return self.uses.get((process.argument, OTHER[process.does]), {}) if process.waits else {}

    # Circles.
    def next_of(self, name: str) -> list[str]:
        """For whom a process waits: who could come to it, or which of its children."""
        process = self.state[name]
        if process.does == "join":
            return [it.name for it in self.stuck if it.name.startswith(name + "/")][:1]
        return [it.name for it in self.comers[name]][:1]

    def circle(self) -> list[str]:
        """The first circle in which each process waits for the next one; the first name stands at its end again."""
        done: set[str] = set()
        for start in self.stuck:
            seen: dict[str, int] = {}
            name: Optional[str] = start.name
            while name is not None and name not in seen and name not in done:
                seen[name] = len(seen)
                name = next(iter(self.next_of(name)), None)
            if name is not None and name in seen:
                return list(seen)[seen[name]:] + [name]
            done.update(seen)
        return []

    def is_certain(self, circle: list[str]) -> bool:
        """Whether in a circle each process has one other that could come, on a channel that is certain."""
        return all(self.state[name].does == "join" or len(self.comers[name]) == 1 and self.comers[name][0].is_certain
                   for name in circle)

    def after(self, name: str) -> str:
        """For whom a process waits: who could come to it, or who offered on its channel last and waits too."""
        found = self.next_of(name)
        if found:
            return found[0]
        those = [(use.last, it) for it, use in self.before(self.state[name]).items()
                 if it in self.comers and it != name]
        return max(those)[1] if those else ""

    def told_circle(self) -> list[str]:
        """A circle that is certain; one that may be, only if each process that waits has one that could come."""
        circle = self.circle()
        return circle if self.is_certain(circle) or all(self.comers.values()) else []

    def root(self) -> Process:
        """The process for which most others wait, of those that wait for none that waits."""
        follower = {it.name: self.after(it.name) for it in self.stuck}
        roots = {name: 0 for name, other in follower.items() if not other}
        for start in self.stuck[:MOST]:
            name, seen = start.name, set()
            while name and name not in seen and name not in roots:
                seen.add(name)
                name = follower[name] if name in follower else self.after(name)
            if name in roots:
                roots[name] += 1
        best = max(roots.values(), default=0)
        return next((it for it in self.stuck if roots.get(it.name) == best), self.stuck[0])

    # Words.
    def partner(self, process: Process) -> list[str]:
        """What is known of the other end of the channel of a process that waits, the most telling first."""
        kind = OTHER[process.does]
        used = sorted(self.before(process).items(), key=lambda it: -it[1].last)
        said = [self.used(name, kind, use) for name, use in used if name != process.name][:2]
        if not said:
            said = self.ended_siblings(process, kind)
        own = self.own.get(process.name)
        if own is not None:
            alone = "only this process is there; " if self.forks == 0 else ""
            said.insert(0, "%sits own %s on it stands after this %s, at %d:%d" % (
                (alone, kind, process.does) + self.place(own)))
        return said or ["no process has %s" % ("sent on it" if kind == "send" else "received from it")]

    @property
    def forks(self) -> int:
        """How many processes have been started."""
        return self.run.journal.counts()["children"]

    def used(self, name: str, kind: str, use: Use) -> str:
        """What a process did on the channel, and where it is now."""
        times = "once" if use.count == 1 else "%d times" % use.count
        statement = self.statement(name)
        who = "%s (%s)" % (name, statement) if statement else name
        process = self.state.get(name)
        now = self.ended(name) if process is None else \
            "waits itself at line %d" % process.place[0] if process.waits else \
            "waits for its children at line %d" % process.place[0] if process.does == "join" else "has stopped"
        return "%s %s %s and %s" % (who, DONE[kind], times, now)

    def parent_of(self, name: str) -> Optional[Process]:
        """The parent of a process, if it still waits for it."""
        parent = self.state.get(name.rpartition("/")[0])
        return parent if parent is not None and parent.does == "join" else None

    def statement(self, name: str) -> str:
        """The process statement of a process as it is written, if its parent still waits for it."""
        parent = self.parent_of(name)
        region = self.reach.statement_of(parent, name) if parent is not None else None
        return self.run.outline.spelled(*region) if region is not None else ""

    def ended(self, name: str) -> str:
        """That a process has ended, and the line of the end of its statement, or the place of that."""
        parent = self.parent_of(name)
        region = self.reach.statement_of(parent, name) if parent is not None else None
        if region is not None:
            return "ended at line %d" % self.run.outline.tokens[region[1]].place[0]
        at = self.run.journal.last_of(name)
        return "ended; its process statement is at %d:%d" % self.run.traced(at).place if at >= 0 else "has ended"

    def ended_siblings(self, process: Process, kind: str) -> list[str]:
        """The ended children of its ancestors whose statements name the channel, with the offers in them."""
        found = []
        parent, below = self.parent_of(process.name), process.name
        while parent is not None and len(found) < 2:
            fork = below.rpartition(".")[0]
            ended = (it for it in self.children(parent, fork) if it not in self.state)
            for child in islice(ended, SIBLINGS):
                told = self.knew(parent, child, process.argument, kind)
                if told:
                    found.append("%s knew it%s and %s" % (child, told, self.ended(child)))
            below, parent = parent.name, self.parent_of(parent.name)
        return sorted(found, key=lambda it: order_of(it.split(" ")[0]))[:2]

    def children(self, parent: Process, fork: str) -> list[str]:
        """The children of a fork of a process that waits for them, by name."""
        entry = self.run.journal.entry(self.run.journal.last_of(parent.name))
        count = int(entry.argument) if entry.kind == "fork" else 0
        return ["%s.%d" % (fork, number) for number in range(count)]

    def knew(self, parent: Process, child: str, channel: str, kind: str) -> str:
        """How the statement of a child names a channel: an offer there, or a call; nothing if it does not."""
        region = self.reach.statement_of(parent, child)
        if region is None:
            return ""
        offers: Offers = self.reach.within(parent, child)
        offer = offers.get((kind, channel))
        if offer is not None and offer.is_certain:
            return ", has a %s on it at %d:%d" % ((kind,) + self.place(offer))
        for at in range(*region):
            variable = self.inspector.variable(parent, at)
            if variable is not None and variable.value == channel:
                callee = self.inspector.callees.get(region[0])
                return ", in %s," % callee.name if callee is not None else ""
        return ""
