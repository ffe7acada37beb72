"""Names for the parts of a run that is shown whole: processes by their calls, channels by their variables."""
from __future__ import annotations

from functools import cached_property
from typing import Optional

from .followed import Followed
from .inspector import Inspector, Range
from .reach import Reach
from .states import Process
from .timing import Timing
from .tokens import Place
from .values import CHANNEL

FORKS = 6


class RunNames:
    """The names of processes and channels, by the states that `where` tells and by the text."""

    def __init__(self, run: Followed, timing: Timing) -> None:
        self.run, self.timing, self.inspector = run, timing, run.last_inspector
        self.opened = {channel: at for at, channel in timing.opened.items()}
        self.known: dict[str, str] = {}
        self.forks: dict[int, Inspector] = {}

    # Channels.
    def channel(self, channel: str) -> str:
        """A channel by its variable; by its name if that is not known."""
        if channel not in self.known:
            self.known[channel] = self.inspector.channel_variable(channel) or self.as_opened(channel) or channel
        return self.known[channel]

    def as_opened(self, channel: str) -> str:
        """A channel as the statement writes it that has opened it."""
        at = self.opened.get(channel)
        if at is None:
            return ""
        place, owner = self.run.traced(at).place, self.timing.entries[at].name
        given = self.inspector.arguments(self.inspector.token_at[place])
        before, number = at - 1, 0
        while before >= 0 and len(given) > 1:
            entry = self.timing.entries[before]
            if entry.name == owner:
                if entry.kind != "open" or self.run.traced(before).place != place:
                    break
                number += 1
            before -= 1
        return self.run.outline.spelled(*given[number % len(given)]) if given else ""

    def value(self, value: str) -> str:
        """A value of a message; a channel by its variable."""
        return self.channel(value) if CHANNEL.fullmatch(value) else value

    def purpose(self, process: Process, value: Optional[str]) -> str:
        """What a process that waits would send, or into what it would receive."""
        given = self.inspector.arguments(self.inspector.token_at[process.place])[1:]
        what = self.run.outline.spelled(given[0][0], given[-1][1]) if given else ""
        return "value " + value if value is not None else ("into " if process.does == "receive" else "") + what

    # Processes.
    def process(self, name: str) -> str:
        """The call of a process: by its values if it has not ended, else as its statement is written."""
        process = self.inspector.state.get(name)
        if process is not None and name != "0":
            calls = [it for it in self.inspector.stack(process)[0] if it.frame.place is not None]
            if calls:
                return self.inspector.call_text(calls[-1])
        if name == "0":
            return "the program"
        region, index = self.statement(name)
        words = self.run.outline.spelled(*region) if region is not None else ""
        callee = self.inspector.callees.get(region[0]) if region is not None else None
        if callee is not None:
            words = callee.name
        return "%s (%s)" % (words, index) if index and words else index or words

    def fork_of(self, name: str) -> Optional[int]:
        """The entry that has started a process."""
        born = self.timing.born.get(name)
        return born[1] if born is not None and born[1] >= 0 else None

    def statement(self, name: str) -> tuple[Optional[Range], str]:
        """The tokens of the statement of a process, and the index that a forall gave it."""
        at = self.fork_of(name)
        if at is None:
            return None, ""
        place, number = self.run.traced(at).place, int(name.rpartition(".")[2])
        parts = self.bodies.get(place, [])
        is_forall = self.inspector.tokens[self.inspector.token_at[place]].word == "forall"
        region = parts[0] if parts and is_forall else parts[number] if number < len(parts) else None
        return region, self.index(name, at) if is_forall else ""

    @cached_property
    def bodies(self) -> dict[Place, list[Range]]:
        """The tokens of each process statement and element statement."""
        return Reach(self.inspector).bodies

    def index(self, name: str, at: int) -> str:
        """The index of a process of a forall, as it stands after the fork."""
        if at not in self.forks and len(self.forks) < FORKS:
            self.forks[at] = Inspector(self.run.outline, self.run.state(at + 1))
        inspector = self.forks.get(at)
        process = inspector.state.get(name) if inspector is not None else None
        calls = inspector.stack(process)[0] if inspector is not None and process is not None else []
        return inspector.call_text(calls[0]) if inspector is not None and calls else ""
