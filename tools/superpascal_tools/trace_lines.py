"""tools/explain trace: a run line by line, with processes by their calls and channels by their variables."""
from __future__ import annotations

import os
import shlex
import shutil
import subprocess
import sys
from bisect import bisect_right
from typing import Iterator, NamedTuple, Optional

from . import rule_pages
from .errors import put_out
from .followed import Followed
from .program import number

FILTERS = ("--process", "--channel", "--line", "--from", "--to")
OTHERS = {"end": "ends", "laid": "is stopped", "pause": "has computed for long, and lets others go on"}
PART = 2_000


class Filters(NamedTuple):
    """Which entries are shown: of this process and those below it, on this channel, at these lines, in this part."""

    process: str
    channel: str
    lines: range
    part: range


def filters_of(given: dict[str, str], count: int) -> Filters:
    """The filters that these options ask for."""
    first, _, last = given.get("--line", "").partition("..")
    lines = range(number(first, "--line"), number(last or first, "--line") + 1) if first else range(0)
    stop = number(given["--to"], "--to") + 1 if "--to" in given else count
    part = range(number(given.get("--from", "0"), "--from"), min(stop, count))
    return Filters(given.get("--process", ""), given.get("--channel", "").replace(" ", "").lower(), lines, part)


class TraceLines:
    """The lines of a run. A channel has its variable in the last state; else what the statement that opened it has."""

    def __init__(self, run: Followed) -> None:
        self.run, self.inspector = run, run.last_inspector
        self.blocks = sorted((it.first, it.last, it) for it in run.outline.blocks)
        self.firsts = [it[0] for it in self.blocks]
        self.variables: dict[str, str] = {}
        self.channels: dict[str, str] = {}
        self.opens: dict[str, int] = {}
        self.opens_at: dict[tuple[str, str], int] = {}
        self.forks: dict[str, int] = {}
        self.pending: dict[str, tuple[str, str]] = {}
        self.titles: dict[tuple[str, str], str] = {}

    def chosen(self, wanted: Filters) -> Iterator[str]:
        """The lines of the entries that are wanted."""
        chooses = wanted.process or wanted.channel or wanted.lines
        for index, place, name, kind, *rest in self.run.rows(0, wanted.part.stop - 1):
            channel, words = rest[0] if rest else "", ""
            if kind in ("send", "receive"):
                words = self.offer(index, name, kind, channel, rest[1] if len(rest) > 1 else "")
            elif kind == "open":
                channel = self.opened(name, place)
                words = "opens " + self.channels[channel]
            elif kind == "fork":
                words = self.fork(name, int(channel) - 1)
            elif kind == "fault":
                words = "meets the fault %s, %s" % (channel, rule_pages.fault_name(channel))
            else:
                words = OTHERS[kind]
            if int(index) < wanted.part.start or chooses and not self.is_wanted(wanted, name, place, channel):
                continue
            title = self.titles.get((name, place)) or self.title(name, place)
            yield f"{index:>7} {title} {words}\n"

    def is_wanted(self, wanted: Filters, name: str, place: str, channel: str) -> bool:
        """Whether the filters let an entry pass."""
        if wanted.lines and int(place.partition(":")[0]) not in wanted.lines:
            return False
        if wanted.process and name != wanted.process and not name.startswith(wanted.process + "/"):
            return False
        variable = self.variables.get(channel, "").replace(" ", "").lower()
        return not wanted.channel or wanted.channel in (channel, variable)

    def token(self, place: str) -> int:
        """The token at a place."""
        row, _, column = place.partition(":")
        return self.inspector.token_at.get((int(row), int(column)), 0)

    def title(self, name: str, place: str) -> str:
        """A place, and a process with the block that its statement is in, with its parameters if it is still in that
        call."""
        at = self.token(place)
        rank = bisect_right(self.firsts, at) - 1
        scope = self.blocks[rank][2] if rank >= 0 and at < self.blocks[rank][1] else None
        title = name
        if scope is not None and scope is not self.run.outline.main:
            process = self.inspector.state.get(name)
            calls = [it for it in self.inspector.stack(process)[0] if it.scope is scope] if process is not None else []
            title = "%s %s" % (name, self.inspector.call_text(calls[0]) if len(calls) == 1 else scope.name)
        return self.titles.setdefault((name, place), "%8s  %-24s" % (place, title))

    # What an entry does.
    def opened(self, name: str, place: str) -> str:
        """A channel that is opened. A statement opens its variables one after the other."""
        channel = "%s#%d" % (name, self.opens.setdefault(name, 0))
        self.opens[name] += 1
        count = self.opens_at[name, place] = self.opens_at.get((name, place), -1) + 1
        variable = self.inspector.channel_variable(channel)
        given = self.inspector.arguments(self.token(place))
        if not variable and given:
            variable = self.run.outline.spelled(*given[count % len(given)])
        self.variables[channel] = variable
        self.channels[channel] = "%s (%s)" % (variable, channel) if variable else channel
        return channel

    def fork(self, name: str, last: int) -> str:
        """A fork, with its first and its last child."""
        fork = self.forks[name] = self.forks.get(name, -1) + 1
        return "starts %s/%d.0%s" % (name, fork, " to %s/%d.%d" % (name, fork, last) if last else "")

    def offer(self, index: str, name: str, kind: str, channel: str, value: str) -> str:
        """An offer, which waits or meets the one that waits."""
        if "#" in value:
            value = self.channels.get(value, value)
        there = self.channels.get(channel, channel)
        if kind == "send":
            said = f"sends {value} on {there}"
        else:
            said = f"receives {value} from {there}" if value else f"receives from {there}"
        other = self.pending.pop(channel, None)
        if other is None:
            self.pending[channel] = (index, name)
            return said + ", and waits"
        return f"{said}, {'received' if kind == 'send' else 'sent'} by {other[1]}, which waited since {other[0]}"


def show(lines: Iterator[str]) -> None:
    """Writes lines; at a terminal by a pager."""
    pager = shlex.split(os.environ.get("PAGER", "less -FRSX"))
    if not sys.stdout.isatty() or not pager or shutil.which(pager[0]) is None:
        batch: list[str] = []
        for line in lines:
            batch.append(line)
            if len(batch) == PART:
                put_out("".join(batch).encode())
                batch = []
        put_out("".join(batch).encode())
        return
    with subprocess.Popen(pager, stdin=subprocess.PIPE) as process:
        pipe: Optional[object] = process.stdin
        try:
            for line in lines:
                pipe.write(line.encode())  # type: ignore[union-attr,attr-defined]
        except BrokenPipeError:
            pass
