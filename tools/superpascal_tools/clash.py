"""A clash of two offers in words: F6, of one direction, and F7, of different message types."""
from __future__ import annotations

from typing import Optional

from .followed import Followed
from .inspector import Range
from .states import Process
from .values import short

WIDE = 60


class Clash:
    """An offer that met a fault: which one, on which channel, and whose offer waits there."""

    def __init__(self, run: Followed, process: Process) -> None:
        self.process, self.inspector, self.outline = process, run.inspector, run.outline
        at = self.inspector.token_at[process.place]
        self.fault, self.kind = process.argument, self.outline.tokens[at].word
        given = self.inspector.arguments(at)
        self.spelled_channel, self.channel = self.outline.spelled(*given[0]), ""
        self.other: Optional[Process] = None
        variable = self.inspector.variable(process, given[0][0])
        does = self.kind if self.fault == "F6" else {"send": "receive", "receive": "send"}[self.kind]
        those = self.inspector.state.those(does)
        if variable is not None and isinstance(variable.value, str):
            self.channel = variable.value
            those = [it for it in those if it.argument == self.channel]
        if len(those) == 1:
            self.other = those[0]
            self.channel = self.other.argument

    def told(self) -> str:
        """Both offers in one line."""
        name, other = self.process.name, self.other
        variable = self.inspector.channel_variable(self.channel)
        channel = (self.channel or self.spelled_channel) + (" (%s)" % variable if variable else "")
        if other is None:
            return "two %ss on %s: %s comes with one while another process waits with one" % (self.kind, channel, name)
        if self.fault == "F7":
            return "message types differ on %s: %s %ss %s, and %s, which waits at %d:%d, %ss %s" % (
                channel, name, self.kind, self.typed(self.process), other.name, *other.place, other.does,
                self.typed(other))
        return "two %ss on %s: %s comes with one while %s waits with one at %d:%d" % (
            self.kind, channel, name, other.name, *other.place)

    def messages(self, process: Process) -> list[Range]:
        """The tokens of the messages of an offer."""
        return self.inspector.arguments(self.inspector.token_at[process.place])[1:]

    def message(self, process: Process) -> str:
        """What an offer sends, or the variable into which it receives, as it is written."""
        given = self.messages(process)
        is_send = self.outline.tokens[self.inspector.token_at[process.place]].word == "send"
        parts = []
        for part in given:
            written, value = self.outline.spelled(*part), self.inspector.simple(process, *part)
            known = " = %s" % short(value, WIDE) if is_send and value not in (None, written) else ""
            parts.append(written + known)
        one = "" if len(given) == 1 else "one of "
        return ": %s%s%s" % (one, "the value " if is_send else "into ", ", ".join(parts)) if parts else ""

    def typed(self, process: Process) -> str:
        """The types of the messages of an offer, with their texts."""
        found = ["%s (%s)" % (self.outline.given.get(first) or "a message", self.outline.spelled(first, last))
                 for first, last in self.messages(process)]
        return " or ".join(found)
