"""The end of a run in words: a fault, a deadlock, a race."""
from __future__ import annotations

from typing import Optional

from . import rule_pages
from .clash import Clash
from .deadlocks import Deadlock
from .fault_words import FaultWords
from .followed import Followed
from .inspector import Inspector
from .journal import partner_of
from .states import Process
from .values import counted, short

VARIABLES = 12
CALLS = 12
PROCESSES = 40
WIDE = 60


class Ends:
    """Tells how a run along a journal ended. `output` is what it wrote."""

    def __init__(self, run: Followed, output: bytes) -> None:
        self.run, self.source, self.output = run, run.source, output

    def told(self, race: Optional[tuple[int, int]] = None) -> str:
        """The end, and the race if there is one; nothing for a run that is done and ordered."""
        state = self.run.inspector.state
        fault = next(iter(state.those("fault")), None)
        if fault is not None:
            return self.fault(fault)
        said = self.race(race) if race is not None else ""
        if "\ndeadlock\n" in self.run.notes:
            return said + self.deadlock()
        return said + (self.unended() if "\nno end\n" in self.run.notes else "")

    # Words for parts.
    def who(self, process: Process, inspector: Optional[Inspector] = None) -> str:
        """A process by its name and the call that it is in."""
        inspector = inspector or self.run.inspector
        calls = inspector.stack(process)[0]
        first = next(iter(calls), None)
        if first is not None and first.frame.place is not None:
            return "%s in %s" % (process.name, inspector.call_text(first))
        if process.name == "0":
            return "0 (the program)"
        if first is not None:
            return "%s (%s)" % (process.name, inspector.call_text(first))
        return "%s (process statement %d)" % (process.name, int(process.name.rpartition(".")[2]) + 1)

    def path(self, process: Process) -> str:
        """The calls that lead to the place of a process."""
        inspector, lines = self.run.inspector, []
        calls = [it for it in inspector.chain(process) if it.frame.place is not None]
        for call in calls[:CALLS]:
            lines.append("    called at line %d: %s\n" % (call.frame.place[0] if call.frame.place else 0,
                                                       inspector.call_text(call)))
        if len(calls) > CALLS:
            lines.append("    and %d calls before\n" % (len(calls) - CALLS))
        return "".join(lines)

    def channel(self, process: Process, inspector: Optional[Inspector] = None) -> str:
        """The channel at which a process waits, by its variable and by what the process calls it."""
        inspector = inspector or self.run.inspector
        given = inspector.arguments(inspector.token_at[process.place])
        return self.named_channel(process.argument, self.run.outline.spelled(*given[0]) if given else "", inspector)

    def named_channel(self, channel: str, here: str, inspector: Optional[Inspector] = None) -> str:
        """A channel by its variable, and by what is written for it."""
        variable = (inspector or self.run.inspector).channel_variable(channel)
        names = [variable] if variable else []
        if here and here != variable:
            names.append("here %s" % here)
        return "%s%s" % (channel, " (%s)" % ", ".join(names) if names else "")

    def variables(self, process: Process) -> str:
        """The variables that the process sees, those of its own call first."""
        inspector = self.run.inspector
        call = next((it for it in inspector.chain(process) if it.scope is not None), None)
        scope, found = call.scope if call is not None else None, {}
        while scope is not None and len(found) < VARIABLES:
            for declared in scope.names.values():
                if declared.what in ("var", "byvar", "index") and declared.name not in found:
                    value = inspector.value(process, declared)
                    if value is not None:
                        found[declared.name] = short(value, WIDE)
            scope = scope.outer
        those = ["%s = %s" % it for it in list(found.items())[:VARIABLES]]
        return rule_pages.wrapped("    where %s" % ", ".join(those), "      ") if those else ""

    # A fault.
    def fault(self, process: Process) -> str:
        """A fault: its cause and line, the calls that lead there and the variables; of a clash both offers."""
        words = FaultWords(self.run, process, self.output)
        name = process.argument
        said = self.source.message(process.place, words.told(), name)
        if name in ("F1", "F3") and words.is_joined():
            said += "  Both sides of and and or are evaluated: put the test that needs the other into an inner if.\n"
        said += "  %s, %s, in process %s\n" % (name, rule_pages.fault_name(name), self.who(process))
        said += self.path(process) + self.variables(process)
        if words.clash is not None:
            said += self.offers(process, words.clash)
        elif name == "F18" and not self.run.data:
            said += "  The input is empty; <FILE after the words gives a file as input.\n"
        sentence = rule_pages.fault_sentence(name)
        return said + rule_pages.wrapped("  %s comes exactly if %s." % (name, sentence), "    ")

    def offers(self, process: Process, clash: Clash) -> str:
        """Both offers of a clash."""
        other = clash.other
        said = "  %s on channel %s%s.\n" % (
            clash.kind, self.named_channel(clash.channel, clash.spelled_channel), clash.message(process))
        if other is None:
            return said
        said += "  There waits since entry %d process %s with %s%s.\n" % (
            self.run.journal.last_of(other.name), self.who(other), other.does, clash.message(other))
        return said + self.source.named(other.place, "  ") + self.path(other)

    # A deadlock.
    def deadlock(self) -> str:
        """Who waits on what and at which line, who could meet it, and the circle."""
        deadlock = Deadlock(self.run)
        stuck = deadlock.stuck
        circle = deadlock.told_circle()
        if circle:
            parts = circle if len(circle) <= 9 else circle[:7] + ["..", circle[0]]
            first = next((it for it in circle if deadlock.state[it].waits), circle[0])
            how = "each for the next one" if deadlock.is_certain(circle) else \
                "in which each could be met by the next one"
            words = "a circle of waits, %s: %s" % (how, " -> ".join(parts))
        else:
            root = deadlock.root()
            first, words = root.name, "%s; %s" % (self.briefly(root), deadlock.partner(root)[0])
        place = deadlock.state[first].place
        said = self.source.message(place, "deadlock: " + words)
        said += "  %s, and no other can go on\n" % (counted(len(stuck), "process") + " wait" + "s" * (len(stuck) == 1))
        for name in [it for it in circle[:-1] if not deadlock.state[it].waits][:PROCESSES]:
            said += "    %s waits for its children at line %d\n" % (name, deadlock.state[name].place[0])
        told = stuck[:PROCESSES]
        for where in dict.fromkeys([place] + [it.place for it in told]):
            said += self.source.named(where, "  ") if where != place else ""
            said += "".join(self.waits(it) + self.partner(it, deadlock) for it in told if it.place == where)
        if len(stuck) > PROCESSES:
            said += "  and %d more\n" % (len(stuck) - PROCESSES)
        return said

    def briefly(self, process: Process) -> str:
        """A process that waits, in few words."""
        variable = self.run.inspector.channel_variable(process.argument)
        return "%s waits to %s %s%s" % (process.name, "send on" if process.does == "send" else "receive from",
                                        process.argument, " (%s)" % variable if variable else "")

    def waits(self, process: Process) -> str:
        """One process that waits."""
        return "    %s\n      waits to %s channel %s, since entry %d\n" % (
            self.who(process), self.purpose(process), self.channel(process), self.run.journal.last_of(process.name))

    def purpose(self, process: Process) -> str:
        """What a process that waits would send, or into what it would receive, as it is written."""
        inspector = self.run.inspector
        given = inspector.arguments(inspector.token_at[process.place])[1:]
        what = self.run.outline.spelled(given[0][0], given[-1][1]) if given else "?"
        if len(given) > 1:
            what = "one of " + what
        elif process.does == "send" and given:
            value = inspector.simple(process, *given[0])
            what += " (%s)" % short(value, WIDE) if value is not None and value != what else ""
        return "send %s on" % what if process.does == "send" else "receive %s from" % what

    def partner(self, process: Process, deadlock: Deadlock) -> str:
        """Who could meet a process that waits, and where that one is."""
        found = deadlock.comers.get(process.name, [])[:2]
        if found:
            return "".join("      could be met by %s at line %d, which waits %s\n" % (
                it.name, it.place[0], "for its children" if deadlock.state[it.name].does == "join" else "itself")
                           for it in found)
        return "".join("      %s\n" % it for it in deadlock.partner(process))

    # A race.
    def race(self, pair: tuple[int, int]) -> str:
        """The two offers that race, and why neither knows of the other."""
        earlier, later = pair
        journal, run = self.run.journal, self.run
        entries = {at: journal.entry(at) for at in pair}
        met = partner_of(journal, entries[earlier].argument, earlier)
        inspector = Inspector(run.outline, run.state(later + 1))
        traced = {at: run.traced(at) for at in pair}
        variable = inspector.channel_variable(entries[earlier].argument)
        channel = "%s%s" % (entries[earlier].argument, " (%s)" % variable if variable else "")
        words = "race: this %s by %s on %s may come before that of %s at %d:%d" % (
            (entries[later].kind, entries[later].name, channel, entries[earlier].name) + traced[earlier].place)
        said = self.source.message(traced[later].place, words)
        for at in pair:
            process = inspector.state.get(entries[at].name)
            value = traced[at].value
            if value is None and at == earlier and met is not None:
                value = run.traced(met).value
            said += "  entry %d, process %s%s\n" % (
                at, self.who(process, inspector) if process is not None else entries[at].name,
                ", the value %s" % value if value else "")
            said += self.source.named(traced[at].place, "  ")
        one, other = entries[earlier].name, entries[later].name
        if met is not None:
            partner = journal.entry(met)
            said += "  %s met the %s of %s (entry %d), and %s did not know of it: no message and no join\n" % (
                one, partner.kind, partner.name, met, other)
            said += "  leads from there to entry %d. So in another schedule %s comes first, or both wait at once,\n" \
                    "  which is F6.\n" % (later, other)
        else:
            said += "  %s had met nobody, so %s may come first.\n" % (one, other)
        return said

    def unended(self) -> str:
        """The place at which a journal stops before an end."""
        going = self.run.inspector.state.those("runs")
        words = "the journal stops before an end: %s can go on" % counted(len(going), "process")
        said = self.source.message(going[0].place, words) if going else words + "\n"
        for process in going[:8]:
            said += "  %s, at line %d\n" % (self.who(process), process.place[0])
        return said
