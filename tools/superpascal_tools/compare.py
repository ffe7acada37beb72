"""tools/compare: where two runs first did something different."""
from __future__ import annotations

from typing import NamedTuple, Optional, Sequence

from .errors import BAD_WORDS, LONGEST_RECORD, ToolError, put_out, read_file, read_input
from .followed import Followed, Traced
from .journal import Entry, Journal, Record, journal_text, partners, read_record
from .program import Answer, Caller, limit_words, split_words, take_option
from .tokens import Place

HELP = """usage: tools/compare [--program PROGRAM] FILE RUN RUN [limits of the runs] <INPUT
       tools/compare [--program PROGRAM] FILE OTHER_FILE [OPTIONS of `superpascal run`] <INPUT

Compares two runs of the text FILE, of which RUN is a journal (what `superpascal run` wrote with --show journal,
timeline or all, or what `witness` wrote), or one run each of two texts on the same input, with one worker.

The order of entries is left to the schedule, so the runs are compared process by process: what each did, and with whom
its offers met. Of all differences it prints the first in the first run, with what the process did after it in each
run. Values of messages are compared too, and places shown, as `superpascal trace` tells them.
The status is 0 if the two are the same, 1 if they differ.

"""
SHOWN = 3


class Act(NamedTuple):
    """What a process did at an entry: the entry without its name, whom it met there, and the value of the message."""

    did: str
    met: str
    value: str


class Asked(NamedTuple):
    """What the runs have in common: the program, options and the input."""

    caller: Caller
    options: dict[str, str]
    data: bytes

    def run(self, file: str) -> Answer:
        """A run of a text with one worker."""
        read_file(file)
        words = ["run", "--show", "timeline", "--workers", "1", *limit_words(self.options), "--", file]
        return self.caller.ran(words, self.data, file)

    def traced(self, file: str, entries: list[Entry]) -> list[Traced]:
        """What `trace` says of the entries of a journal."""
        journal = Journal(journal_text(entries).partition("\n")[2].encode())
        return list(Followed(self.caller, file, self.options, self.data, journal).lines(0, len(entries) - 1))


class Seen(NamedTuple):
    """One of the two runs: its name, its record, of each entry the act and the place, of each process its entries."""

    title: str
    record: Record
    acts: list[Act]
    places: list[Place]
    own: dict[str, list[int]]

    @property
    def is_cut(self) -> bool:
        """Whether a fault ended it, so that some offers met nobody who would have come."""
        return any(entry.kind in ("fault", "laid") for entry in self.record.entries)


class Difference(NamedTuple):
    """The first difference: a process, which of its entries, and what this is in each run, if it is there."""

    name: str
    number: int
    one: Optional[int]
    other: Optional[int]


def main(words: list[str]) -> int:
    """Prints the first difference of two runs."""
    path = take_option(words, "--program")
    asked = split_words(["run"] + words)
    if len(asked.plain) not in (2, 3) or "--show" in asked.options or "--workers" in asked.options:
        raise ToolError(BAD_WORDS, "wanted are FILE and two journals, or two texts; --help says more")
    what = Asked(Caller(path), asked.options, read_input())
    outputs = [b"", b""]
    if len(asked.plain) == 3:
        read_file(asked.plain[0])
        records = [read_record(read_file(run, LONGEST_RECORD).decode("utf-8", "replace")) for run in asked.plain[1:]]
        one, other = (seen_run(what, run, asked.plain[0], record) for run, record in zip(asked.plain[1:], records))
    else:
        answers = [what.run(file) for file in asked.plain]
        outputs = [answer.output for answer in answers]
        one, other = (seen_run(what, file, file, read_record(answer.notes))
                      for file, answer in zip(asked.plain, answers))
    found = first_difference(one, other)
    said = told(one, other, found) + outputs_told(one, other, outputs)
    put_out((said or "the same: %d entries of %d processes\n" % (len(one.acts), len(one.own))).encode())
    return 1 if said else 0


def seen_run(what: Asked, title: str, file: str, record: Record) -> Seen:
    """A run with what is known of its entries."""
    entries = record.entries
    traced = what.traced(file, entries)
    own: dict[str, list[int]] = {}
    number = []
    for at, entry in enumerate(entries):
        those = own.setdefault(entry.name, [])
        those.append(at)
        number.append(len(those))
    met = partners(entries)
    acts = []
    for at, entry in enumerate(entries):
        other = met.get(at)
        # (the value of a message stands at its send)
        value = traced[at if entry.kind == "send" or other is None else other].value or ""
        partner = "" if other is None else "entry %d of %s" % (number[other], entries[other].name)
        acts.append(Act(str(entry)[len(entry.name) + 1:], partner, value))
    return Seen(title, record, acts, [it.place for it in traced], own)


def first_difference(one: Seen, other: Seen) -> Optional[Difference]:
    """The first entry of the first run that its process did not do in the other one; else the first that the other has
    more."""
    done: dict[str, int] = {}
    for at, entry in enumerate(one.record.entries):
        number = done[entry.name] = done.get(entry.name, 0) + 1
        those = other.own.get(entry.name, [])
        there = those[number - 1] if number <= len(those) else None
        if differ(one, other, at, there):
            return Difference(entry.name, number, at, there)
    count: dict[str, int] = {}
    for at, entry in enumerate(other.record.entries):
        number = count[entry.name] = count.get(entry.name, 0) + 1
        if number > done.get(entry.name, 0) and not (one.is_cut or entry.kind == "laid"):
            return Difference(entry.name, number, None, at)
    return None


def differ(one: Seen, other: Seen, at: int, there: Optional[int]) -> bool:
    """Whether a process did two things, at an entry of each run. What a fault elsewhere cut off is no difference."""
    act = one.acts[at]
    if act.did == "laid":
        return False
    if there is None:
        return not other.is_cut
    that = other.acts[there]
    if that.did == "laid":
        return False
    if act.did != that.did or act.value and that.value and act.value != that.value:
        return True
    return act.met != that.met and not (not act.met and one.is_cut or not that.met and other.is_cut)


def told(one: Seen, other: Seen, found: Optional[Difference]) -> str:
    """The first difference in words, with what the process did after it in each run."""
    if found is None:
        ends = [", ".join(seen.record.head) for seen in (one, other)]
        if ends[0] == ends[1] or not all(ends):
            return ""
        return "no process did anything else, but the ends differ: %s; %s\n" % (ends[0], ends[1])
    said = "the first difference: entry %d of the process %s\n" % (found.number, found.name)
    for seen, at in ((one, found.one), (other, found.other)):
        said += "%s\n" % seen.title
        those = seen.own.get(found.name, [])[found.number - 1:]
        said += "".join("  %s\n" % act_told(seen, it) for it in those[:SHOWN])
        if at is None:
            said += "  it did no more\n"
        elif len(those) > SHOWN:
            said += "  and %d more\n" % (len(those) - SHOWN)
    return said


def act_told(seen: Seen, at: int) -> str:
    """An entry of a run in words."""
    act = seen.acts[at]
    words = "%d: %s" % (at, act.did)
    words += " of %s" % act.value if act.value else ""
    words += ", met by %s" % act.met if act.met else ", met by nobody" if act.did[:4] in ("send", "rece") else ""
    return "%s, at %d:%d" % ((words,) + seen.places[at])


def outputs_told(one: Seen, other: Seen, outputs: Sequence[bytes]) -> str:
    """The first line of the outputs that differs."""
    if outputs[0] == outputs[1]:
        return ""
    lines = [output.decode("utf-8", "backslashreplace").split("\n") + ["(the end)"] for output in outputs]
    at = next(at for at, pair in enumerate(zip(*lines)) if pair[0] != pair[1])
    return "the outputs differ in line %d\n%s\n  %s\n%s\n  %s\n" % (at + 1, one.title, lines[0][at], other.title,
                                                                    lines[1][at])
