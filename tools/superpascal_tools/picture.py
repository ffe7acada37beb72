"""tools/picture: a run as a picture."""
from __future__ import annotations

import os
import shutil
import subprocess
import sys
from typing import Optional

from .clash import Clash
from .columns import Lanes
from .deadlocks import Deadlock
from .drawing import Drawing
from .errors import (BAD_WORDS, LONGEST_RECORD, NO_FILE, NO_PROGRAM, ToolError, read_file, read_input, say,
                     write_file)
from .followed import Followed
from .journal import Entry, Journal, Record, journal_text, racing, read_record
from .layout import View
from .program import Caller, limits_of, number, split_words, take_anywhere
from .run_names import RunNames
from .timing import Timing

HELP = """usage: tools/picture [OPTIONS] [JOURNAL] >RUN.svg
       tools/picture run FILE [OPTIONS, and those of `superpascal run`] <INPUT >RUN.svg

Draws a run as a space-time diagram, an SVG. JOURNAL is what `superpascal run` wrote to standard error with --show
journal, timeline or all; without it standard input is read. With `run` the program runs the text first.

Time goes down, a line is a process, its children to its right. A bar across is a fork or a join, a blue arrow a
message with its channel and value, dashes in orange a wait; in brown, thick and with squares: offers that race or wait
for ever, and a fault as a cross. An entry stands right below what had to come before it, so an ordered run gives one
picture in all schedules.

  --text FILE      the text of the run: messages get values, channels their variables, processes their calls
  --input FILE     the input of the run (none: empty); limits of the run as for `superpascal run`, as --ticks 5
  --order          each entry has a row of its own, in the order of the journal
  --from N, --to N the first and the last entry that is drawn (a part of 400, if there are more)
  --process NAME   this process and all below it; the others are one lane
  --title TEXT     what stands above
  --out FILE       the file for the picture (standard output; at a terminal a file beside the text, which is named)
  --png FILE, --pdf FILE   the picture in this form, by the command rsvg-convert or inkscape
  --program FILE   the program that runs the text, else that of SUPERPASCAL, else ./superpascal of this repository

If a run has more than 60 processes side by side, subtrees are folded: into their parent, or into one lane.

"""
PART = 400
OWN = ("--text", "--input", "--from", "--to", "--process", "--title", "--out", "--png", "--pdf", "--program")


def main(words: list[str]) -> int:
    """Draws a run."""
    runs = words[:1] == ["run"]
    rest = [word for word in (words[1:] if runs else words) if word != "--order"]
    own = take_anywhere(rest, OWN)
    asked = split_words(["run"] + rest)
    data = b""
    if runs:
        record, own["--text"], data = ran(own, rest)
    else:
        unknown = [name for name in asked.options if name[2:] not in limits_of({})._fields]
        if unknown or len(asked.plain) > 1:
            raise ToolError(BAD_WORDS, "not understood: %s; --help says more" % " ".join(unknown or asked.plain[1:]))
        told = read_file(asked.plain[0], LONGEST_RECORD) if asked.plain else read_input(LONGEST_RECORD)
        record = read_record(told.decode("utf-8", "replace"))
        data = read_file(own["--input"]) if "--input" in own else b""
    view = View(Timing(record.entries, "--order" in words), Lanes([]), 0, 0, "", foot_of(record))
    choose(view, record, own)
    if "--text" in own:
        journal = Journal(journal_text(record.entries).partition("\n")[2].encode())
        know(view, Followed(Caller(own.get("--program")), own["--text"], asked.options, data, journal))
    view.title = own.get("--title") or os.path.basename(own.get("--text", asked.plain[0] if asked.plain else "a run"))
    drawing = Drawing(view)
    written(drawing.svg().encode(), own)
    if drawing.paper.left_out:
        say("picture: %d labels found no room; a pointer on the lines shows them\n" % drawing.paper.left_out)
    return 0


def written(picture: bytes, own: dict[str, str]) -> None:
    """Writes the picture in the forms that are asked for."""
    forms = [name for name in ("--png", "--pdf") if name in own]
    for name in forms:
        converted(picture, name[2:], own[name])
    if "--out" not in own and not forms and sys.stdout is not None and sys.stdout.isatty():
        own["--out"] = os.path.splitext(os.path.basename(own.get("--text", "run")))[0] + ".svg"
        say("picture: written to %s\n" % own["--out"])
    if "--out" in own or not forms:
        write_file(own.get("--out", "-"), picture)


def converted(picture: bytes, form: str, path: str) -> None:
    """Writes a picture as PNG or PDF."""
    if shutil.which("rsvg-convert"):
        words = ["rsvg-convert", "--format", form, "--output", path]
    elif shutil.which("inkscape"):
        words = ["inkscape", "--pipe", "--export-type=" + form, "--export-filename=" + path]
    else:
        raise ToolError(NO_PROGRAM, "--%s needs the command rsvg-convert or inkscape" % form)
    if subprocess.run(words, input=picture, capture_output=True, check=False).returncode:
        raise ToolError(NO_FILE, "%s cannot write %s" % (words[0], path))


def ran(own: dict[str, str], rest: list[str]) -> tuple[Record, str, bytes]:
    """The record of a run that is made now, its text and its input."""
    asked = split_words(["run"] + rest)
    if not asked.plain or "--show" in asked.options:
        raise ToolError(BAD_WORDS, "run wants a FILE, and no --show")
    caller = Caller(own.get("--program"))
    data = read_file(own["--input"]) if "--input" in own else read_input()
    answer = caller.ran(["run", "--show", "timeline"] + rest, data)
    return read_record(answer.notes), asked.plain[0], data


def foot_of(record: Record) -> list[str]:
    """The lines of the end and the verdict, as the program gave them or as they follow from the entries."""
    if record.head:
        lines = list(record.head)
        return lines if len(lines) <= 12 else lines[:10] + ["and %d lines more" % (len(lines) - 11), lines[-1]]
    faults = [entry for entry in record.entries if entry.kind == "fault"]
    return ["fault %s %s" % (entry.argument, entry.name) for entry in faults[:1]]


def know(view: View, run: Followed) -> None:
    """What the program says of the entries that are drawn."""
    entries, names = view.timing.entries, RunNames(run, view.timing)
    state = run.inspector.state
    if not entries:
        return
    for at, traced in enumerate(run.lines(view.first, view.last), view.first):
        view.lines[at] = traced.place[0]
        if traced.value is not None:
            sender = at if entries[at].kind == "send" else view.timing.meets.get(at, at)
            view.values[sender] = names.value(traced.value)
    for name in view.lanes.lane:
        view.titles[name] = names.process(name) if name in view.timing.born else ""
    for at in range(view.first, view.last + 1):
        channel = view.timing.opened.get(at) or entries[at].argument
        if "#" in channel:
            view.channels.setdefault(channel, names.channel(channel))
    for name, at in view.timing.waiting.items():
        if name in state and view.first <= at <= view.last:
            view.values[at] = names.purpose(state[name], view.values.get(at))
    fault = next(iter(state.those("fault")), None)
    other = Clash(run, fault).other if fault is not None and fault.argument in ("F6", "F7") else None
    if fault is not None and other is not None:
        view.clash = (run.journal.last_of(other.name), run.journal.last_of(fault.name))
    if "\ndeadlock\n" in run.notes:
        deadlock = Deadlock(run)
        view.circle = deadlock.told_circle()
        waits = [it.name for it in deadlock.stuck] + [it for it in view.circle if not state[it].waits]
        view.waits = [(name, other) for name in dict.fromkeys(waits) for other in deadlock.next_of(name)]


def choose(view: View, record: Record, own: dict[str, str]) -> None:
    """Which entries are drawn, and in which lanes."""
    entries = record.entries
    view.race = race_of(record)
    count = len(entries)
    first = number(own["--from"], "--from") if "--from" in own else None
    last = number(own["--to"], "--to") if "--to" in own else None
    if first is None:
        first = 0
        if count > PART and last is None:
            ends_badly = any(line.startswith(("deadlock", "fault")) for line in view.foot)
            first = count - PART if ends_badly else max(0, view.race[0] - PART // 4) if view.race else 0
        elif last is not None:
            first = max(0, last - PART + 1)
    if last is None:
        last = first + PART - 1
    view.first, view.last = max(0, first), min(last, count - 1)
    if count and view.first > view.last:
        raise ToolError(BAD_WORDS, "there are entries from 0 to %d" % (count - 1))
    if view.first or view.last + 1 < count:
        view.foot.append("entries %d to %d of %d; --from and --to choose others" % (view.first, view.last, count))
    top = own.get("--process", "0")
    if top not in view.timing.born:
        raise ToolError(BAD_WORDS, "there is no process %s" % top)
    view.lanes = Lanes(touched(view, entries), top)


def touched(view: View, entries: list[Entry]) -> set[str]:
    """The processes that have a part in the entries that are drawn."""
    names = set()
    forks = {at: fork for (_, fork), (_, at, _) in view.timing.forks.items()}
    for at in range(view.first, view.last + 1):
        names.add(entries[at].name)
        if at in forks:
            name, _, count = entries[at]
            names.update("%s/%d.%d" % (name, forks[at], child) for child in range(int(count)))
    names.update(entries[at].name for at in view.timing.waiting.values() if view.last + 1 == len(entries))
    return names


def race_of(record: Record) -> Optional[tuple[int, int]]:
    """The pair that races: that of the verdict, or if there is none, as it follows from the entries."""
    for line in record.head:
        parts = line.split(" ")
        if parts[0] == "race" and len(parts) == 5:
            return int(parts[3]), int(parts[4])
    return None if record.head else racing(record.entries)
