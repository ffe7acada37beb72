"""The table of a class, its CSV, and the page of each hand-in."""
from __future__ import annotations

import csv
import io
import os
import sys

from .calls import Calls
from .exercise import Exercise
from .grading import RESULTS, Grade, Run
from .rule_pages import TOP

HEAD = ("hand-in", "result", "right", "inputs", "input", "workers", "end", "verdict", "difference", "seconds")
TICKS = "20000"
EXPLAINED = 20.0
LONGEST = 20_000


def cells(exercise: Exercise, grade: Grade) -> tuple[str, ...]:
    """The row of a hand-in."""
    run = grade.first
    is_wrong = run.result != "right"
    return (grade.name, run.result, str(grade.right), str(len(exercise.cases)),
            run.case.name if run.case and is_wrong else "", str(run.workers) if run.workers and is_wrong else "",
            run.end, run.verdict, run.difference, "%.2f" % grade.seconds)


def table(exercise: Exercise, grades: list[Grade]) -> str:
    """The rows for a terminal."""
    rows = [("hand-in", "result", "right", "input", "end and verdict, or the rule and its place", "seconds")]
    for grade in grades:
        name, result, right, inputs, case, _, end, verdict, difference, seconds = cells(exercise, grade)
        said = "; ".join(word for word in (end, verdict, difference) if word)
        rows.append((shown(name, 30), result, "%s/%s" % (right, inputs), case, shown(said, 70), seconds))
    sizes = [max(len(row[column]) for row in rows) for column in range(6)]
    return "".join("  ".join(cell.ljust(size) for cell, size in zip(row, sizes)).rstrip() + "\n" for row in rows)


def shown(text: str, wide: int) -> str:
    """A text on one line, not too wide for a column."""
    text = "".join(it if it.isprintable() else "?" for it in text)
    return text if len(text) <= wide else text[:wide - 1] + "…"


def as_csv(exercise: Exercise, grades: list[Grade]) -> bytes:
    """The rows as comma separated values, with a head."""
    text = io.StringIO()
    writer = csv.writer(text, lineterminator="\n")
    writer.writerow(HEAD)
    for grade in grades:
        writer.writerow([safe(cell) for cell in cells(exercise, grade)])
    return text.getvalue().encode("utf-8", "backslashreplace")


def safe(cell: str) -> str:
    """A cell that no spreadsheet takes for a formula: the names of files come from others."""
    return "'" + cell if cell[:1] in ("=", "+", "-", "@", "\t", "\r") else cell


def page(exercise: Exercise, grade: Grade, program: str, calls: Calls) -> str:
    """The page of a hand-in: its runs, and why the first one that is not right is not."""
    first = grade.first
    said = ["# %s: %s" % (shown(grade.name, 80), first.result), "", "%s: %s." % (first.result, RESULTS[first.result]),
            "", "| input | workers | result | end | verdict | difference | seconds |", "|---|---|---|---|---|---|---|"]
    for run in grade.runs:
        row = (run.case.name if run.case else "(check)", str(run.workers or ""), run.result, run.end, run.verdict,
               run.difference, "%.2f" % run.call.seconds)
        said.append("| %s |" % " | ".join(cell.replace("|", "\\|") for cell in row))
    if first.result == "output" and first.case:
        said += ["", "Expected output on input %s:" % first.case.name, "", block(first.case.output), "",
                 "Its output:", "", block(first.call.output)]
    why = explained(exercise, grade, first, program, calls)
    if why:
        said += ["", "What the program says, and why:", "", block(why.encode())]
    return "\n".join(said) + "\n"


def block(text: bytes) -> str:
    """A text as a block of a page; a long one is cut."""
    cut = text[:LONGEST].decode("utf-8", "backslashreplace").rstrip("\n")
    more = "\n… (%d bytes in all)" % len(text) if len(text) > LONGEST else ""
    return "".join("    %s\n" % line for line in (cut + more).split("\n")).rstrip("\n")


def explained(exercise: Exercise, grade: Grade, run: Run, program: str, calls: Calls) -> str:
    """What tools/explain says of this run; a run that did not end is shown after fewer turns of its loops."""
    if run.result in ("right", "output", "few", "unread", "stopped"):
        return ""
    words, data, seconds, head = ["check"], b"", EXPLAINED, ""
    if run.case is not None:
        options = dict(exercise.limits)
        data = run.case.data
        if run.result == "time":
            options["ticks"] = int(TICKS)
            seconds = exercise.seconds
            head = "After at most %s turns of loops and calls in each process (--ticks %s):\n" % (TICKS, TICKS)
        words = ["run", "--workers", str(run.workers)] + [it for name, value in options.items()
                                                         for it in ("--" + name, str(value))]
    tool = [sys.executable, os.path.join(TOP, "tools", "explain"), "--program", program]
    call = calls([*tool, *words, "--", grade.path], data, seconds)
    return head + call.notes if call.status is not None else ""
