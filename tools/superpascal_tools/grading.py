"""The runs of one hand-in, and what is wrong with each."""
from __future__ import annotations

import os
import stat
from typing import NamedTuple, Optional

from .calls import Call, Calls
from .exercise import Case, Exercise
from .program import CHATTER

WORKERS = (1, 4)
# what a hand-in is graded as, and what that means
RESULTS = {
    "right": "every run has the expected end, verdict and output",
    "refused": "the text breaks a rule",
    "time": "a run did not end within the time limit",
    "end": "a run has another end",
    "verdict": "the end is right, and the verdict is another one: in other schedules it may end differently",
    "output": "end and verdict are right, and the output is another one",
    "few": "all of these are right, but there are fewer processes than the exercise asks for",
    "unread": "it is not a file that can be read",
    "stopped": "the program gave up: out of memory, or ended by a signal",
}
WIDE = 60


class Run(NamedTuple):
    """A run of a hand-in on an input, and its result. `difference` says in words what is wrong; it may be empty."""

    case: Optional[Case]
    workers: int
    call: Call
    result: str
    end: str
    verdict: str
    difference: str


class Grade(NamedTuple):
    """What a hand-in is graded as: its first run that is not right decides."""

    name: str
    path: str
    runs: list[Run]
    right: int

    @property
    def first(self) -> Run:
        """The run that decides."""
        return next((run for run in self.runs if run.result != "right"), self.runs[-1])

    @property
    def seconds(self) -> float:
        """The time of all runs."""
        return sum(run.call.seconds for run in self.runs)


def graded(exercise: Exercise, path: str, program: str, calls: Calls, is_brief: bool = False) -> Grade:
    """Checks a hand-in and runs it on each input with each number of workers, up to one that exceeds the time limit, or
    if it is to be brief up to the first one that is not right."""
    name = os.path.basename(path)
    why = unreadable(path)
    if why:
        return Grade(name, path, [Run(None, 0, Call(5, b"", "", 0.0), "unread", "", "", why)], 0)
    checked = judged(exercise, None, 0, calls([program, "check", "--", path], b"", exercise.seconds))
    if checked.result != "right":
        return Grade(name, path, [checked], 0)
    runs: list[Run] = []
    for case in exercise.cases:
        for workers in WORKERS:
            words = [program, "run", "--show", "census", "--workers", str(workers), *exercise.options(), "--", path]
            runs.append(judged(exercise, case, workers, calls(words, case.data, exercise.seconds)))
            if runs[-1].result == "time" or is_brief and runs[-1].result != "right":
                return Grade(name, path, runs, inputs_right(runs))
    return Grade(name, path, runs, inputs_right(runs))


def inputs_right(runs: list[Run]) -> int:
    """The number of inputs whose runs are all right."""
    wrong = {run.case.name for run in runs if run.case and run.result != "right"}
    return len({run.case.name for run in runs if run.case} - wrong)


def unreadable(path: str) -> str:
    """Why a hand-in cannot be read; empty if it can. A pipe is not opened: that might never end."""
    try:
        path.encode()
        if not stat.S_ISREG(os.stat(path).st_mode):
            return "not a file"
        with open(path, "rb"):
            return ""
    except UnicodeEncodeError:
        return "its name is not UTF-8"
    except OSError as error:
        return error.strerror or "cannot be read"


def judged(exercise: Exercise, case: Optional[Case], workers: int, call: Call) -> Run:
    """What is wrong with a run; without a case, with a check."""
    lines = notes_of(call).splitlines() or [""]
    end, verdict, difference = lines[0], "", ""
    if call.status is None:
        result, end = "time", "none in %g s" % exercise.seconds
    elif call.status == 1:
        result = "refused"
    elif call.status not in (0, 3, 4):
        result = "stopped"
        end = end or "status %d" % call.status
    elif case is None:
        result = "right"
    else:
        verdict = lines[-1]
        result, difference = compared(exercise, case, end, verdict, call.output)
        if result == "right" and end == "done":
            made = int("0" + call.notes.partition("\nends ")[2].partition("\n")[0])
            if made < exercise.processes:
                result, difference = "few", "expected at least %d processes, found %d" % (exercise.processes, made)
    return Run(case, workers, call, result, end, verdict, difference)


def notes_of(call: Call) -> str:
    """The notes of a call, without the census and without what the script ./superpascal says for itself."""
    notes = call.notes.partition("\ncensus\n")
    lines = (notes[0] + notes[1][:1]).splitlines(keepends=True)
    return "".join(line for line in lines if not line.startswith(CHATTER))


def compared(exercise: Exercise, case: Case, end: str, verdict: str, output: bytes) -> tuple[str, str]:
    """The result of a run that ended, and what is different."""
    if not begins(end, exercise.end):
        return "end", "expected %s" % exercise.end
    if not begins(verdict, exercise.verdict):
        return "verdict", "expected %s" % exercise.verdict
    if output != case.output:
        return "output", first_difference(case.output, output)
    return "right", ""


def begins(line: str, words: str) -> bool:
    """A line begins with these words."""
    return line.split()[:len(words.split())] == words.split()


def first_difference(expected: bytes, found: bytes) -> str:
    """The first line in which two outputs differ."""
    ours, theirs = expected.split(b"\n"), found.split(b"\n")
    pairs = enumerate(zip(ours, theirs), 1)
    at = next((number for number, (one, other) in pairs if one != other), min(len(ours), len(theirs)) + 1)
    one, other = ([*lines, None][min(at - 1, len(lines))] for lines in (ours, theirs))
    blanks = "; only blanks differ" if expected.split() == found.split() else ""
    if found == expected.rstrip(b"\n"):
        return "line %d: the last writeln is missing" % (at - 1)
    return "line %d: expected %s, found %s%s" % (at, quoted(one), quoted(other), blanks)


def quoted(line: Optional[bytes]) -> str:
    """A line of an output as it is shown."""
    if line is None:
        return "the end"
    text = line.decode("utf-8", "backslashreplace")
    text = "".join(it if it.isprintable() else "\\x%02x" % ord(it) for it in text)
    return "`%s`" % (text if len(text) <= WIDE else text[:WIDE - 1] + "…")
