"""tools/grade: runs each hand-in of a folder on the inputs of an exercise."""
from __future__ import annotations

import os
import time
from concurrent.futures import Future, ThreadPoolExecutor, as_completed
from typing import NamedTuple, Optional

from .calls import Calls
from .exercise import Exercise, find_exercise
from .grade_pages import as_csv, page, table
from .grading import RESULTS, Grade, graded
from .program import Caller, take_option
from .errors import BAD_WORDS, NO_FILE, STOPPED, ToolError, put_out, say, write_file

HELP = """usage: tools/grade [--program PROGRAM] [--to FOLDER] [--jobs N] EXERCISE HAND-INS

Runs each file of the folder HAND-INS on each input of the exercise, with 1 and with 4 workers and with the limits of
the exercise, N files side by side (by default as many as there are processors), and prints a table. EXERCISE is the
folder of an exercise, as course/06_servers/1_account. The folder of --to, by default HAND-INS.grades, gets
grades.csv and a page for each hand-in, NAME.md, which says why it is graded so. Ctrl-C keeps what is done.

results:
""" + "".join("  %-8s  %s\n" % row for row in RESULTS.items()) + "\n"
OPTIONS = ("--program", "--to", "--jobs")
EACH = 2.0


class Asked(NamedTuple):
    """The words of a call."""

    exercise: Exercise
    hand_ins: str
    to: str
    jobs: int
    program: str


def main(words: list[str]) -> int:
    """Grades a folder; the status is 0 if all of it was graded, however it was."""
    asked = read_words(words)
    paths = hand_ins(asked.hand_ins)
    try:
        os.makedirs(asked.to, exist_ok=True)
    except OSError as error:
        raise ToolError(NO_FILE, "cannot make %s: %s" % (asked.to, error.strerror)) from None
    grades, left = grade_all(asked, paths)
    put_out(table(asked.exercise, grades).encode("utf-8", "backslashreplace"))
    say("grade: %d of %d graded; pages and grades.csv are in %s\n" % (len(grades), len(paths), asked.to))
    return STOPPED if left else 0


def read_words(words: list[str]) -> Asked:
    """Takes the words apart; ToolError if they ask for nothing that the tool does."""
    options: dict[str, Optional[str]] = {}
    plain: list[str] = []
    while words:
        name = words[0].split("=")[0]
        if name in OPTIONS:
            options[name] = take_option(words, name)
        else:
            plain.append(words.pop(0))
    if len(plain) != 2 or plain[0].startswith("-"):
        raise ToolError(BAD_WORDS, "wanted are EXERCISE and a folder of hand-ins; --help says more")
    jobs = options.get("--jobs") or str(os.cpu_count() or 1)
    if not jobs.isdigit() or not 1 <= int(jobs[:9]) <= 256:
        raise ToolError(BAD_WORDS, "--jobs is not a number from 1 to 256")
    folder = plain[1].rstrip(os.sep) or os.sep
    if not os.path.isdir(folder):
        raise ToolError(NO_FILE, "no folder %s" % folder)
    exercise = find_exercise(plain[0])
    return Asked(exercise, folder, options.get("--to") or folder + ".grades", int(jobs),
                 os.path.abspath(Caller(options.get("--program")).path))


def hand_ins(folder: str) -> list[str]:
    """The hand-ins: everything in the folder, except names that begin with a dot."""
    try:
        names = sorted(os.listdir(folder))
    except OSError as error:
        raise ToolError(NO_FILE, "cannot read %s: %s" % (folder, error.strerror)) from None
    found = [os.path.join(folder, name) for name in names if not name.startswith(".")]
    if not found:
        raise ToolError(NO_FILE, "no hand-ins in %s" % folder)
    return found


def grade_all(asked: Asked, paths: list[str]) -> tuple[list[Grade], int]:
    """Grades all, side by side; after Ctrl-C those that are done, and the number of the others."""
    calls = Calls()
    done: list[Grade] = []
    said = time.monotonic()
    pool = ThreadPoolExecutor(asked.jobs)
    waiting: list[Future[Grade]] = [pool.submit(grade_one, asked, path, calls) for path in paths]
    try:
        for future in as_completed(waiting):
            done.append(future.result())
            keep(asked, done)
            if time.monotonic() - said > EACH:
                said = time.monotonic()
                say("grade: %d of %d\n" % (len(done), len(paths)))
    except KeyboardInterrupt:
        say("grade: stopped\n")
    finally:
        for future in waiting:
            future.cancel()
        calls.stop()
        pool.shutdown()
    return in_order(done), len(paths) - len(done)


def grade_one(asked: Asked, path: str, calls: Calls) -> Grade:
    """Grades one hand-in and writes its page."""
    grade = graded(asked.exercise, path, asked.program, calls)
    said = page(asked.exercise, grade, asked.program, calls)
    # (a name may be as long as the system allows)
    name = grade.name if len(os.fsencode(grade.name)) < 250 else grade.name[:60]
    write_file(os.path.join(asked.to, name + ".md"), said.encode("utf-8", "backslashreplace"))
    return grade


def keep(asked: Asked, done: list[Grade]) -> None:
    """Writes the rows that are done."""
    write_file(os.path.join(asked.to, "grades.csv"), as_csv(asked.exercise, in_order(done)))


def in_order(grades: list[Grade]) -> list[Grade]:
    """The grades by the names of the hand-ins."""
    return sorted(grades, key=lambda grade: grade.name)
