"""A unit of the course and its exercises: folders and files.

course/NN_NAME/ is a unit, with its page README.md. Each folder in it is an exercise:

    task.md         what is asked
    start.sp        the text that a student starts from
    exercise.txt    the expected end and verdict, the least number of processes, limits, and how wrong answers are
                    graded
    1.in, 1.out     an input and its expected output; then 2.in, 2.out and so on
    answers/        answer.sp; wrong_1.sp, with what the program says of it in wrong_1.notes; and so on
"""
from __future__ import annotations

import os
import re
from typing import NamedTuple

from .program import Limits
from .rule_pages import TOP
from .errors import BAD_WORDS, ToolError, read_file

COURSE = os.path.join(TOP, "course")
FORM = "exercise.txt"
ANSWERS = "answers"
SECONDS = 10.0
# small enough for a hundred hand-ins on one machine; an exercise may set others
LIMITS = {"output": 65_536, "processes": 10_000, "channels": 10_000, "entries": 200_000, "cells": 100_000}


class Case(NamedTuple):
    """An input of an exercise, and the output that it should lead to."""

    name: str
    data: bytes
    output: bytes


class Exercise(NamedTuple):
    """What a hand-in should do: on each input the same end and verdict, in at most this number of seconds a run, and if
    it ends done with at least this number of processes."""

    folder: str
    end: str
    verdict: str
    seconds: float
    processes: int
    limits: dict[str, int]
    wrong: dict[str, str]
    cases: list[Case]

    def options(self) -> list[str]:
        """The limits as options of the program."""
        return [word for name, value in self.limits.items() for word in ("--" + name, str(value))]

    def answer(self, name: str) -> str:
        """The path of a file of answers/."""
        return os.path.join(self.folder, ANSWERS, name)


def read_exercise(folder: str) -> Exercise:
    """Reads an exercise; ToolError if the folder is none, or if a line of exercise.txt says nothing that is known."""
    path = os.path.join(folder, FORM)
    if not os.path.isfile(path):
        raise ToolError(BAD_WORDS, "%s is not an exercise: it has no file %s" % (folder, FORM))
    found = {"end": "done", "verdict": "ordered", "seconds": "%g" % SECONDS, "processes": "1"}
    limits = dict(LIMITS)
    wrong: dict[str, str] = {}
    for number, line in enumerate(read_file(path).decode("utf-8", "replace").splitlines(), 1):
        name, _, value = line.strip().partition(" ")
        if not name or name.startswith("#"):
            continue
        if name in found and value:
            found[name] = value.strip()
        elif name[:2] == "--" and name[2:] in Limits._fields and value.strip().isdigit():
            limits[name[2:]] = int(value)
        elif re.fullmatch(r"wrong_\d+\.sp", name) and value:
            wrong[name] = value.strip()
        else:
            raise ToolError(BAD_WORDS, "%s:%d: not a line of an exercise: %s" % (path, number, line[:60]))
    for name in ("seconds", "processes"):
        if not re.fullmatch(r"\d{1,5}", found[name]):
            raise ToolError(BAD_WORDS, "%s: %s is not a number" % (path, name))
    return Exercise(folder, found["end"], found["verdict"], float(found["seconds"]), int(found["processes"]), limits,
                    wrong, cases_of(folder))


def cases_of(folder: str) -> list[Case]:
    """The inputs 1.in, 2.in and so on, with their outputs."""
    found = []
    while os.path.exists(os.path.join(folder, "%d.out" % (len(found) + 1))):
        base = os.path.join(folder, str(len(found) + 1))
        found.append(Case(str(len(found) + 1), read_file(base + ".in"), read_file(base + ".out")))
    if not found:
        raise ToolError(BAD_WORDS, "%s is not an exercise: it has no file 1.out" % folder)
    return found


def units(course: str = COURSE) -> list[str]:
    """The folders of the units, in their order."""
    return [os.path.join(course, name) for name in sorted(os.listdir(course)) if re.match(r"\d\d_", name)]


def exercises(unit: str) -> list[str]:
    """The folders of the exercises of a unit, in their order."""
    return [os.path.join(unit, name) for name in sorted(os.listdir(unit))
            if re.match(r"\d+_", name) and os.path.isdir(os.path.join(unit, name))]


def find_exercise(name: str) -> Exercise:
    """The exercise of a folder, or of a name as 06_servers/1_account."""
    for folder in (name, os.path.join(COURSE, name)):
        if os.path.isdir(folder):
            return read_exercise(folder)
    raise ToolError(BAD_WORDS, "no exercise is called %s" % name)
