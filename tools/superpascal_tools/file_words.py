"""Journals and code files that are not accepted, in words: the line, and what is wrong with it."""
from __future__ import annotations

import re
from typing import Optional

from . import rule_pages
from .journal import entry_of
from .source import Source

CODE = "superpascal code 1"
JOURNAL = "superpascal journal 2"


def bad_journal(file: str, text: bytes, number: int) -> str:
    """A journal that cannot be read, by its first bad line."""
    lines = text.decode("latin1").split("\n")
    line = lines[number - 1] if number <= len(lines) else ""
    cut = number == len(lines) and line
    why = "the line is cut off: it has no line feed" if cut and (number > 1 or JOURNAL.startswith(line)) else \
        "the first line of a journal is %s" % JOURNAL if number == 1 else \
        "%s is not an entry of a journal" % (line[:60] or "an empty line") if entry_of(line) is None else \
        "no entry before this one makes its process or its channel"
    return Source(file, text).message((number, 1), why, "bad journal")


def unfit_journal(file: str, text: bytes, index: int, why: str) -> str:
    """A journal that does not fit: its entry, whose line is the one after the first that has no entries."""
    return Source(file, text).message((index + 2, 1), "entry %d does not fit this text and input: %s" % (index, why),
                                      "journal unfit")


def bad_code(file: str, text: bytes, notes: str) -> Optional[str]:
    """A code file that cannot be read, or whose code breaks a rule."""
    lines, source = text.decode("latin1").split("\n"), Source(file, text)
    got = re.match(r"bad code (\d+)\n", notes)
    if got:
        number = int(got[1])
        line = lines[number - 1] if number <= len(lines) else ""
        cut = number == len(lines) and line
        return source.message((number, 1), spelling(lines, number, line, bool(cut)), "bad code")
    got = re.match(r"rejected (V\d) (\d+)\n", notes)
    if got is None:
        return None
    number = next((at for at, line in enumerate(lines, 1) if line.startswith(got[2] + " ")), 1)
    instruction = lines[number - 1].partition(" ")[2] or "the code"
    row = rule_pages.code_rule(got[1])
    words = "instruction %s, %s, breaks a rule of code" % (got[2], instruction[:60])
    said = source.message((number, 1), words, got[1])
    return said + rule_pages.wrapped("  %s is broken if %s." % (got[1], row), "    ") if row else said


def spelling(lines: list[str], number: int, line: str, cut: bool) -> str:
    """Why a line cannot stand there in a code file."""
    if number == 1 and not (cut and CODE.startswith(line)):
        return "the first line of a code file is %s" % CODE
    if cut:
        return "the line is cut off: it has no line feed"
    got = re.match(r"(\d+) (\w+)", line)
    before = [it for it in (re.match(r"(\d+) ", one) for one in lines[:number - 1]) if it]
    due = len(before)
    if got and int(got[1]) != due:
        return "this instruction has the number %s, and %d is due" % (got[1], due)
    if got and got[2] not in rule_pages.instructions():
        return "%s is not an instruction" % got[2]
    if got:
        return "the numbers or words after %s are not those of this instruction" % got[2]
    return "this line is not a layout, text, instruction or table that may follow the line before it"
