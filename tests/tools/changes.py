#!/usr/bin/env python3
"""Random edits of the gallery's texts: after each one the editor shows what `check` says of the text.

tests/tools/changes.py PROGRAM [COUNT [SEED]] makes COUNT edits and prints how many were refused by which rule;
tests/tools/run makes a few of them.
"""
import collections
import os
import random
import re
import sys

from cases import TOP, gallery, made_by_number, read

if __name__ == "__main__":
    sys.path.insert(0, os.path.join(TOP, "tools"))

from client import Editor  # noqa: E402  pylint: disable=wrong-import-position

FEW = 30
PIECES = (";", "end", "begin", " x ", "1", "'", "{", "}", "(*", ")", "(", ":=", "=", "\n", "\r\n", "\r", "'a'", "true",
          "1.5", "if", "then", "parallel", "|", "\u00f6", "\U0001f600", "{\U0001f600}", "'\u00f6'", "_", "goto", "var",
          " ", "99999999999999999999", ".", "[1]", "integer")
BREAK = re.compile("\r\n|\n|\r")


def edited(text, chance):
    """A text after one random change: where the change begins and ends, and what stands there then."""
    if chance.random() < 0.8:
        parts = list(re.finditer(r"\w+|[^\w\s]|\s+", text))
        words = [part for part in parts if part[0].isalnum()] or parts
        part, other = chance.choice(words), chance.choice(words)
        if chance.random() < 0.3:
            part, other = chance.choice(parts), chance.choice(parts)
            return part.start(), part.end(), chance.choice(("", part[0] * 2, other[0], chance.choice(PIECES)))
        return part.start(), part.end(), other[0]
    at = chance.randrange(len(text) + 1)
    return at, min(len(text), at + chance.choice((0, 0, 0, 1, 3))), chance.choice(PIECES)


def position(text, at):
    """The editor's position after n characters."""
    begin = ([0] + [it.end() for it in BREAK.finditer(text) if it.end() <= at])[-1]
    lines = sum(it.end() <= at for it in BREAK.finditer(text))
    return lines, len(text[begin:at].encode("utf-16-le")) // 2


def wanted(case, text):
    """What `check` says of a text: the rule and the editor's position, or nothing."""
    data = text.encode()
    notes = case.run(["check", case.file("edited.sp", data)])[2]
    got = re.fullmatch(r"refused (\w+) (\d+):(\d+)\n", notes)
    if not got:
        return [] if notes == "accepted\n" else notes
    at = sum(len(line) + 1 for line in data.split(b"\n")[:int(got[2]) - 1]) + int(got[3]) - 1
    return [(got[1], position(text, len(data[:at].decode("utf-8", "ignore"))))]


def make(case, count, seed):
    """Makes this number of edits; gives how many of their states each rule refuses."""
    chance, rules = random.Random(seed), collections.Counter()
    texts = [read(path).decode() for _, path, _ in gallery()]
    editor = Editor(case.program)
    text = chance.choice(texts)
    editor.open(text)
    for number in range(count):
        if chance.random() < 0.4:
            text = chance.choice(texts)
            editor.change(text)
            editor.shown()
        first, last, new = edited(text, chance)
        places = position(text, first), position(text, last)
        if text[first - 1:first + 1] == "\r\n" or text[last - 1:last + 1] == "\r\n":
            continue
        text = text[:first] + new + text[last:]
        editor.change(new, places)
        shown = [(it["code"], (it["range"]["start"]["line"], it["range"]["start"]["character"]))
                 for it in editor.shown() if it["message"]]
        right = wanted(case, text)
        case.check(shown == right, "edit %d of seed %s: shown %s, wanted %s" % (number, seed, shown, right))
        rules[right[0][0] if right else "accepted"] += 1
    case.check(editor.end() == 0 and not editor.notes, "the server: %s" % editor.notes)
    return rules


def test(case):
    """Some edits."""
    make(case, FEW, 1)


if __name__ == "__main__":
    sys.exit(made_by_number(__file__, make, 500))
