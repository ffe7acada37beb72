"""Names that are not declared: near names, later declarations, and what to write for names of other languages."""
from __future__ import annotations

import difflib

from .outline import Outline
from .scopes import Scope
from .tokens import WORDS, Place

REALS = "there are no real numbers: use integer, and count in a smaller unit, as hundredths"
STRINGS = "there is no type string: use an array of char, or write a string directly"
STOPS = "there is no %s: let the condition of the loop or an if end it"
INSTEAD = {
    "real": REALS, "double": REALS, "float": REALS, "single": REALS, "extended": REALS,
    "string": STRINGS, "ansistring": STRINGS, "str": STRINGS, "pchar": STRINGS,
    "int": "there is no type int: write integer", "longint": "there is no type longint: integer has 64 bits",
    "int64": "there is no type int64: integer has 64 bits", "word": "there is no type word: write integer",
    "byte": "there is no type byte: write integer or char", "bool": "there is no type bool: write boolean",
    "inc": "there is no inc: write x := x + 1", "dec": "there is no dec: write x := x - 1",
    "nil": "there are no pointers, so no nil: use an array and indices",
    "new": "there are no pointers, so no new: use an array and indices",
    "dispose": "there are no pointers, so no dispose: use an array and indices",
    "exit": STOPS % "exit", "break": STOPS % "break", "continue": STOPS % "continue", "halt": STOPS % "halt",
    "return": STOPS % "return", "result": "there is no result: assign to the name of the function",
    "length": "there is no length: keep the length in a constant or a variable",
    "high": "there is no high: keep the bounds in constants", "low": "there is no low: keep the bounds in constants",
    "sqrt": "there are no real numbers, so no sqrt: sqr(x) is x * x",
    "round": "there are no real numbers, so no round: div divides integers",
    "trunc": "there are no real numbers, so no trunc: div divides integers",
    "random": "there is no random: a run depends on its input only; compute numbers, as x := (x * 37) mod 101",
    "randomize": "there is no randomize: a run depends on its input only",
    "print": "there is no print: use write or writeln", "println": "there is no println: use writeln",
    "printf": "there is no printf: use write or writeln", "readkey": "there is no readkey: use read",
    "concat": "there is no concat: strings stand only in write and writeln",
    "copy": "there is no copy: strings stand only in write and writeln", "max": "there is no max: use an if",
    "min": "there is no min: use an if", "xor": "there is no xor: for booleans a <> b",
    "shl": "there is no shl: write x * 2", "shr": "there is no shr: write x div 2",
    "sleep": "there is no sleep: processes wait for messages only",
    "fork": "there is no fork: use parallel or forall", "spawn": "there is no spawn: use parallel or forall",
    "try": "there is no try: a fault ends the run", "uses": "there is no uses: a program is one file",
    "unit": "there are no units: a program is one file",
    "input": "input is named in the heading of the program only; read reads from it",
    "output": "output is named in the heading of the program only; write writes to it",
}


def undeclared(outline: Outline, place: Place) -> tuple[str, list[str]]:
    """The cause of N1 at a place, and what else helps."""
    given = outline.findings.get(("N1", place))
    if given:
        return given, []
    name = next((token.word for token in outline.tokens if token.place == place), "?")
    if name in INSTEAD:
        return "%s is not declared: %s" % (name, INSTEAD[name]), []
    elsewhere = [it.names[name] for it in outline.blocks if name in it.names]
    later = [it for it in elsewhere if it.place > place and contains(outline, it.block, place)]
    near = near_names(outline, name)
    if elsewhere and not later:
        words = "%s is not declared here: it is %s of %s, known only inside it" % (
            name, elsewhere[0].described(), elsewhere[0].block.name)
        return words, ["Near names: %s" % ", ".join(near)] if near else []
    if later:
        more = ["A name is visible from the end of its declaration on; there are no forward declarations."]
        if later[0].what in ("procedure", "function"):
            more.append("If two procedures call each other, declare one inside the other.")
        return "%s is declared later, at line %d, and is not known here" % (name, later[0].place[0]), more
    return "%s is not declared%s" % (name, "; a near name is %s" % " or ".join(near) if near else ""), []


def contains(outline: Outline, block: Scope, place: Place) -> bool:
    """Whether a place is in the declarations or the statements of a block."""
    return block.place <= place < outline.tokens[block.last].place


def near_names(outline: Outline, name: str) -> list[str]:
    """Names of the program, words and standard names that are spelled like this one."""
    known = {it for block in outline.blocks for it in block.names} | set(WORDS)
    scope = outline.main.outer
    if scope is not None:
        known |= set(scope.names)
    cutoff = 0.6 if len(name) > 3 else 0.75
    return difflib.get_close_matches(name, sorted(known - {name}), 2, cutoff)
