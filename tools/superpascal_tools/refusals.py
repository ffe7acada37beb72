"""A refusal in words: its cause in one line, the line of the program, and then what else helps."""
from __future__ import annotations

from typing import Callable

from . import rule_pages
from .byte_words import bytes_words
from .errors import LONGEST_FILE
from .grammar_words import grammar
from .interference import Said, interference
from .name_words import undeclared
from .outline import Outline
from .program import Caller
from .source import Source
from .tokens import Place

LARGEST = 1_048_576
LIMITS = {
    "L2": "this is inside 200 other parts (blocks, statements, expressions), and no part may be deeper",
    "L3": "the type %%s has more than %d cells" % LARGEST,
    "L4": "%s is one more than 4096 constants (or types, variables, procedures: each is counted by itself)",
    "L5": "the code of this program would have more than %d instructions" % LARGEST,
    "L6": "the variables of %%s together have more than %d cells" % LARGEST,
}


def explained(source: Source, text: bytes, rule: str, place: Place, caller: Caller) -> str:
    """Why a text is refused with this rule at this place."""
    found = cause(text, rule, place, caller)
    said = source.message(place, found.words or summary(rule), rule)
    said += "".join(rule_pages.wrapped("  " + line, "    ") for line in found.more)
    return said + "  " + (rule_pages.sentence(rule) or rule + "\n")


def summary(rule: str) -> str:
    """What the language says of a rule, if nothing more is known."""
    row = rule_pages.rules_and_faults().get(rule)
    return rule_pages.plain(row[0]) if row else "a rule is broken"


def cause(text: bytes, rule: str, place: Place, caller: Caller, read: Callable[[str], Outline] = Outline) -> Said:
    """The cause, with no words if it is not known; `read` gives the outline of a text."""
    at = place_in(text, place)
    if rule == "L1":
        size = "%d" % len(text) if len(text) <= LONGEST_FILE else "more than %d" % LONGEST_FILE
        return Said("the program has %s bytes, and at most %d are accepted" % (size, LARGEST), [])
    if rule[0] in "SU":
        return Said(*bytes_words(text, at, rule))
    outline = read(text.decode("latin1"))
    name = next((it.word for it in outline.tokens if it.place == place), "it")
    if rule in ("G1", "G2"):
        return Said(*grammar(outline, text, at, caller))
    if rule in LIMITS:
        return Said(LIMITS[rule] % name if "%s" in LIMITS[rule] else LIMITS[rule], [])
    if rule == "N1":
        return Said(*undeclared(outline, place))
    if rule[0] == "I":
        return interference(outline, rule, place)
    return Said(outline.findings.get((rule, place), ""), [])


def place_in(text: bytes, place: Place) -> int:
    """How many bytes stand before a place."""
    at = 0
    for _ in range(place[0] - 1):
        at = text.index(b"\n", at) + 1
    return at + place[1] - 1
