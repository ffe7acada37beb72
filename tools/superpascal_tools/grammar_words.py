"""Where the tokens stop to be a program, in words: what is missing there, or what cannot stand there.

The program is asked which tokens may stand there, and which of them would let it go on.
"""
from __future__ import annotations

import re
from concurrent.futures import ThreadPoolExecutor

from . import rule_pages
from .expression_types import RELATIONS
from .outline import Outline
from .program import Caller
from .tokens import Token, place_of

INSERTED = ("then", "do", "of", "to", ":=", ")", "]", ";", ":", ",", "(", "end", "..")
STAND_INS = {"a name": "x", "a number": "1", "a text": "'xy'"}
BEFORE = (":=", ",", ";", "if", "while", "until", "assume", "case", "then", "begin")
OPERATORS = ("+", "-", "*", "div", "mod", "(", "not", "and", "or")
SHOWN = 6


class Asked:
    """What the program says of tokens at the place at which it refuses a text."""

    def __init__(self, before: bytes, caller: Caller) -> None:
        self.before, self.caller = before, caller

    def fitting(self, candidates: list[str]) -> list[str]:
        """Those of the candidates that may follow what stands before the place."""

        def fits(candidate: str) -> bool:
            text = self.before + b" " + candidate.encode("latin1") + b" "
            return not re.match(r"refused (G1|L\d|S|U)", self.caller.beside(["check"], text).notes)

        with ThreadPoolExecutor(4) as pool:
            good = list(pool.map(fits, candidates))
        return [it for it, fit in zip(candidates, good) if fit]

    def may_stand(self) -> list[str]:
        """The tokens that may stand at the place."""
        names = list(STAND_INS) + rule_pages.spellings()
        good = self.fitting([STAND_INS.get(name, name) for name in names])
        return [name for name in names if STAND_INS.get(name, name) in good]


def grammar(outline: Outline, text: bytes, at: int, caller: Caller) -> tuple[str, list[str]]:
    """The cause of G1 or G2 at this byte, and what else helps."""
    asked = Asked(text[:at], caller)
    may = asked.may_stand()
    more = ["Here may stand: %s" % ("  ".join(may) if may else "nothing")]
    place = place_of(text, at)
    number = next((n for n, it in enumerate(outline.tokens) if it.place >= place), len(outline.tokens) - 1)
    here = Here(outline, number, may)
    words = "" if here.token.kind != "end" else here.too_short()
    words = words or nested(outline, text, at, here) or here.cause() or missing(here, asked) or here.plain()
    return words, more


def missing(here: "Here", asked: Asked) -> str:
    """A token that is missing before this one: with it the text goes on."""
    if here.before.word == ";" and here.token.word == "else":
        cut = Asked(asked.before[:asked.before.rstrip().rfind(b";")], asked.caller)
        if cut.fitting(["else"]):
            return "no ; before else"
    those = [it for it in INSERTED if it in here.may]
    good = asked.fitting(["%s %s" % (it, here.token.word) for it in those])
    first = next((it for it in those if "%s %s" % (it, here.token.word) in good), "")
    if first == "end":
        return "missing end before %s%s" % (here.token.word, here.unended())
    return "missing %s before %s" % (first, here.token.word) if first else ""


def nested(outline: Outline, text: bytes, at: int, here: "Here") -> str:
    """A comment that ended too early, directly before this token."""
    last = here.before.place
    start = outline.starts[last[0] - 1] + last[1] - 1 + len(here.before.word)
    for got in re.finditer(rb"\{[^}]*\}|\(\*.*?\*\)", text[start:at], re.S):
        if b"{" in got[0][1:] or b"(*" in got[0][1:]:
            return "comments do not nest: this one ended at %d:%d" % place_of(text, start + got.end() - 1)
    return ""


class Here:
    """A token that cannot stand at its place, with the one before it and those that may stand there."""

    def __init__(self, outline: Outline, number: int, may: list[str]) -> None:
        self.outline, self.number, self.may = outline, number, may
        self.token, self.before = outline.tokens[number], outline.tokens[max(0, number - 1)]
        self.opened = outline.opened

    def plain(self) -> str:
        """The token alone, with what may stand there if that is little."""
        what = self.token.word if len(self.token.word) < 40 else self.token.word[:38] + ".."
        return "%s cannot stand here%s" % (what, self.wanted())

    def too_short(self) -> str:
        """G2: the text ends too early."""
        return "the program ends too early%s" % (self.unended() or self.wanted())

    def wanted(self) -> str:
        """What may stand there, if that is little."""
        return ": wanted is " + " or ".join(self.may) if 0 < len(self.may) <= SHOWN else ""

    def unended(self) -> str:
        """Which open word has no `end`: by the columns of the words and ends, else the innermost one."""
        tokens = self.outline.tokens
        for word, first, last in self.outline.closed:
            if word != "repeat" and leads(tokens, last) and leads(tokens, first):
                if tokens[first].place[1] > tokens[last].place[1]:
                    return ": by its column, the %s of %d:%d has no end" % ((word,) + tokens[first].place)
        if not self.opened:
            return ""
        word, first = self.opened[-1]
        return ": the %s of %d:%d has no %s" % ((word,) + tokens[first].place + (
            "until" if word == "repeat" else "end",))

    def cause(self) -> str:
        """The first of the usual mistakes that this is."""
        token, before, may = self.token, self.before, self.may
        if token.word == "=" and token.kind == "sign" and before.word == "=":
            return "there is no ==: = compares"
        if token.word == "=" and ":=" in may:
            return "= compares; := assigns"
        if token.word == ":=" and "=" in may and self.outline.part in ("const", "type"):
            return "a constant or a type is defined with =, not with :="
        if token.word in ("+", "-") and self.outline.tokens[self.number + 1].word in (token.word, "="):
            name = before.word if before.kind == "name" else "x"
            return "there is no %s%s: write %s := %s %s 1" % (
                token.word, self.outline.tokens[self.number + 1].word, name, name, token.word)
        return self.of_declarations() or self.of_expressions() or self.of_statements()

    def of_declarations(self) -> str:
        """Mistakes in declarations."""
        token, before, may, part = self.token, self.before, self.may, self.outline.part
        if may == ["a name"] and before.word in (":", "of") and token.word in ("array", "record", "*", "("):
            return "a type needs a name here: first declare type t = %s .., then write t" % token.word
        if may == ["a name"] and token.kind == "word":
            return "%s is a word of the language and cannot be a name" % token.word
        if part == "type" and self.outline.array_open(self.number):
            if token.word == ",":
                return "an array has one index: declare an array of arrays, by two types"
            if token.word in OPERATORS:
                return "a bound is a number or a constant's name, not an expression"
        if part == "const" and token.word in OPERATORS:
            return "the value of a constant is a number, a name or a string, not an expression"
        if token.word in ("const", "type", "var", "procedure", "function") and part == "begin":
            return "declarations stand before begin%s" % self.unended() if not self.opened else \
                "%s cannot stand between statements%s" % (token.word, self.unended())
        return ""

    def of_expressions(self) -> str:
        """Mistakes in expressions and calls."""
        token, before = self.token, self.before
        if token.word in RELATIONS and token.kind == "sign" and self.compared():
            return "two comparisons in one expression: and, or and not bind more strongly than %s, so write " \
                "(a %s b) or (..)" % (token.word, token.word)
        if token.word == ")" and before.word == "(":
            return "without parameters no parentheses: leave out ()"
        if token.word == ":" and ")" in self.may and "," in self.may:
            return "an item has one width after its :, and no decimal places"
        if token.word in ("then", "do", "of") and before.word == ";":
            return "no ; before %s" % token.word
        if token.word == "begin" and before.word in ("=", "<>", "<", ">", "and", "or", "not"):
            return "an expression is missing before begin"
        return ""

    def of_statements(self) -> str:
        """Mistakes in statements and at the end of the program."""
        token, before, may = self.token, self.before, self.may
        if token.word == "else" and self.opened and self.opened[-1][0] == "case" and before.word in (";", "of"):
            return "a case has no else: give each value an arm, or put an if around the case"
        if token.word in ("end", "until") and not self.opened and self.outline.closed:
            word, first, last = self.outline.closed[-1]
            return "this %s has no begin: the %s of %d:%d ended at %d:%d" % ((token.word, word) + tuple(
                it for at in (first, last) for it in self.outline.tokens[at].place))
        if may == ["."] and self.outline.part == "end":
            return "the last end of a program has a . after it: end. and not end%s" % (token.word or "")
        if not may:
            return "the program ended with its last end. before this"
        if token.word == "|" and not any(word == "parallel" for word, _ in self.opened):
            return "| stands between the process statements of a parallel, and there is none here"
        return ""

    def compared(self) -> bool:
        """Whether a relation stands before in the same expression."""
        deep, tokens = 0, self.outline.tokens
        for at in range(self.number - 1, -1, -1):
            word, kind = tokens[at].word, tokens[at].kind
            if kind not in ("word", "sign"):
                continue
            deep += (word in (")", "]")) - (word in ("(", "["))
            if deep < 0 or not deep and word in BEFORE:
                return False
            if not deep and word in RELATIONS:
                return True
        return False


def leads(tokens: list[Token], at: int) -> bool:
    """Whether a token is the first one on its line."""
    return not at or tokens[at - 1].place[0] < tokens[at].place[0]
