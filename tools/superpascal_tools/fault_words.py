"""A fault in words: its cause, by the place and the variables that `where` shows.

Nothing is evaluated here: an expression is named by its text and by the values of the variables in it. What an index is
by these values is asked of the program.
"""
from __future__ import annotations

from typing import Optional

from . import rule_pages
from .clash import Clash
from .followed import Followed
from .input_words import no_number
from .inspector import Range
from .scopes import INTEGER, Scope
from .states import Process
from .values import counted, order, short

OPTIONS = {"F10": "ticks", "F11": "depth", "F12": "cells", "F13": "processes", "F14": "channels", "F15": "entries",
           "F16": "output"}
STOPS = frozenset((";", ")", "]", ",", ":", "|", "then", "do", "to", "downto", "of", "end", "else", "until"))
RELATIONS = frozenset(("=", "<>", "<", "<=", ">", ">=", "and", "or"))
BEGINS = ("if", "while", "until", "then", "do", ":=", ";", "begin", "else", "of", "to", "downto", "assume")
MOST = 6
WIDE = 60


class FaultWords:
    """The words for a fault of a process. `clash` has both offers of F6 and F7."""

    def __init__(self, run: Followed, process: Process, output: bytes) -> None:
        self.run, self.process, self.output, self.outline = run, process, output, run.outline
        self.tokens, self.inspector = run.outline.tokens, run.inspector
        self.at = self.inspector.token_at[process.place]
        self.fault = process.argument
        self.kind = self.tokens[self.at].word
        self.clash = Clash(run, process) if self.fault in ("F6", "F7") else None

    def told(self) -> str:
        """The cause in one line."""
        words = self.limit() if self.fault in OPTIONS else self.cause()
        name = self.process.name
        return words if name == "0" or self.fault in ("F6", "F7") else "%s, in process %s" % (words, name)

    def cause(self) -> str:
        """The cause, but of a limit."""
        works = {"F1": self.range, "F2": self.overflow, "F3": self.divisor, "F4": self.undefined, "F5": self.undefined,
                 "F8": self.assumption, "F9": self.selector, "F17": self.number,
                 "F18": self.past_end}
        if self.clash is not None:
            return self.clash.told()
        return works[self.fault]() if self.fault in works else rule_pages.fault_name(self.fault)

    # Parts of the text.
    def expression(self, at: int, stops: frozenset[str] = STOPS) -> Range:
        """The tokens of the expression that begins at a token."""
        first, deep = at, 0
        while self.tokens[at].kind != "end":
            token = self.tokens[at]
            word = token.word if token.kind in ("word", "sign") else ""
            if deep == 0 and word in stops:
                break
            deep += (word in ("(", "[")) - (word in (")", "]"))
            at += 1
        return first, at

    def spelled(self, part: Range) -> str:
        """Tokens as they are written."""
        return self.outline.spelled(*part)

    def values(self, part: Range) -> str:
        """The values of the variables in these tokens, as `: i is 5`."""
        found: dict[str, str] = {}
        for at in range(*part):
            variable = self.inspector.variable(self.process, at)
            if variable is not None and len(found) < MOST:
                value = variable.value
                if isinstance(value, str) and variable.spelled not in found:
                    found[variable.spelled] = short(self.inspector.shown(value), WIDE)
        return ": " + ", ".join("%s is %s" % it for it in found.items()) if found else ""

    def computed(self, part: Range) -> Optional[int]:
        """The integer that the program computes of an expression with the values of its variables in their places; None
        if one is not known, or if the expression has a function of its text or of the input."""
        words, at = [], part[0]
        while at < part[1]:
            word, declared = self.tokens[at].word, self.outline.named.get(at)
            if declared is None or declared.what == "standard" and declared.name not in ("eof", "eoln"):
                words.append(word)
                at += 1
                continue
            variable = self.inspector.variable(self.process, at)
            value = declared.stands_for if variable is None else variable.value
            if not isinstance(value, str) or order(value, None) is None:
                return None
            words.append("(%s)" % value)
            at = variable.last if variable is not None else at + 1
        text = "program value; begin write(0 + (%s)) end." % " ".join(words)
        answer = self.run.caller.beside(["run", "--workers", "1", "--"], text.encode("latin1"))
        return int(answer.output) if answer.status == 0 else None

    def is_joined(self) -> bool:
        """Whether the place is in an expression after an `and` or `or`."""
        at = self.at
        while at > 0 and self.tokens[at].word not in BEGINS:
            if self.tokens[at].word in ("and", "or"):
                return True
            at -= 1
        return False

    def function_at(self, at: int) -> str:
        """The standard function of this name, if it is one."""
        declared = self.outline.named.get(at)
        return declared.name if declared is not None and declared.what == "standard" else ""

    # Causes.
    def range(self) -> str:
        """F1: an index and its bounds, a value without a next one, a number that is no char, a width."""
        function = self.function_at(self.at)
        if function in ("write", "writeln"):
            return "a width here is below 1%s" % self.values(self.statement())
        found = self.outline.indexed.get(self.at)
        if found is None:
            (given,) = self.inspector.arguments(self.at)
            what = "outside 0..255" if function == "chr" else "no value of its type"
            return "%s(%s) is %s%s" % (function, self.spelled(given), what, self.values(given))
        array, part = found[0], (found[1].first, found[1].last)
        low, high = array.kind.limits if array.kind is not None else ("?", "?")
        value = self.inspector.simple(self.process, *part)
        index = self.spelled(part)
        known = " = %s" % value if value is not None and value != index else ""
        if value is None and array.kind is not None and array.kind.index is INTEGER:
            number = self.computed(part)
            known = " = %d" % number if number is not None and not int(low) <= number <= int(high) else ""
        name, values = self.spelled((array.first, array.last)), self.values(part) if value is None else ""
        return "index %s%s is outside the bounds %s..%s of %s%s" % (index, known, low, high, name, values)

    def statement(self) -> Range:
        """The tokens of a call of a standard procedure whose name is at the place."""
        given = self.inspector.arguments(self.at)
        return (given[0][0], given[-1][1]) if given else (self.at, self.at + 1)

    def overflow(self) -> str:
        """F2: the operation, if there is one alone, and its operands."""
        if self.function_at(self.at) in ("read", "readln"):
            return "the number that is read is outside -maxint..maxint"
        part = self.expression(self.at, STOPS | RELATIONS)
        count = sum(self.tokens[at].word in ("+", "-", "*", "div", "sqr") for at in range(*part))
        return "%s%s is outside -maxint..maxint%s" % (
            "" if count == 1 else "a part of ", self.spelled(part), self.values(part))

    def divisor(self) -> str:
        """F3: the divisor."""
        part = self.expression(self.at, STOPS | RELATIONS)
        places = [at for at in range(*part) if self.tokens[at].word in ("div", "mod")]
        words = {self.tokens[at].word for at in places}
        what = "not above 0" if words == {"mod"} else "0" if words == {"div"} else "0 (of mod: not above 0)"
        one = "the divisor" if len(places) == 1 else "a divisor"
        return "%s is %s in %s%s" % (one, what, self.spelled(part), self.values(part))

    def undefined(self) -> str:
        """F4 and F5: which variable or component has no value."""
        variable = self.inspector.variable(self.process, self.at)
        callee = next((it for it in self.outline.blocks if it.place == self.process.place), None)
        if callee is not None:
            return "the function %s ends without a result" % callee.name
        if variable is None:
            return "the variable of this for has no value" if self.kind == "for" else rule_pages.fault_name(self.fault)
        more = ": no channel was opened in it or assigned to it" if self.fault == "F5" else ""
        return "%s has no value%s%s" % (variable.spelled, more, self.values((self.at + 1, variable.last)))

    def assumption(self) -> str:
        """F8: the values in the condition."""
        return "this assumption is false%s" % self.values(self.expression(self.at + 1))

    def selector(self) -> str:
        """F9: the selector."""
        part = self.expression(self.at + 1)
        value = self.inspector.simple(self.process, *part)
        known = " = %s" % value if value is not None and value != self.spelled(part) else ""
        return "the selector is %s%s, and no constant of this case is%s" % (
            self.spelled(part), known, "" if value is not None else self.values(part))

    def number(self) -> str:
        """F17: what stands in the input instead of an integer."""
        return no_number(self.inspector, self.run.data) or "no integer comes next in the input"

    def past_end(self) -> str:
        """F18: what would be read."""
        given = self.inspector.arguments(self.at)
        kinds = {it.kind.name for it in (self.inspector.variable(self.process, first) for first, _ in given)
                 if it is not None and it.kind is not None}
        return "the input is at its end: no %s is left to read" % " or ".join(sorted(kinds))

    # Limits.
    def limit(self) -> str:
        """The limit that is met, its option, and what uses it up."""
        name = OPTIONS[self.fault]
        most = getattr(self.run.limits, name)
        here = "this %s" % self.kind if self.tokens[self.at].kind == "word" else self.kind
        counts = self.run.journal.counts()
        if self.fault == "F10":
            said = "out of ticks: the process has made %d turns of loops and calls, and %s needs one more" % (
                most, here)
        elif self.fault == "F11":
            said = "%s, and %s needs one more" % (self.deepest(most), here)
        elif self.fault == "F12" and self.run.journal.count == 1 and self.process.name == "0":
            said = "the variables of the program, or of its calls, have more cells than that"
        elif self.fault == "F12":
            said = "the calls of the process have no cells left, and %s needs more" % here
        elif self.fault == "F13":
            parts = dict(self.outline.parallels).get(self.process.place)
            said = "the run has had %s, and this %s begins %s%s" % (
                counted(counts["children"] + 1, "process"), self.kind,
                "%d more" % len(parts) if parts is not None else "too many more", self.nested())
        elif self.fault == "F14":
            said = "the run has opened %s, and this is one more" % counted(counts["open"], "channel")
        elif self.fault == "F15":
            made = self.run.journal.count - 1 - counts["end"] - counts["pause"]
            said = "the journal has %s, and this is one more" % counted(made, "entry")
        else:
            said = "the output has %s, and this would be too much" % counted(len(self.output), "byte")
        return "%s (limit: --%s %d)" % (said, name, most)

    def deepest(self, most: int) -> str:
        """The calls that have not returned, and those of the innermost block."""
        calls = [it for it in self.inspector.stack(self.process)[0] if it.frame.place is not None]
        block: Optional[Scope] = calls[0].scope if calls else None
        count = sum(it.scope is block for it in calls)
        return "%d calls and forks have not ended%s" % (most, ", %d of them calls of %s" % (
            count, block.name) if block is not None else "")

    def nested(self) -> str:
        """How often the block of a fork stands among the calls that lead there, if it calls itself."""
        scopes = [it.scope for it in self.inspector.chain(self.process) if it.frame.place is not None]
        count = sum(it is scopes[0] for it in scopes) if scopes else 0
        return "; %s is in itself %d times" % (scopes[0].name, count) if count > 1 and scopes[0] is not None else ""
