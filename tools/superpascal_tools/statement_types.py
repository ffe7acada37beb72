"""Statements of a program with their types: what a place breaks, and the parts of each parallel, forall and loop."""
from __future__ import annotations

from typing import Optional

from .call_types import CallTypes
from .expression_types import Part, is_fixed
from .scopes import BOOLEAN, CHAR, FUNCTIONS, INTEGER, VARIABLES, Name, Scope
from .tokens import Place, Token

Range = tuple[int, int]
ENDS = (";", "end", "until", "|", "else")


class StatementTypes(CallTypes):
    """What is noted of statements. `opened` has the words that wait for their `end`, with their tokens, and `closed`
    those that have it, with both tokens. `repeated` has the tokens of loops, `choices` those of the statements of which
    one is chosen."""

    def __init__(self, text: str, tokens: list[Token]) -> None:
        super().__init__(text, tokens)
        self.parallels: list[tuple[Place, list[Range]]] = []
        self.foralls: list[tuple[Place, Range]] = []
        self.loops: list[tuple[Place, Name, Range]] = []
        self.opened: list[tuple[str, int]] = []
        self.closed: list[tuple[str, int, int]] = []
        self.repeated: list[Range] = []
        self.choices: list[list[Range]] = []

    def without_names(self, part: Part) -> str:
        """A constant, with what a name stands for in its place."""
        word = self.tokens[part.last - 1].word
        declared = self.named.get(part.last - 1)
        word = declared.stands_for if declared is not None else word
        if part.last - part.first == 1 or self.tokens[part.first].word == "+":
            return word
        return word[1:] if word.startswith("-") else "-" + word

    def constant(self) -> Part:
        """A constant."""
        first, sign = self.at, self.word in ("+", "-")
        self.at += sign
        token = self.tokens[self.at]
        if token.kind == "text" and not sign or token.kind == "number":
            part = self.factor()
            if token.kind == "text" and part.kind is not CHAR:
                self.tell("Y14", first, "%s is not a string of length 1; no other string is a constant" % token.word)
            return Part(part.kind, first, self.at)
        at, declared = self.at, self.known()
        if declared is None:
            self.tell("N1", at, "")
        elif declared.what != "const":
            self.tell("N3", at, "%s is %s, not a constant" % (declared.name, declared.described()))
        elif sign and declared.kind is not INTEGER:
            self.tell("Y14", first, "%s is %s; a sign stands only before an integer" % (declared.name, declared.kind))
        return Part(declared.kind if declared and declared.what == "const" else None, first, self.at)

    def compound(self, word: str = "begin") -> None:
        """The statements from begin to end."""
        self.need(word)
        self.opened.append((word, self.at - 1))
        self.sequence()
        self.need("end")
        self.close()

    def close(self) -> None:
        """The innermost open word has its `end`, or `repeat` its `until`."""
        self.closed.append(self.opened.pop() + (self.at - 1,))

    def sequence(self) -> None:
        """Statements one after the other."""
        self.statement()
        while self.take(";"):
            self.statement()

    def statement(self) -> None:
        """One statement."""
        token, first = self.tokens[self.at], self.at
        works = {"if": self.choice, "while": self.loop, "repeat": self.repeat, "for": self.for_loop, "case": self.case,
                 "parallel": self.parallel, "forall": self.forall, "assume": self.assume}
        if token.kind == "name":
            self.named_statement(first)
        elif token.word == "begin" and token.kind == "word":
            self.compound()
        elif token.kind == "word" and token.word in works:
            if token.word in ("parallel", "forall"):
                self.actions.append((first, token.word))
            self.at += 1
            works[token.word]()
            if token.word in ("while", "repeat", "for"):
                self.repeated.append((first, self.at))
        elif token.kind != "end" and token.word not in ENDS:
            self.stop()

    def named_statement(self, first: int) -> None:
        """An assignment or a call; its name is next."""
        declared = self.look_up(first)
        if self.tokens[first + 1].word in (":=", "[", "."):
            self.assignment(declared)
            return
        self.at += 1
        if declared is not None and declared.what == "procedure":
            self.call(declared, first)
        elif declared is not None and declared.what == "standard" and declared.name not in FUNCTIONS:
            self.standard_procedure(declared.name, first)
        else:
            if declared is not None:
                self.tell("N3", first, "%s is %s, not a statement" % (declared.name, declared.described()))
            else:
                self.tell("N1", first, "")
            self.unknown(first)
            if self.take(":="):
                self.expression()

    def assignment(self, declared: Optional[Name]) -> None:
        """`v := e`, or the result of a function in its own statement part."""
        scope = self.block.innermost()
        own = declared is not None and declared.inner is scope and declared.what == "function"
        if own and self.tokens[self.at + 1].word == ":=":
            self.at += 1
            left = Part(scope.result, self.at - 1, self.at)
        else:
            left = self.target("")
        self.need(":=")
        right = self.expression()
        if None not in (left.kind, right.kind) and left.kind is not right.kind and not self.no_char(right):
            self.tell("Y5", right.first, "%s, %s" % (self.is_a(left), self.is_a(right)))

    # Statements.
    def condition(self, word: str) -> None:
        """A condition."""
        part = self.expression()
        if part.kind is not None and part.kind is not BOOLEAN:
            self.tell("Y4", part.first, "%s; the condition of %s is a boolean" % (self.is_a(part), word))

    def choice(self) -> None:
        """`if`."""
        self.condition("if")
        self.need("then")
        begun = self.at
        self.statement()
        if self.take("else"):
            middle = self.at
            self.statement()
            self.choices.append([(begun, middle), (middle, self.at)])

    def loop(self) -> None:
        """`while`."""
        self.condition("while")
        self.need("do")
        self.statement()

    def repeat(self) -> None:
        """`repeat`."""
        self.opened.append(("repeat", self.at - 1))
        self.sequence()
        self.need("until")
        self.close()
        self.condition("until")

    def assume(self) -> None:
        """`assume`."""
        self.condition("assume")

    def for_loop(self) -> None:
        """`for`."""
        first, declared = self.at, self.known()
        scope = self.block.innermost()
        kind = declared.kind if declared is not None else None
        if declared is None:
            self.tell("N1", first, "")
        elif declared.what in VARIABLES:
            self.note(declared, True, first)
            what = "a parameter" if declared in declared.block.formals else "a variable"
            words = "%s is %s of %s (line %d); declare the variable of a for in a var part of %s itself"
            self.tell("N8", first, words % (declared.name, what, declared.block.name, declared.place[0], scope.name))
        elif is_fixed(declared):
            self.tell("N7", first, "%s is %s and cannot be changed" % (declared.name, declared.described()))
        else:
            self.tell("N3", first, "%s is %s, not a variable" % (declared.name, declared.described()))
        variable = Part(kind, first, self.at)
        self.ordinal("Y10", variable, "the variable of a for")
        self.need(":=")
        self.same("Y10", self.expression(), variable)
        if not self.take("downto"):
            self.need("to")
        self.same("Y10", self.expression(), variable)
        self.need("do")
        begun = self.at
        self.statement()
        if declared is not None:
            self.loops.append((self.tokens[first].place, declared, (begun, self.at)))

    def ordinal(self, rule: str, part: Part, what: str) -> None:
        """A part that has to be ordinal."""
        if part.kind is not None and part.kind.form != "ordinal":
            self.tell(rule, part.first, "%s; %s is an integer, boolean, char or enumeration" % (self.is_a(part), what))

    def same(self, rule: str, part: Part, other: Part) -> None:
        """A part that has to have the type of another one."""
        if None not in (part.kind, other.kind) and part.kind is not other.kind and not self.no_char(part):
            self.tell(rule, part.first, "%s, %s" % (self.is_a(other), self.is_a(part)))

    def case(self) -> None:
        """`case`."""
        self.opened.append(("case", self.at - 1))
        selector = self.expression()
        self.ordinal("Y11", selector, "the selector of a case")
        self.need("of")
        seen: dict[str, int] = {}
        arms: list[Range] = []
        self.choices.append(arms)
        while True:
            while True:
                part = self.constant()
                self.same("Y11", part, selector)
                word = self.spelled(part.first, part.last).lower()
                line = self.tokens[part.first].place[0]
                self.tell("Y12", part.first, "the constant %s is already in this case, at line %d" % (
                    word, seen.setdefault(word, line)))
                if not self.take(","):
                    break
            self.need(":")
            begun = self.at
            self.statement()
            arms.append((begun, self.at))
            if self.word == "end" or not self.take(";") or self.word == "end":
                break
        self.need("end")
        self.close()

    def parallel(self) -> None:
        """`parallel`."""
        place, ranges = self.tokens[self.at - 1].place, []
        self.parallels.append((place, ranges))
        self.opened.append(("parallel", self.at - 1))
        while True:
            begun = self.at
            self.sequence()
            ranges.append((begun, self.at))
            if not self.take("|"):
                break
        self.need("end")
        self.close()

    def forall(self) -> None:
        """`forall`."""
        place, first = self.tokens[self.at - 1].place, self.at
        name = self.name()
        self.need(":=")
        low = self.expression()
        self.ordinal("Y10", low, "the first limit of a forall")
        self.need("to")
        self.same("Y10", self.expression(), low)
        self.need("do")
        inner = Scope(self.block, "forall", name, self.tokens[first].place)
        inner.first = first
        index = self.named[first] = inner.names[name] = Name("index", name, inner, self.tokens[first].place)
        index.kind = low.kind
        outer, self.block, begun = self.block, inner, self.at
        self.statement()
        self.foralls.append((place, (begun, self.at)))
        self.block = outer
