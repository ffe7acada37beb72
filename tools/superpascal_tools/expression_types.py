"""Variables, expressions and calls of a program with their types, as the declarations give them; nothing is evaluated.

What a place breaks is noted in words, by rule and place; which rule is broken first is left to the program.
"""
from __future__ import annotations

from typing import Callable, NamedTuple, NoReturn, Optional

from .scopes import BOOLEAN, CHAR, FUNCTIONS, INTEGER, STRING, VARIABLES, Name, Scope, Type, standard_scope
from .tokens import Place, Token

RELATIONS = frozenset(("=", "<>", "<", "<=", ">", ">="))
SHOWN = 40


class Stop(Exception):
    """The next token cannot stand there."""


class Part(NamedTuple):
    """An expression: its type if it has one, its tokens, and the variable if it is written as one."""

    kind: Optional[Type]
    first: int
    last: int
    variable: Optional[Name] = None


class ExpressionTypes:
    """What is read so far: tokens, the scope in which names are looked up, and what is noted."""

    def __init__(self, text: str, tokens: list[Token]) -> None:
        self.text, self.tokens, self.at = text, tokens, 0
        self.starts = [0]
        for line in text.split("\n"):
            self.starts.append(self.starts[-1] + len(line) + 1)
        self.block: Scope = standard_scope()
        self.findings: dict[tuple[str, Place], str] = {}
        self.named: dict[int, Name] = {}
        self.selected_of: Optional[Type] = None
        self.uses: list[tuple[int, Name, bool]] = []
        self.called: list[tuple[int, Scope]] = []
        # by the first token of an index: its array and the index itself
        self.indexed: dict[int, tuple[Part, Part]] = {}
        self.actuals: list[tuple[Scope, list[tuple[Place, Name]]]] = []
        self.input = self.output = Name("var", "", self.block, (1, 1))

    # Tokens.
    @property
    def word(self) -> Optional[str]:
        """The word or sign that is next, if it is one."""
        token = self.tokens[self.at]
        return token.word if token.kind in ("word", "sign") else None

    @property
    def place(self) -> Place:
        """The place of the next token."""
        return self.tokens[self.at].place

    def take(self, word: str) -> bool:
        """Takes this word or sign, if it is next."""
        if self.word != word:
            return False
        self.at += 1
        return True

    def need(self, word: str) -> None:
        """Takes this word or sign, which has to be next."""
        if not self.take(word):
            self.stop()

    def name(self) -> str:
        """Takes a name, which has to be next."""
        if self.tokens[self.at].kind != "name":
            self.stop()
        self.at += 1
        return self.tokens[self.at - 1].word

    def known(self) -> Optional[Name]:
        """Takes a name, which has to be next: what it means here."""
        self.name()
        return self.look_up(self.at - 1)

    def look_up(self, at: int) -> Optional[Name]:
        """What the name at this token means here; the token is noted as one of its occurrences."""
        declared = self.block.look_up(self.tokens[at].word)
        if declared is not None:
            self.named[at] = declared
        return declared

    def stop(self) -> NoReturn:
        """The next token cannot stand there."""
        raise Stop()

    def spelled(self, first: int, last: int, most: int = SHOWN) -> str:
        """The tokens from `first` to before `last` as they are written; of long ones the beginning."""
        begin, end = self.tokens[first], self.tokens[max(first, last - 1)]
        start = self.starts[begin.place[0] - 1] + begin.place[1] - 1
        stop = self.starts[end.place[0] - 1] + end.place[1] - 1 + len(end.word)
        whole = " ".join(self.text[start:stop].split())
        return whole if len(whole) <= most else whole[:most - 2] + ".."

    # What is noted.
    def tell(self, rule: str, at: int, words: str) -> None:
        """Notes what the token at this index breaks; the first finding at a place stays."""
        self.findings.setdefault((rule, self.tokens[at].place), words)

    def note(self, declared: Name, target: bool, at: int) -> None:
        """Notes a position of a variable."""
        self.uses.append((at, declared, target))

    def is_a(self, part: Part) -> str:
        """An expression and its type, as `3 is an integer`."""
        return "%s is %s" % (self.spelled(part.first, part.last), part.kind)

    # Variables.
    def target(self, purpose: str) -> Part:
        """A variable that is changed."""
        first, declared = self.at, self.known()
        if declared is None:
            self.tell("N1", first, "")
        elif is_fixed(declared):
            self.tell("N7", first, "%s is %s and cannot be changed%s" % (declared.name, declared.described(), purpose))
        elif declared.what not in VARIABLES:
            self.tell("N3", first, "%s is %s, not a variable" % (declared.name, declared.described()))
        return self.selected(declared, first, True)

    def selected(self, declared: Optional[Name], first: int, target: bool) -> Part:
        """A variable whose name is taken, with its selectors."""
        known = declared is not None and declared.what in VARIABLES
        if declared is not None and known:
            self.note(declared, target, first)
        elif declared is not None and self.word in ("[", "."):
            self.tell("N3", first, "%s is %s, not a variable" % (declared.name, declared.described()))
        kind = declared.kind if declared is not None and known else None
        while self.word in ("[", "."):
            here = Part(kind, first, self.at, declared)
            if self.take("."):
                kind = self.field(here)
                continue
            self.at += 1
            while True:
                kind = self.element(Part(kind, here.first, here.last, declared))
                if not self.take(","):
                    break
            self.need("]")
        return Part(kind, first, self.at, declared if known else None)

    def field(self, record: Part) -> Optional[Type]:
        """The type of the field of a record."""
        self.selected_of = kind = record.kind
        name = self.name()
        self.selected_of = None
        if kind is None:
            return None
        if kind.form != "record":
            self.tell("Y3", record.first, "%s, not a record: it has no field %s" % (self.is_a(record), name))
            return None
        if name not in kind.fields:
            self.tell("Y3", record.first, "%s has no field %s; the record %s has %s" % (
                self.spelled(record.first, record.last), name, kind.name, ", ".join(kind.fields)))
            return None
        field = self.named[self.at - 1] = kind.fields[name]
        return field.kind

    def element(self, array: Part) -> Optional[Type]:
        """The type of the element of an array; its index is next."""
        index, kind = self.expression(), array.kind
        self.indexed[index.first] = (array, index)
        if kind is None:
            return None
        if kind.form != "array":
            self.tell("Y2", array.first, "%s, not an array" % self.is_a(array))
            return None
        if index.kind is not None and index.kind is not kind.index:
            self.tell("Y2", index.first, "%s; the index of %s is %s" % (
                self.is_a(index), self.spelled(array.first, array.last), kind.index))
            return None
        return kind.element

    # Expressions.
    def wanted(self, part: Part, kind: Type, operator: str) -> None:
        """An operand that has to have this type."""
        if part.kind is not None and part.kind is not kind:
            self.tell("Y1", part.first, "%s; %s takes %ss" % (self.is_a(part), operator, kind.name))

    def expression(self) -> Part:
        """An expression."""
        left = self.simple()
        if self.word not in RELATIONS:
            return left
        operator = self.word or ""
        self.at += 1
        right = self.simple()
        kinds = (left.kind, right.kind)
        if left.kind is not None and not comparable(left.kind, operator):
            self.tell("Y1", left.first, "%s; %s" % (self.is_a(left), compares(left.kind, operator)))
        elif None not in kinds and kinds[0] is not kinds[1]:
            self.tell("Y1", right.first, "%s, %s; %s compares values of one type" % (
                self.is_a(left), self.is_a(right), operator))
        return Part(BOOLEAN, left.first, self.at)

    def simple(self) -> Part:
        """Terms that are added."""
        first, sign = self.at, self.word if self.word in ("+", "-") else None
        if sign:
            self.at += 1
        part = self.term()
        if sign:
            self.wanted(part, INTEGER, "the sign " + sign)
            part = Part(INTEGER, first, self.at)
        while self.word in ("+", "-", "or"):
            part = self.operation(part, self.term)
        return part

    def term(self) -> Part:
        """Factors that are multiplied."""
        part = self.factor()
        while self.word in ("*", "div", "mod", "and"):
            part = self.operation(part, self.factor)
        return part

    def operation(self, left: Part, operand: Callable[[], Part]) -> Part:
        """An operator and its right operand."""
        operator = self.word or ""
        self.at += 1
        right = operand()
        kind = BOOLEAN if operator in ("and", "or") else INTEGER
        self.wanted(left, kind, operator)
        self.wanted(right, kind, operator)
        return Part(kind, left.first, self.at)

    def factor(self) -> Part:
        """A factor."""
        first, token = self.at, self.tokens[self.at]
        if token.kind in ("number", "text"):
            self.at += 1
            single = len(token.word.replace("''", "'")) == 3 or token.word == "''''"
            return Part(INTEGER if token.kind == "number" else CHAR if single else STRING, first, self.at)
        if self.take("("):
            part = self.expression()
            self.need(")")
            return Part(part.kind, first, self.at)
        if self.take("not"):
            part = self.factor()
            self.wanted(part, BOOLEAN, "not")
            return Part(BOOLEAN, first, self.at)
        declared = self.known()
        if declared is None:
            self.tell("N1", first, "")
            return self.unknown(first)
        if declared.what == "function" or declared.what == "standard" and declared.name in FUNCTIONS:
            return self.call(declared, first)
        if declared.what == "const" and self.word not in ("[", ".", "("):
            return Part(declared.kind, first, self.at)
        if declared.what in ("const",) + VARIABLES and self.word == "(":
            self.tell("N3", first, "%s is %s, not a function" % (declared.name, declared.described()))
            return self.unknown(first)
        if declared.what not in VARIABLES:
            self.tell("N3", first, "%s is %s, not a value" % (declared.name, declared.described()))
            return self.unknown(first)
        return self.selected(declared, first, False)

    def unknown(self, first: int) -> Part:
        """What follows a name that has no value: arguments or selectors."""
        if self.word == "(":
            self.arguments(lambda number: self.expression())
        self.selected(None, first, False)
        return Part(None, first, self.at)

    def call(self, declared: Name, first: int) -> Part:
        """A call whose name is taken."""
        raise NotImplementedError

    def arguments(self, each: Callable[[int], Part], has_widths: bool = False) -> list[Part]:
        """The arguments of a call."""
        raise NotImplementedError


def is_fixed(declared: Name) -> bool:
    """Whether this is a constant, a forall index or a function, which cannot be changed."""
    return declared.what in ("const", "index", "function") or declared.what == "standard" and declared.name in FUNCTIONS


def comparable(kind: Type, operator: str) -> bool:
    """Whether this relation takes values of the type."""
    return kind.form in ("ordinal", "string") or kind.form == "channel" and operator in ("=", "<>")


def compares(kind: Type, operator: str) -> str:
    """What a relation takes instead."""
    if kind.form == "channel":
        return "channels are compared with = and <> only, not with " + operator
    part = "fields" if kind.form == "record" else "elements"
    return "%s compares ordinal values (integer, boolean, char): compare the %s of the %s" % (operator, part, kind.form)
