"""The outline of a program: its tokens, declarations, scopes and types, also of one that breaks a rule.

It serves messages: what a place breaks is put into words here, and the program alone says what is broken first. Reading
stops at the first token that cannot stand there; what was read before it is kept.
"""
from __future__ import annotations

from typing import Optional

from .expression_types import Part, Stop
from .scopes import Name, Scope, Type
from .statement_types import StatementTypes
from .tokens import tokens_of

HEADING = 120


class Outline(StatementTypes):
    """The outline of a text, whose characters are its bytes."""

    def __init__(self, text: str) -> None:
        super().__init__(text, tokens_of(text))
        self.blocks: list[Scope] = []
        self.main = self.block
        self.whole = False
        self.part = ""
        self.enumerated: list[tuple[str, int]] = []
        try:
            self.program()
            self.whole = True
        except Stop:
            pass

    def program(self) -> None:
        """The whole program."""
        self.need("program")
        place, name = self.place, self.name()
        self.block = self.main = Scope(self.block, "program", name, place)
        self.named[self.at - 1] = Name("program", name, self.main, place)
        self.main.first = self.at
        self.input = Name("var", "the input", self.main, place)
        self.output = Name("var", "the output", self.main, place)
        if self.take("("):
            self.headed()
            self.need(")")
        self.need(";")
        self.rest(self.main)
        self.need(".")
        if self.tokens[self.at].kind != "end":
            self.stop()

    def headed(self) -> None:
        """The names of the heading."""
        seen = set()
        for name, at in self.names():
            self.tell("N1", at, "the heading names %s; it may name input and output only" % name)
            if name in seen:
                self.tell("N2", at, "%s is in the heading twice" % name)
            seen.add(name)

    def names(self) -> list[tuple[str, int]]:
        """Names with commas between them, with their tokens."""
        found = [(self.name(), self.at - 1)]
        while self.take(","):
            found.append((self.name(), self.at - 1))
        return found

    def declare(self, what: str, name: str, at: int, kind: Optional[Type] = None) -> Name:
        """Declares a name in the scope that is read."""
        old = self.block.names.get(name)
        if old is not None:
            self.tell("N2", at, "%s is already declared in %s, at line %d" % (name, self.block.name, old.place[0]))
        declared = self.named[at] = self.block.names[name] = Name(what, name, self.block, self.tokens[at].place)
        declared.kind = kind
        return declared

    def type_named(self, own: str = "") -> Optional[Type]:
        """The type that a name stands for."""
        at, name = self.at, self.name()
        if name == own:
            self.tell("N4", at, "the definition of %s uses %s itself" % (name, name))
            return None
        declared = self.look_up(at)
        if declared is None:
            self.tell("N1", at, "")
        elif declared.what != "type":
            self.tell("N3", at, "%s is %s, not a type" % (declared.name, declared.described()))
        return declared.kind if declared is not None and declared.what == "type" else None

    def rest(self, block: Scope) -> None:
        """The declarations of a block, and its statement part."""
        self.blocks.append(block)
        parts = {"const": self.constants, "type": self.types, "var": self.variables}
        while self.word != "begin":
            self.part = self.word or self.part
            if self.word in parts:
                part = parts[self.word]
                self.at += 1
                while True:
                    part()
                    self.need(";")
                    if self.tokens[self.at].kind != "name":
                        break
            elif self.word in ("procedure", "function"):
                self.heading(self.word)
            else:
                self.stop()
        self.part = "begin"
        block.first = self.at
        self.compound()
        block.last = self.at
        self.part = "end"

    def constants(self) -> None:
        """One constant."""
        name, at = self.name(), self.at - 1
        self.need("=")
        part = self.constant()
        declared = self.declare("const", name, at, part.kind)
        declared.defined, declared.stands_for = self.spelled(at, self.at, HEADING), self.without_names(part)

    def types(self) -> None:
        """One type."""
        name, at = self.name(), self.at - 1
        self.need("=")
        kind = self.type_of(name)
        self.declare("type", name, at, kind).defined = self.spelled(at, self.at, HEADING)
        for word, place in self.enumerated:
            self.declare("const", word, place, kind).stands_for = word

    def type_of(self, name: str) -> Optional[Type]:
        """A type after its name and `=`."""
        self.enumerated = []
        if self.take("("):
            self.enumerated = self.names()
            self.need(")")
            kind = Type("ordinal", name)
            kind.constants = [word for word, _ in self.enumerated]
            return kind
        if self.take("array"):
            return self.array(name)
        if self.take("record"):
            return self.record(name)
        if self.take("*"):
            kind = Type("channel", name)
            self.need("(")
            while True:
                kind.messages.append(self.type_named(name))
                if not self.take(","):
                    break
            self.need(")")
            return kind
        return self.type_named(name)

    def array(self, name: str) -> Type:
        """An array."""
        kind = Type("array", name)
        self.need("[")
        low = self.bound(name)
        self.need("..")
        high = self.bound(name)
        self.need("]")
        self.need("of")
        kind.index, kind.element = low.kind, self.type_named(name)
        kind.bounds = (self.spelled(low.first, low.last), self.spelled(high.first, high.last))
        kind.limits = (self.without_names(low), self.without_names(high))
        if None not in (low.kind, high.kind) and low.kind is not high.kind:
            self.tell("Y13", high.first, "the bounds of %s have two types: %s, %s" % (
                name, self.is_a(low), self.is_a(high)))
        words = "the lower bound of %s, %s, is above its upper bound, %s" % ((name,) + kind.bounds)
        self.tell("Y13", high.first, words)
        return kind

    def bound(self, name: str) -> Part:
        """A bound of an array."""
        if self.tokens[self.at].kind == "name" and self.tokens[self.at].word == name:
            self.tell("N4", self.at, "the definition of %s uses %s itself" % (name, name))
        return self.constant()

    def array_open(self, at: int) -> bool:
        """Whether this token is inside the brackets of an array type."""
        while at > 0 and self.tokens[at - 1].word not in ("]", ";", "of", "begin"):
            at -= 1
            if self.tokens[at].word == "[":
                return self.tokens[at - 1].word == "array"
        return False

    def record(self, name: str) -> Type:
        """A record."""
        kind = Type("record", name)
        self.opened.append(("record", self.at - 1))
        while True:
            those = self.names()
            self.need(":")
            inner = self.type_named(name)
            for field, at in those:
                if field in kind.fields:
                    self.tell("N2", at, "the record %s already has a field %s" % (name, field))
                declared = self.named[at] = kind.fields[field] = Name("field", field, self.block, self.tokens[at].place)
                declared.kind = inner
            if not self.take(";") or self.word == "end":
                break
        self.need("end")
        self.close()
        return kind

    def variables(self) -> None:
        """Variables of one type."""
        those = self.names()
        self.need(":")
        kind = self.type_named()
        for name, at in those:
            self.declare("var", name, at, kind)

    def heading(self, part: str) -> None:
        """A procedure or function."""
        self.at += 1
        name, at = self.name(), self.at - 1
        inner = Scope(self.block, part, name, self.tokens[at].place)
        formals = self.formals(part)
        inner.heading = self.spelled(at, self.at, HEADING)
        if part == "function":
            self.need(":")
            result = self.at
            inner.result = self.type_named()
            if inner.result is not None and inner.result.form != "ordinal":
                self.tell("Y14", result, "the result of %s is %s, and not an integer, boolean, char or enumeration" % (
                    name, inner.result))
        self.need(";")
        declared = self.declare(part, name, at, inner.result)
        declared.inner = inner
        outer, self.block = self.block, inner
        for what, formal, place, kind in formals:
            inner.formals.append(self.declare(what, formal, place, kind))
        self.rest(inner)
        self.block = outer
        self.need(";")

    def formals(self, part: str) -> list[tuple[str, str, int, Optional[Type]]]:
        """The parameters of a heading."""
        found: list[tuple[str, str, int, Optional[Type]]] = []
        if self.take("("):
            while True:
                what = "byvar" if self.take("var") else "var"
                those = self.names()
                self.need(":")
                kind = self.type_named()
                for name, at in those:
                    found.append((what, name, at, kind))
                    if what == "byvar" and part == "function":
                        words = "a function has value parameters only, and %s is a variable parameter" % name
                        self.tell("I7", at, words)
                if not self.take(";"):
                    break
            self.need(")")
        return found
