"""Calls of a program: their parameters, with the types that are wanted and given."""
from __future__ import annotations

from typing import Callable, Optional

from .expression_types import ExpressionTypes, Part
from .scopes import BOOLEAN, CHAR, INTEGER, Name, Scope, Type, named
from .tokens import Place, Token


class CallTypes(ExpressionTypes):
    """Calls of procedures and functions; `actions` has the statements that a function may not have, `given`
    the types of arguments by their first tokens."""

    def __init__(self, text: str, tokens: list[Token]) -> None:
        super().__init__(text, tokens)
        self.actions: list[tuple[int, str]] = []
        self.given: dict[int, Optional[Type]] = {}

    def arguments(self, each: Callable[[int], Part], has_widths: bool = False) -> list[Part]:
        """The arguments of a call, each read by `each` with its number, which also reads a width if they have one."""
        found: list[Part] = []
        if self.take("("):
            while True:
                found.append(each(len(found)))
                self.given[found[-1].first] = found[-1].kind
                if not has_widths and self.take(":"):
                    self.tell("N5", found[-1].first, "a width stands only in write and writeln, not after %s" %
                              self.spelled(found[-1].first, found[-1].last))
                    self.expression()
                if not self.take(","):
                    break
            self.need(")")
        return found

    def counted(self, first: int, heading: str, wanted: int, given: int) -> None:
        """A call has to have this number of parameters."""
        if wanted != given:
            self.tell("N6", first, "%s takes %s, %s given" % (
                heading, "no parameter" if not wanted else "%d parameter%s" % (wanted, "s" * (wanted > 1)),
                "none is" if not given else "1 is" if given == 1 else "%d are" % given))

    def call(self, declared: Name, first: int) -> Part:
        """A call whose name is taken."""
        if declared.inner is None:
            return self.standard_function(declared.name, first)
        block = declared.inner
        variables: list[tuple[Place, Name]] = []
        self.called.append((first, block))

        def each(number: int) -> Part:
            formal = block.formals[number] if number < len(block.formals) else None
            if formal is None or formal.what != "byvar":
                part = self.expression()
                self.fits("Y6", formal, part, block)
                return part
            purpose = ": parameter %s of %s is a variable parameter" % (formal.name, block.name)
            start, lone = self.at, self.is_variable()
            part = self.target(purpose) if lone else self.expression()
            if not lone:
                self.tell("Y7", start, "%s is not a variable%s" % (self.spelled(start, self.at), purpose))
            elif part.variable is not None:
                variables.append((self.tokens[start].place, part.variable))
                self.fits("Y7", formal, part, block)
            return part

        given = self.arguments(each)
        self.counted(first, "%s (line %d)" % (block.heading, block.place[0]), len(block.formals), len(given))
        if variables:
            self.actuals.append((block, variables))
        return Part(declared.kind, first, self.at)

    def fits(self, rule: str, formal: Optional[Name], actual: Part, block: Scope) -> None:
        """An actual parameter has to have the type of the formal one."""
        if formal is not None and None not in (formal.kind, actual.kind) and formal.kind is not actual.kind:
            self.tell(rule, actual.first, "%s; parameter %s of %s is %s" % (
                self.is_a(actual), formal.name, block.name, formal.kind))

    def is_variable(self) -> bool:
        """Whether a variable alone is next, up to a comma, a colon or the parenthesis that closes the arguments."""
        at, deep = self.at + 1, 0
        if self.tokens[self.at].kind != "name":
            return False
        while at < len(self.tokens):
            word = self.tokens[at].word
            if not deep and word not in ("[", "."):
                return word in (",", ")", ":")
            deep += (word == "[") - (word == "]")
            at += 2 if word == "." else 1
        return False

    def standard_function(self, name: str, first: int) -> Part:
        """A call of a standard function."""
        given = self.arguments(lambda number: self.expression())
        if name in ("eof", "eoln"):
            self.note(self.input, False, first)
            self.counted(first, name, 0, len(given))
            return Part(BOOLEAN, first, self.at)
        self.counted(first, name, 1, len(given))
        kind = given[0].kind if given else None
        if kind is not None and name in ("abs", "sqr", "odd", "chr") and kind is not INTEGER:
            self.tell("Y8", given[0].first, "%s; %s takes an integer" % (self.is_a(given[0]), name))
        elif kind is not None and kind.form not in ("ordinal", "string"):
            self.tell("Y8", given[0].first, "%s; %s takes an integer, boolean, char or enumeration" % (
                self.is_a(given[0]), name))
        return Part({"odd": BOOLEAN, "chr": CHAR}.get(name, kind if name in ("succ", "pred") else INTEGER), first,
                    self.at)

    # Standard procedures.
    def standard_procedure(self, name: str, first: int) -> None:
        """A call of a standard procedure whose name is taken."""
        self.actions.append((first, name))
        works = {"write": self.written, "writeln": self.written, "read": self.read, "readln": self.read,
                 "open": self.channel_opened}
        if name in ("write", "writeln", "read", "readln"):
            self.note(self.output if name[0] == "w" else self.input, True, first)
        if name in works:
            given = self.arguments(works[name], name[0] == "w")
            least = 0 if name.endswith("ln") else 1
        else:
            kinds: list[Part] = []
            given = self.arguments(lambda number: self.message(name, kinds))
            least = 2
        if len(given) < least:
            self.tell("N6", first, "%s takes %d parameter%s or more, %d %s given" % (
                name, least, "s" * (least > 1), len(given), "is" if len(given) == 1 else "are"))

    def written(self, _number: int) -> Part:
        """An item of `write`, with its width."""
        part = self.expression()
        if part.kind not in (INTEGER, CHAR, BOOLEAN, None) and part.kind.form != "string":
            self.tell("Y8", part.first, "%s; write takes integers, chars, booleans and strings" % self.is_a(part))
        if self.take(":"):
            width = self.expression()
            if width.kind not in (INTEGER, None):
                self.tell("Y8", part.first, "%s; the width of an item is an integer" % self.is_a(width))
        return part

    def variable(self, name: str) -> Part:
        """An argument that has to be a variable."""
        start = self.at
        if self.is_variable():
            return self.target("")
        part = self.expression()
        self.tell("N5", start, "%s puts a value into a variable, and %s is not one" % (
            name, self.spelled(start, self.at)))
        return Part(None, part.first, part.last)

    def read(self, _number: int) -> Part:
        """A variable of `read`."""
        part = self.variable("read")
        if part.kind not in (INTEGER, CHAR, None):
            self.tell("Y8", part.first, "%s; read takes integers and chars" % self.is_a(part))
        return part

    def channel_opened(self, _number: int) -> Part:
        """A variable of `open`."""
        part = self.variable("open")
        self.channel("open", part)
        return part

    def channel(self, name: str, part: Part) -> None:
        """A part that has to be a channel."""
        if part.kind is not None and part.kind.form != "channel":
            self.tell("Y8", part.first, "%s; %s takes a channel" % (self.is_a(part), name))

    def message(self, name: str, before: list[Part]) -> Part:
        """The channel, or a message, of `send` or `receive`."""
        part = self.expression() if name == "send" or not before else self.variable("receive")
        before.append(part)
        if len(before) == 1:
            self.channel(name, part)
        elif part.kind is not None and carries(before[0].kind, part.kind) is False and not self.no_char(part):
            self.tell("Y9", part.first, "%s carries %s; %s" % (
                self.spelled(before[0].first, before[0].last),
                ", ".join(named(it) for it in before[0].kind.messages), self.is_a(part)))
        return part

    def no_char(self, part: Part) -> bool:
        """Whether this is a string whose length is not 1, which stands only in write and writeln."""
        if part.kind is None or part.kind.form != "string":
            return False
        self.tell("Y14", part.first, "%s is a string; strings stand only in write and writeln, and a variable of "
                  "characters is an array of char" % self.spelled(part.first, part.last))
        return True


def carries(channel: Optional[Type], kind: Type) -> Optional[bool]:
    """Whether messages of this type go over the channel; nothing if it is not a channel."""
    return kind in channel.messages if channel is not None and channel.form == "channel" else None
