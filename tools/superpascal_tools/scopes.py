"""Types, names and scopes as a program declares them, and how they are put into words. Nothing here has a value."""
from __future__ import annotations

from typing import Optional

from .tokens import MAXINT, Place

VARIABLES = ("var", "byvar", "index")


class Type:
    """A type. `form` is ordinal, array, record, channel or string; a string of length 1 is a char.

    Of an array `bounds` are written as the text has them, and `limits` without names of constants; `constants` are
    those of an enumeration.
    """

    def __init__(self, form: str, name: str) -> None:
        self.form, self.name = form, name
        self.index: Optional[Type] = None
        self.bounds = self.limits = ("", "")
        self.constants: list[str] = []
        self.element: Optional[Type] = None
        self.fields: dict[str, Name] = {}
        self.messages: list[Optional[Type]] = []

    def __str__(self) -> str:
        """The type after its article, as `an integer` or `an array of integer (list)`."""
        if self.form == "array":
            return "an array of %s (%s)" % (named(self.element), self.name)
        if self.form == "record":
            return "a record (%s)" % self.name
        if self.form == "channel":
            return "a channel of %s (%s)" % (", ".join(named(it) for it in self.messages), self.name)
        return article(self.name)


INTEGER, BOOLEAN, CHAR = (Type("ordinal", name) for name in ("integer", "boolean", "char"))
BOOLEAN.constants = ["false", "true"]
STRING = Type("string", "string")


def article(noun: str) -> str:
    """A noun after its article."""
    return ("an " if noun[:1] in "aeio" else "a ") + noun


def named(kind: Optional[Type]) -> str:
    """The name of a type, if it is known."""
    return kind.name if kind else "?"


class Name:
    """A declared name. `what` is program, const, type, field, var, byvar, index, procedure, function or standard;
    `defined` is the definition of a constant or a type as it is written, `stands_for` a constant without names."""

    def __init__(self, what: str, name: str, block: "Scope", place: Place) -> None:
        self.what, self.name, self.block, self.place = what, name, block, place
        self.kind: Optional[Type] = None
        self.defined = self.stands_for = ""
        self.inner: Optional[Scope] = None

    def described(self) -> str:
        """What the name is and where it is declared, as `a constant (line 2)`."""
        words = {"const": "a constant", "type": "a type", "var": "a variable", "byvar": "a variable parameter",
                 "index": "the index of a forall", "procedure": "a procedure", "function": "a function",
                 "program": "the program", "field": "a field"}
        if self.what == "standard":
            return "a standard %s" % ("function" if self.name in FUNCTIONS else "procedure")
        return words[self.what] + (" (line %d)" % self.place[0] if self.block.outer else " of the language")


class Scope:
    """A program, procedure or function, or the element statement of a forall: the names declared in it."""

    def __init__(self, outer: Optional["Scope"], what: str, name: str, place: Place) -> None:
        self.outer, self.what, self.name, self.place = outer, what, name, place
        self.names: dict[str, Name] = {}
        self.formals: list[Name] = []
        self.heading = name
        self.result: Optional[Type] = None
        self.first, self.last = 0, 0

    def look_up(self, name: str) -> Optional[Name]:
        """What a name means in this scope."""
        scope: Optional[Scope] = self
        while scope is not None:
            if name in scope.names:
                return scope.names[name]
            scope = scope.outer
        return None

    def is_inside(self, other: "Scope") -> bool:
        """Whether this is the other scope or one inside it."""
        scope: Optional[Scope] = self
        while scope is not None and scope is not other:
            scope = scope.outer
        return scope is other

    def innermost(self) -> "Scope":
        """The innermost program, procedure or function that has this scope."""
        scope = self
        while scope.what == "forall" and scope.outer is not None:
            scope = scope.outer
        return scope


FUNCTIONS = ("abs", "sqr", "odd", "ord", "chr", "succ", "pred", "eof", "eoln")
PROCEDURES = ("read", "readln", "write", "writeln", "open", "send", "receive")


def standard_scope() -> Scope:
    """The names that are there before the program."""
    scope = Scope(None, "standard", "", (1, 1))

    def declare(what: str, name: str, kind: Optional[Type]) -> None:
        declared = scope.names[name] = Name(what, name, scope, (1, 1))
        declared.kind = kind

    for kind in (INTEGER, BOOLEAN, CHAR):
        declare("type", kind.name, kind)
    for name, kind in (("false", BOOLEAN), ("true", BOOLEAN), ("maxint", INTEGER)):
        declare("const", name, kind)
        scope.names[name].stands_for = str(MAXINT) if name == "maxint" else name
    for name in FUNCTIONS + PROCEDURES:
        declare("standard", name, None)
    return scope
