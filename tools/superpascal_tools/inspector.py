"""Looks up names of a program in a state that `where` tells: calls, variables, and which variable holds a channel."""
from __future__ import annotations

from typing import Iterator, NamedTuple, Optional

from .outline import Outline
from .scopes import Name, Scope, Type
from .states import Frame, Process, State
from .values import Value, channels_in, named_at, order, parsed, short

Range = tuple[int, int]
SHOWN = 40


class Call(NamedTuple):
    """A call that has not returned, or another frame of a process: the process, what it is of, and the frame."""

    holder: Process
    scope: Optional[Scope]
    frame: Frame


class Variable(NamedTuple):
    """A variable as a statement has it: its spelling with the indices that are known, its type, its value if that is
    known, and its last token."""

    spelled: str
    kind: Optional[Type]
    value: Value
    last: int


class Inspector:
    """A program and a state of its run."""

    def __init__(self, outline: Outline, state: State) -> None:
        self.outline, self.state, self.tokens = outline, state, outline.tokens
        self.token_at = {token.place: at for at, token in enumerate(outline.tokens)}
        self.callees = dict(outline.called)
        self.changed = {declared for _, declared, target in outline.uses if target}
        self.stacks: dict[str, tuple[list[Call], list[Frame]]] = {}

    # Calls.
    def stack(self, process: Process) -> tuple[list[Call], list[Frame]]:
        """The own calls of a process, the innermost first, and what moved to it of its ancestors'."""
        found = self.stacks.get(process.name)
        if found is None:
            own = len(process.frames)
            if process.name != "0":
                moved = (at for at, it in enumerate(process.frames) if it.place is None and it.block != "forall")
                own = next(moved, own)
            calls = [Call(process, self.scope_of(process, frame), frame) for frame in process.frames[:own]]
            found = self.stacks[process.name] = (calls, process.frames[own:])
        return found

    def scope_of(self, process: Process, frame: Frame) -> Optional[Scope]:
        """What an own frame is of."""
        if frame.place is not None:
            return self.callees.get(self.token_at[frame.place])
        if frame.block != "forall":
            return self.outline.main
        parent = self.parent(process)
        index = self.outline.named.get(self.token_at[parent.place] + 1) if parent is not None else None
        return index.block if index is not None else None

    def parent(self, process: Process) -> Optional[Process]:
        """The process that started this one; it waits for it."""
        return self.state.get(process.name.rpartition("/")[0])

    def chain(self, process: Optional[Process]) -> Iterator[Call]:
        """The calls that lead to the place of a process, the innermost first, also those of its ancestors."""
        while process is not None:
            yield from self.stack(process)[0]
            process = self.parent(process)

    def call_text(self, call: Call) -> str:
        """A call as it would be written, with the values of its arguments; `i = 2` for an index of a forall."""
        scope, frame = call.scope, call.frame
        if scope is None or frame.place is None:
            return ", ".join("%s = %s" % (name, short(value, SHOWN)) for name, value in frame.values.items())
        words, given = [], self.arguments(self.token_at[frame.place])
        for formal, (first, last) in zip(scope.formals, given):
            value, actual = frame.values.get(formal.name), self.outline.spelled(first, last)
            if formal.what == "byvar":
                words.append("var " + actual)
            elif value is None or formal in self.changed or value[:1] in ("[", "("):
                words.append(actual)
            else:
                words.append(self.shown(value))
        return "%s(%s)" % (scope.name, ", ".join(words)) if words else scope.name

    def arguments(self, at: int) -> list[Range]:
        """The tokens of each argument of the call whose name this token is."""
        return self.parts_in(at + 1) if self.tokens[at + 1].word == "(" else []

    def parts_in(self, at: int) -> list[Range]:
        """The tokens of each part in the brackets or parentheses that open at this token."""
        found: list[Range] = []
        deep, first, at = 0, at + 1, at + 1
        while self.tokens[at].kind != "end":
            word = self.tokens[at].word if self.tokens[at].kind == "sign" else ""
            if deep == 0 and word in (",", ")", "]"):
                found.append((first, at))
                first = at + 1
                if word != ",":
                    break
            deep += (word in ("(", "[")) - (word in (")", "]"))
            at += 1
        return found

    # Variables.
    def value(self, process: Process, declared: Name) -> Optional[str]:
        """The value of a variable that a process sees, if it is known."""
        return self.value_in(list(self.chain(process)), process, declared)

    def value_in(self, calls: list[Call], process: Process, declared: Name) -> Optional[str]:
        """The same, by these calls."""
        for number, (_, scope, frame) in enumerate(calls):
            if scope is declared.block and declared.name in frame.values:
                value = frame.values[declared.name]
                if value is None:
                    value = self.moved_value(process, declared)
                if value is None and declared.what == "byvar" and frame.place is not None:
                    given = self.arguments(self.token_at[frame.place])[declared.block.formals.index(declared)]
                    actual = self.outline.named.get(given[0])
                    if actual is not None and given[1] - given[0] == 1:
                        return self.value_in(calls[number + 1:], process, actual)
                return value
        return None

    def moved_value(self, process: Optional[Process], declared: Name) -> Optional[str]:
        """The value of a variable that moved to a process, or to one of its ancestors."""
        while process is not None:
            for frame in self.stack(process)[1]:
                value = frame.values.get(declared.name) if frame.block == declared.block.name else None
                if value is not None:
                    return value
            process = self.parent(process)
        return None

    def simple(self, process: Process, first: int, last: int) -> Optional[str]:
        """The value of a literal, a constant or a plain variable; none of another expression."""
        token, declared = self.tokens[first], self.outline.named.get(first)
        if last - first != 1:
            return None
        if token.kind in ("number", "text"):
            return token.word
        if declared is not None and declared.what == "const":
            return declared.stands_for
        if declared is not None and declared.what in ("var", "byvar", "index"):
            value = self.value(process, declared)
            return None if value == "undefined" else value
        return None

    def variable(self, process: Process, first: int) -> Optional[Variable]:
        """The variable that begins at this token."""
        declared = self.outline.named.get(first)
        if declared is None or declared.what not in ("var", "byvar", "index"):
            return None
        spelled, kind, value = declared.name, declared.kind, parsed(self.value(process, declared))
        at = first + 1
        while self.tokens[at].word in ("[", ".") and kind is not None:
            if self.tokens[at].word == ".":
                field = self.tokens[at + 1].word
                spelled += "." + field
                value = value.get(field) if isinstance(value, dict) else None
                kind = kind.fields[field].kind if field in kind.fields else None
                at += 2
                continue
            for begun, end in self.parts_in(at):
                index = self.simple(process, begun, end)
                spelled += "[%s]" % (index if index is not None else self.outline.spelled(begun, end))
                value = self.element(value, kind, index)
                kind = kind.element if kind is not None else None
                at = end
            at += 1
        return Variable(spelled, kind, value, at)

    def element(self, value: Value, kind: Optional[Type], index: Optional[str]) -> Value:
        """The element of an array at an index."""
        low = order(kind.limits[0], kind.index) if kind is not None and kind.form == "array" else None
        number = order(index, kind.index) if index is not None and kind is not None else None
        if not isinstance(value, list) or low is None or number is None or not 0 <= number - low < len(value):
            return None
        return value[number - low]

    # Channels.
    def shown(self, value: str, most: int = SHOWN) -> str:
        """A value; a channel by the variable that it was opened in."""
        return self.channel_variable(value) or value if channels_in(value) else short(value, most)

    def channel_variable(self, channel: str) -> str:
        """The variable of its owner, or of an ancestor of that, in which a channel is; nothing if none is known."""
        owner: Optional[Process] = self.state.get(channel.partition("#")[0])
        name = channel.partition("#")[0]
        while owner is None and name:
            name = name.rpartition("/")[0]
            owner = self.state.get(name)
        for with_formals in (False, True):
            process = owner
            while process is not None:
                calls, moved = self.stack(process)
                for scope, frame in [(it.scope, it.frame) for it in reversed(calls)] + [(None, it) for it in moved]:
                    found = self.place_in(scope, frame, channel, with_formals)
                    if found:
                        return found
                process = self.parent(process)
        return ""

    def place_in(self, scope: Optional[Scope], frame: Frame, channel: str, with_formals: bool) -> str:
        """The variable of a frame that holds a channel, with its indices."""
        for name, text in frame.values.items():
            if text is None or channel not in text:
                continue
            scopes = [scope] if scope is not None else [it for it in self.outline.blocks if it.name == frame.block]
            declared = next((it.names[name] for it in scopes if name in it.names), None)
            if declared is None or declared in declared.block.formals and not with_formals:
                continue
            path = path_of(parsed(text), declared.kind, channel)
            if path is not None:
                return name + path
        return ""


def path_of(value: Value, kind: Optional[Type], channel: str) -> Optional[str]:
    """The indices and fields that lead to a channel in a value."""
    if value == channel:
        return ""
    if isinstance(value, list) and kind is not None:
        low = order(kind.limits[0], kind.index)
        for number, it in enumerate(value):
            rest = path_of(it, kind.element, channel)
            if rest is not None:
                return "[%s]%s" % ("?" if low is None else named_at(low + number, kind.index), rest)
    if isinstance(value, dict) and kind is not None:
        for name, it in value.items():
            rest = path_of(it, kind.fields[name].kind if name in kind.fields else None, channel)
            if rest is not None:
                return "." + name + rest
    return None
