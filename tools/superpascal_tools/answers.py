"""What the editor asks about a text: what a name is, which names there are, what a statement changes and uses."""
from __future__ import annotations

import re
from typing import Any, Iterator, Optional

from .asides import Aside, Room
from .documents import Reading, Text
from .occurrences import is_own, name_at
from .scopes import Name, Scope, named
from .tokens import Place

Sets = dict[tuple[Any, ...], tuple[str, str]]
SYMBOLS = {"const": 14, "type": 23, "var": 13, "byvar": 13, "procedure": 12, "function": 12}
PROGRAM = 2
COMPLETIONS = {"const": 21, "type": 22, "field": 5, "procedure": 3, "function": 3, "standard": 3}
VARIABLE = 6
COMMANDS = (("Run", "superpascal.run"), ("Witness", "superpascal.witness"))
LINE = re.compile(r"(implicit \S+|parallel (\d+):(\d+) (\d+)|forall (\d+):(\d+)) targets(.*?) expressions(.*)")
PARTIAL = re.compile(rb"[A-Za-z0-9_]*\Z")


def sets_of(text: Text, caller: Aside, room: Room) -> Sets:
    """The variables of procedures, by number, and of process statements, by place, as `sets` tells them."""
    if text.sets is None:
        found: Sets = {}
        answer = room.ask("sets", text.data, caller)
        lines = answer.output.decode("latin1").splitlines() if answer.status == 0 else []
        for number, line in enumerate(lines):
            got = LINE.fullmatch(line)
            if got:
                both = (", ".join(got[7].split()) or "none", ", ".join(got[8].split()) or "none")
                key = ("implicit", number) if line.startswith("implicit") else \
                    ("parallel", (int(got[2]), int(got[3])), int(got[4])) if got[2] else \
                    ("forall", (int(got[5]), int(got[6])))
                found[key] = both
        text.sets = found
    return text.sets


# Hover.
def hover(text: Text, position: Any, caller: Aside, room: Room, is_marked: bool) -> Optional[dict[str, Any]]:
    """What stands at a position, in words."""
    at = text.token_at(position)
    if at is None:
        return None
    outline, parts = text.outline(), []
    found = name_at(text, position)
    if found is not None:
        parts += name_words(outline, found[1], is_marked)
        if found[1].inner is not None:
            key = ("implicit", outline.blocks.index(found[1].inner) - 1) if found[1].inner in outline.blocks else ()
            parts += set_words(sets_of(text, caller, room).get(key))
    for title, key in statements_at(outline, at, found is not None):
        those = set_words(sets_of(text, caller, room).get(key))
        parts += ["", title, *those] if those else []
    if not parts:
        return None
    return {"contents": {"kind": "markdown" if is_marked else "plaintext", "value": "\n".join(parts).strip()},
            "range": text.range_of(outline.tokens[at])}


def set_words(both: Optional[tuple[str, str]]) -> list[str]:
    """Target variables and expression variables."""
    return ["", "- targets: %s" % both[0], "- expressions: %s" % both[1]] if both else []


def name_words(outline: Reading, declared: Name, is_marked: bool) -> list[str]:
    """The declaration of a name, and what it is."""
    head, tail = ("```superpascal\n", "\n```\n") if is_marked else ("", "")
    what = declared.described()
    if declared.what == "var" and declared in declared.block.formals:
        what = what.replace("a variable", "a value parameter")
    if is_own(declared) and declared.what in ("var", "byvar", "const", "type"):
        what += " of %s" % declared.block.name
    if declared.kind is not None and declared.what not in ("type", "function", "procedure"):
        what += ", %s" % declared.kind
    return [head + declaration(outline, declared) + tail, what]


def declaration(outline: Reading, declared: Name) -> str:
    """A name as it is declared."""
    if declared.inner is not None:
        result = ": %s" % named(declared.kind) if declared.what == "function" else ""
        return "%s %s%s" % (declared.what, declared.inner.heading, result)
    if declared.defined:
        return "%s %s" % (declared.what, declared.defined)
    name = written(outline, declared)
    if declared.what == "program":
        return "program " + name
    by = "var " if declared.what == "byvar" else ""
    return "%s%s: %s" % (by, name, named(declared.kind)) if declared.kind is not None and is_own(declared) else name


def written(outline: Reading, declared: Name) -> str:
    """A name as its declaration writes it."""
    if not is_own(declared):
        return declared.name
    start = outline.starts[declared.place[0] - 1] + declared.place[1] - 1
    return outline.text[start:start + len(declared.name)]


def statements_at(outline: Reading, at: int, is_name: bool) -> Iterator[tuple[str, tuple[Any, ...]]]:
    """The process statements of the `parallel` or `forall` at a token; else, if the token is no name or their first
    one, the innermost one around it. Each with the words for it, and its key in the sets."""
    place = outline.tokens[at].place
    around: list[tuple[int, str, tuple[Any, ...]]] = []
    for begun, parts in outline.parallels:
        for number, (first, last) in enumerate(parts):
            title = "process statement %d of the parallel at %d:%d" % ((number + 1,) + begun)
            if begun == place:
                yield title, ("parallel", begun, number)
            elif first <= at < last and (first == at or not is_name):
                around.append((last - first, title, ("parallel", begun, number)))
    for begun, (first, last) in outline.foralls:
        title = "element statement of the forall at %d:%d" % begun
        if begun == place:
            yield title, ("forall", begun)
        elif first <= at < last and (first == at or not is_name):
            around.append((last - first, title, ("forall", begun)))
    if around and not any(begun == place for begun in begins(outline)):
        yield min(around)[1:]


def begins(outline: Reading) -> list[Place]:
    """The places of all `parallel` and `forall`."""
    return [it[0] for it in outline.parallels] + [it[0] for it in outline.foralls]


# Names.
def completion(text: Text, position: Any) -> list[dict[str, Any]]:
    """The names that are visible at a position; after the `.` of a record its fields."""
    offset = text.offset_at(position)
    before = PARTIAL.sub(b"", text.data[max(0, offset - 200):offset])
    cut = Reading((text.data[:max(0, offset - 200)] + before).decode("latin1"), lambda: text.is_old)
    last = cut.tokens[-2] if len(cut.tokens) > 1 else cut.tokens[-1]
    end = cut.tokens[-1].place
    rest = cut.text[cut.starts[last.place[0] - 1] + last.place[1] - 1:]
    if is_open(cut) or last.kind == "bad" and last.place[0] == end[0]:
        return []
    if rest.startswith("."):
        if last.word != "." or cut.selected_of is None or cut.at < len(cut.tokens) - 1:
            return []
        return [item(cut, it, 0) for it in cut.selected_of.fields.values()]
    found: dict[str, dict[str, Any]] = {}
    scope: Optional[Scope] = cut.block
    depth = 0
    while scope is not None:
        for name, declared in scope.names.items():
            found.setdefault(name, item(cut, declared, depth))
        scope, depth = scope.outer, depth + 1
    return list(found.values())


def is_open(outline: Reading) -> bool:
    """Whether the text ends inside a comment: then the sign that opens it is no part of another token."""
    pairs = zip(outline.tokens, outline.tokens[1:])
    return any(it.kind == "bad" and it.word == "{" for it in outline.tokens) or any(
        one.word == "(" and other.word == "*" and one.place == (other.place[0], other.place[1] - 1)
        for one, other in pairs)


def item(outline: Reading, declared: Name, depth: int) -> dict[str, Any]:
    """A name that may stand there."""
    detail = declaration(outline, declared) if is_own(declared) else declared.described()
    return {"label": written(outline, declared), "kind": COMPLETIONS.get(declared.what, VARIABLE), "detail": detail,
            "sortText": "%03d %s" % (depth, declared.name)}


def symbols(text: Text) -> list[dict[str, Any]]:
    """The declared names of a text, those of a procedure inside it."""
    outline = text.outline()
    if not outline.blocks:
        return []
    first = text.index_of(outline.main.place)
    return [symbol(text, outline.main.name, PROGRAM, first, None) | {
        "range": text.whole(), "children": inner_symbols(text, outline.main)}]


def inner_symbols(text: Text, scope: Scope) -> list[dict[str, Any]]:
    """The names of a scope."""
    found = []
    for declared in scope.names.values():
        at = text.index_of(declared.place)
        one = symbol(text, written(text.outline(), declared), SYMBOLS.get(declared.what, VARIABLE), at, declared.inner)
        if declared.inner is not None:
            one["children"] = inner_symbols(text, declared.inner)
        found.append(one)
    return found


def symbol(text: Text, name: str, kind: int, at: int, inner: Optional[Scope]) -> dict[str, Any]:
    """A name with its range, which for a procedure is the whole of it."""
    tokens = text.outline().tokens
    here = text.span(tokens[at])
    whole = here
    if inner is not None:
        last = text.span(tokens[inner.last])[1] if inner.last else len(text.data)
        whole = (text.span(tokens[at - 1])[0], last)
    return {"name": name, "kind": kind, "range": text.range(*whole), "selectionRange": text.range(*here)}


def flat(text: Text, those: list[dict[str, Any]], container: str = "") -> list[dict[str, Any]]:
    """The same for an editor that shows a list."""
    found = []
    for one in those:
        found.append({"name": one["name"], "kind": one["kind"], "containerName": container,
                      "location": {"uri": text.uri, "range": one["range"]}})
        found += flat(text, one.get("children", []), one["name"])
    return found


def lenses(text: Text) -> list[dict[str, Any]]:
    """What may be done with the whole program, above its first word."""
    token = text.outline().tokens[0]
    if token.word != "program":
        return []
    return [{"range": text.range_of(token), "command": {"title": title, "command": name, "arguments": [text.uri]}}
            for title, name in COMMANDS]
