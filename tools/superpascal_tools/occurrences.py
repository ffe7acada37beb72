"""Which name of a text is which: its declaration, its occurrences, and another name for it."""
from __future__ import annotations

from typing import Any, Optional

from .documents import Reading, Text
from .messages import FAILED, Bad
from .scopes import Name
from .tokens import tokens_of


def name_at(text: Text, position: Any) -> Optional[tuple[int, Name]]:
    """The name at a position, with the index of its token."""
    at = text.token_at(position)
    declared = text.outline().named.get(at) if at is not None else None
    return None if at is None or declared is None else (at, declared)


def is_own(declared: Name) -> bool:
    """Whether the program declares this name, and not the language."""
    return declared.block.outer is not None


def occurrences(outline: Reading, declared: Name) -> list[int]:
    """The indices of the tokens that stand for a name, with that of its declaration."""
    return [at for at, it in outline.named.items() if it is declared]


def location(text: Text, at: int) -> dict[str, Any]:
    """The place of a token."""
    return {"uri": text.uri, "range": text.range_of(text.outline().tokens[at])}


def definition(text: Text, position: Any) -> Optional[dict[str, Any]]:
    """Where the name at a position is declared."""
    found = name_at(text, position)
    return location(text, text.index_of(found[1].place)) if found and is_own(found[1]) else None


def references(text: Text, position: Any, with_declaration: bool) -> list[dict[str, Any]]:
    """The occurrences of the name at a position."""
    found = name_at(text, position)
    if found is None:
        return []
    begun = text.index_of(found[1].place) if is_own(found[1]) else -1
    those = sorted(occurrences(text.outline(), found[1]))
    return [location(text, at) for at in those if with_declaration or at != begun]


def renamed(text: Text, position: Any) -> tuple[int, Name]:
    """The name at a position, if it may have another name."""
    found = name_at(text, position)
    if found is None:
        raise Bad(FAILED, "here is no name that is declared")
    if not is_own(found[1]):
        raise Bad(FAILED, "%s is %s" % (found[1].name, found[1].described()))
    if not text.outline().whole:
        raise Bad(FAILED, "a text that breaks a rule of characters or grammar is not read to its end, "
                          "so no name of it can be changed")
    return found


def meanings(outline: Reading) -> dict[int, Any]:
    """For each token that is a name: the token of its declaration, or the standard name."""
    places = {token.place: at for at, token in enumerate(outline.tokens)}
    return {at: places[it.place] if is_own(it) else it.name for at, it in outline.named.items()}


def rename(text: Text, position: Any, new: Any) -> tuple[list[dict[str, Any]], Text]:
    """The edits that give a name another one, and the text after them. No name may get another meaning."""
    _, declared = renamed(text, position)
    outline = text.outline()
    if not isinstance(new, str):
        raise Bad(FAILED, "a new name is wanted")
    given = tokens_of(new.encode("utf-8", "replace").decode("latin1"))
    if [it.kind for it in given] != ["name", "end"] or len(given[0].word) != len(new):
        raise Bad(FAILED, "%s is not a name" % new[:40])
    places = sorted(text.span(outline.tokens[at]) for at in occurrences(outline, declared))
    edits = [{"range": text.range(*it), "newText": new} for it in places]
    parts, last = [], 0
    for first, end in places:
        parts += [text.data[last:first], new.encode()]
        last = end
    after = Text(text.uri, text.version, b"".join(parts + [text.data[last:]]))
    old, now = meanings(outline), meanings(after.outline())
    for at in sorted(set(old) | set(now)):
        if old.get(at) != now.get(at):
            token = outline.tokens[at]
            raise Bad(FAILED, "with the name %s, %s at %d:%d would mean something else" % (
                new, token.word, *token.place))
    return edits, after
