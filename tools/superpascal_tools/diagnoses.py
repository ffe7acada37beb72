"""The answer of `check` as the editor shows it: the first broken rule, at its token, with its cause."""
from __future__ import annotations

import re
from typing import Any, NamedTuple, Optional

from . import rule_pages, refusals
from .asides import Aside, Room
from .documents import Text
from .interference import Said
from .program import Answer
from .tokens import Place
from .errors import NO_PROGRAM, ToolError

ERROR = 1
REFUSED = re.compile(r"refused (\w+) (\d+):(\d+)\n")


class Refusal(NamedTuple):
    """A broken rule and its place."""

    rule: str
    place: Place


def refusal(answer: Answer, accepted: str) -> Optional[Refusal]:
    """The rule that the program names; nothing if its notes are those of a text that is accepted."""
    got = REFUSED.fullmatch(answer.notes)
    if got:
        return Refusal(got[1], (int(got[2]), int(got[3])))
    if answer.status != 0 or answer.notes != accepted:
        raise ToolError(NO_PROGRAM, "the program answers with status %d: %s" % (
            answer.status, answer.notes.strip()[:200] or "no words"))
    return None


def checked(text: Text, caller: Aside, room: Room) -> Optional[Refusal]:
    """The first broken rule of a text, by `check`."""
    return refusal(room.ask("check", text.data, caller), "accepted\n")


def caused(text: Text, found: Refusal, caller: Aside) -> Said:
    """The cause of a refusal, as tools/explain has it in its first line; the rule's sentence if none is known."""
    try:
        said = refusals.cause(text.data, found.rule, found.place, caller, lambda _: text.outline())
    except (ToolError, MemoryError, RecursionError, LookupError, ValueError, OSError):
        said = Said("", [])
    return said if said.words else simply(found)


def simply(found: Refusal) -> Said:
    """The rule's sentence."""
    return Said(refusals.summary(found.rule), [])


def worded(found: Refusal, said: Said) -> str:
    """A refusal in one line, for messages without a place of their own."""
    return "%d:%d: %s (%s)" % (found.place + (said.words, found.rule))


def diagnostic(text: Text, found: Refusal, said: Said) -> dict[str, Any]:
    """A refusal as a diagnostic of the protocol."""
    others = [{"location": {"uri": text.uri, "range": text.refused(place)}, "message": words}
              for place, words in said.others if place != found.place]
    return {"range": text.refused(found.place), "severity": ERROR, "code": found.rule,
            "codeDescription": {"href": rule_pages.link(found.rule)}, "source": "superpascal", "message": said.words,
            **({"relatedInformation": others} if others else {})}
