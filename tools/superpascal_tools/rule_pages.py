"""What the pages of docs/ say: rules, faults, words, signs, commands, statuses and limits stand there alone."""
from __future__ import annotations

import os
import re
import textwrap
from functools import lru_cache
from pathlib import Path
from typing import Optional

from .errors import read_file

WIDE = 100
TOP = os.path.dirname(os.path.dirname(os.path.dirname(os.path.realpath(__file__))))


@lru_cache(maxsize=None)
def page(name: str) -> str:
    """A page of docs/."""
    return read_file(os.path.join(TOP, "docs", name)).decode()


def plain(cell: str) -> str:
    """A cell without the marks of its page."""
    return re.sub(r"\[([^\]]*)\]\([^)]*\)", r"\1", cell).replace("`", "").replace("\\|", "|")


def rows(name: str) -> list[list[str]]:
    """The rows of all tables of a page, each as its cells."""
    found = []
    for line in page(name).splitlines():
        if line.startswith("|"):
            found.append([cell.strip() for cell in re.split(r"(?<!\\)\|", line)[1:-1]])
    return found


@lru_cache(maxsize=None)
def rules_and_faults() -> dict[str, list[str]]:
    """The row of each rule and each fault, without its name."""
    return {cells[0]: cells[1:] for cells in rows("LANGUAGE.md") if re.fullmatch(r"[A-Z]\d+", cells[0])}


@lru_cache(maxsize=None)
def link(name: str) -> str:
    """The address of the row of a rule or a fault."""
    lines = enumerate(page("LANGUAGE.md").split("\n"), 1)
    row = next((at for at, line in lines if line.startswith("| %s |" % name)), 1)
    return "%s#L%d" % (Path(TOP, "docs", "LANGUAGE.md").as_uri(), row)


def fault_name(fault: str) -> str:
    """What a fault is called."""
    return plain(rules_and_faults()[fault][0])


def wrapped(text: str, indent: str = "  ") -> str:
    """A text in lines that a terminal can show, the later ones after this indent."""
    return textwrap.fill(text, WIDE, subsequent_indent=indent, break_on_hyphens=False, break_long_words=False) + "\n"


def fault_sentence(fault: str) -> str:
    """When exactly a fault comes."""
    return plain(rules_and_faults()[fault][1])


def sentence(name: str) -> Optional[str]:
    """What the language says of a rule or a fault, with its example."""
    row = rules_and_faults().get(name)
    if row is None:
        return None
    first, second, shown = map(plain, row)
    if name.startswith("F"):
        return wrapped("%s, %s: %s." % (name, first, second)) + "  A smallest program: %s\n" % shown
    return wrapped("%s is broken if %s. Its place: %s." % (name, first, second)) + "  An example: %s\n" % shown


def example(name: str) -> tuple[str, str]:
    """The text of the example of a rule or a fault, and what is said after it; no text if none is whole."""
    cell = rules_and_faults()[name][2]
    got = re.match(r"`(program [^`]*)`((?: at|, in| with| on the input).*|)$", cell)
    return (got[1].replace("\\|", "|"), got[2]) if got else ("", cell)


def spellings() -> list[str]:
    """All words and signs of the language."""
    found = []
    for head in ("Words", "Signs"):
        got = re.search(r"\*\*%s\*\*: `([^`]*)`" % head, page("LANGUAGE.md"))
        found.extend(got[1].replace("\\|", "|").split() if got else [])
    return found


def usage() -> str:
    """The commands of the program, and its options."""
    commands = [cells for cells in rows("COMMANDS.md") if re.match(r"`[a-z]+ [A-Z]", cells[0])]
    options = [cells for cells in rows("COMMANDS.md") if len(cells) == 5 and cells[0].startswith("`--")]
    said = ["the commands:"]
    for cells in commands:
        first = re.split(r"(?<=[a-z])[:;,.] ", plain(cells[1]), maxsplit=1)[0]
        said.append("  %-20s %s" % (plain(cells[0]), first))
    said.append("the options:")
    for cells in options:
        ranged = " (%s; %s to %s)" % tuple(map(plain, cells[2:5])) if cells[3] else " (%s)" % plain(cells[2])
        said.append("  %-20s %s%s" % (plain(cells[0]), plain(cells[1]), ranged))
    return "\n".join(said) + "\n"


def status_sentence(notes: str) -> Optional[str]:
    """What docs/COMMANDS.md says of the status that comes with these notes."""
    for cells in rows("COMMANDS.md"):
        if len(cells) == 3 and cells[0].isdigit():
            line = re.escape(plain(cells[2])).replace("N", "[0-9]+")
            if re.fullmatch(line, notes):
                return "status %s comes %s" % (cells[0], plain(cells[1]))
    return None


def code_rule(name: str) -> Optional[str]:
    """When a rule of code is broken."""
    return next((plain(cells[1]) for cells in rows("CODE.md") if cells[0] == name), None)


@lru_cache(maxsize=None)
def instructions() -> frozenset[str]:
    """The words with which instructions begin."""
    found: set[str] = set()
    for cells in rows("CODE.md"):
        for part in re.findall(r"`([^`]*)`", cells[0]):
            found.update(re.findall(r"\b[a-z]+\b", part))
    return frozenset(found)
