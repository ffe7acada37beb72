"""The repository as the checks read it: its crates, their files, and the lines and words of these.

Comments begin with `//` in a file `.rt`, and with `--` in a file `.antt`. Paths are relative to the repository.
"""
from __future__ import annotations

import io
import os
import re
import tokenize
from functools import lru_cache
from typing import Iterator, NamedTuple, Optional

TOP = os.path.dirname(os.path.dirname(os.path.realpath(__file__)))
ANSWERS = ("Answers.antt", "Invariants.antt", "Measure.antt", "Proof.antt")
FOLDERS = ("src", "specs", "proofs")
ROWS = re.compile(r"/proofs/(\w*Rows?|Examples)\.antt$|/sp_scan/proofs/Along\.antt$|/sp_code/proofs/Runs\.antt$"
                  r"|/sp_meaning/proofs/(Faults|Pauses|Reading)\.antt$|/specs/formers/")

COMMENT = {".rt": re.compile(r"(^|\s)//(\s.*)?$"), ".antt": re.compile(r"(^|\s)--(\s.*)?$")}
DOC_COMMENT = re.compile(r"(^|\s)//.*$")
WORD = re.compile(r"[^\s(){}\[\],;]+")
USE = re.compile(r"\s*(pub )?(open )?(ghost )?(?:pub )?use (\S+?)(?:\.\{(.*)\})?(?: as (\S+?))?;?$")
HEAD = re.compile(r"\s*(?:(?:pub|abbrev|unfoldable|opaque)\s+)*(?:(data|record)\s+)?([^\s(){}\[\],;:]+)"
                  r"((?:\s+[({][^(){}]*[)}])*)\s+:(?:\s|$)(.*)$")


class Use(NamedTuple):
    """A line `use`: the path, and the names that it takes from there, each with the one that the file writes."""

    is_given_on: bool
    is_open: bool
    is_ghost: bool
    path: str
    names: Optional[list[tuple[str, str]]]
    alias: Optional[str]

    def written(self) -> list[tuple[str, str]]:
        """The names, or without any the last one of the path."""
        last = self.path.split(".")[-1]
        return [(last, self.alias or last)] if self.names is None else self.names


class Head(NamedTuple):
    """The line in which a definition or a lemma begins: `data` or `record`, its name, operands, and what follows."""

    kind: str
    name: str
    operands: str
    rest: str


@lru_cache(maxsize=None)
def text_of(path: str) -> str:
    """The text of a file."""
    with open(os.path.join(TOP, path), encoding="utf-8") as file:
        return file.read()


def lines_of(path: str) -> list[str]:
    """The lines of a file."""
    return text_of(path).splitlines()


def without_comment(line: str, path: str) -> str:
    """A line of a file of this path without its comment; the comments `///` and `//!` of code stay."""
    return COMMENT[os.path.splitext(path)[1]].sub("", line)


def code_of(line: str, path: str) -> str:
    """A line of a file of this path without any comment."""
    return DOC_COMMENT.sub("", line) if path.endswith(".rt") else without_comment(line, path)


@lru_cache(maxsize=None)
def crates() -> dict[str, list[str]]:
    """Each crate of crates.txt with what it stands on, in this order."""
    lines = [line.split(":") for line in lines_of("crates.txt") if line.strip() and not line.startswith("#")]
    return {head.split()[0]: below.split() for head, below in lines}


def is_there(path: str) -> bool:
    """Whether a file or a folder is there."""
    return os.path.exists(os.path.join(TOP, path))


def names_in(folder: str) -> list[str]:
    """The names in a folder, sorted; none if there is no folder."""
    path = os.path.join(TOP, folder)
    return sorted(os.listdir(path)) if os.path.isdir(path) else []


@lru_cache(maxsize=None)
def files() -> list[str]:
    """All files of code, definitions and proofs."""
    found = []
    for folder, below, names in os.walk(os.path.join(TOP, "crates")):
        below[:] = sorted(name for name in below if name not in ("out", "data", "must-fail"))
        found += [os.path.relpath(os.path.join(folder, name), TOP) for name in sorted(names)
                  if name.endswith((".rt", ".antt"))]
    return found


def is_answer(path: str) -> bool:
    """Whether a file has answers of a proof by hand, which are found by the name of their function."""
    return path.endswith(ANSWERS)


def is_of_rows(path: str) -> bool:
    """Whether a file has rows: worked examples that are computed when they are checked."""
    return bool(ROWS.search("/" + path))


def module_of(path: str) -> str:
    """The module of a file of definitions or proofs, without the name of its library; of one of code its crate."""
    parts = path.removesuffix(".antt").split("/")[1:]
    return ".".join(parts) if path.endswith(".antt") else parts[0]


def words_of(line: str) -> list[str]:
    """The words of a line, which blanks and brackets part."""
    return WORD.findall(line)


def use_of(line: str) -> Optional[Use]:
    """What a line `use` says; None for another line."""
    found = USE.match(line)
    if not found:
        return None
    is_given_on, is_open, is_ghost, path, names, alias = found.groups()
    pairs = None
    if names is not None:
        parts = [name.strip().split(" as ") for name in names.split(",")]
        pairs = [(part[0].strip(), part[-1].strip()) for part in parts]
    return Use(bool(is_given_on), bool(is_open), bool(is_ghost), path, pairs, alias)


def head_of(line: str) -> Optional[Head]:
    """The head of a definition or a lemma that begins in this line; None if none does."""
    found = HEAD.match(line)
    return Head(found.group(1) or "", *found.groups()[1:]) if found else None


def opening_comment(path: str) -> list[str]:
    """The lines of the comment with which a file begins, without their marks."""
    mark = "//!" if path.endswith(".rt") else "--"
    found = []
    for line in lines_of(path):
        if not line.startswith(mark):
            break
        found.append(line[len(mark):][1:])
    return found


def python_words(path: str) -> Iterator[tuple[int, str]]:
    """Each comment and each text of a Python file, line by line, with the number of the line."""
    for token in tokenize.generate_tokens(io.StringIO(text_of(path)).readline):
        if token.type in (tokenize.COMMENT, tokenize.STRING):
            for offset, line in enumerate(token.string.split("\n")):
                yield token.start[0] + offset, line
