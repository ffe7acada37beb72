"""The program: where it is, and calls of it."""
from __future__ import annotations

import os
import subprocess
import sys
import tempfile
import time
from typing import Collection, NamedTuple, Optional, Sequence

from .rule_pages import TOP
from .errors import BAD_WORDS, NO_PROGRAM, REFUSED, ToolError, say

BUILT = ("crates/sp_main/out/sp_main", "out/unproved", "out/unproved_checked")
CHATTER = "superpascal: "
# after this number of seconds a call says at a terminal that it goes on
PATIENCE = 2.0


class Limits(NamedTuple):
    """The limits of a run, with the values that the program takes by itself."""

    ticks: int = 10_000_000
    depth: int = 1_000
    cells: int = 4_194_304
    processes: int = 100_000
    channels: int = 100_000
    entries: int = 1_000_000
    output: int = 16_777_216


LIMITS = Limits._fields


class Answer(NamedTuple):
    """What a call of the program gave."""

    status: int
    output: bytes
    notes: str


class Caller:
    """Calls the program: the one that is named, else that of SUPERPASCAL, else ./superpascal of this repository.

    What that script says for itself, in lines that begin with its name, is passed on at once and is none of the notes.
    """

    def __init__(self, path: Optional[str] = None) -> None:
        named = path or os.environ.get("SUPERPASCAL")
        self.path = named or os.path.join(TOP, "superpascal")
        if not named and not any(os.path.exists(os.path.join(TOP, path)) for path in BUILT):
            self.build()
        if os.sep not in self.path:
            self.path = os.path.join(".", self.path) if os.path.exists(self.path) else self.path

    def build(self) -> None:
        """The script ./superpascal builds the program at its first call, and says how far it is."""
        say("the program is not built: ./superpascal builds it now, or SUPERPASCAL names one\n")
        try:
            # pylint: disable-next=consider-using-with
            process = subprocess.Popen([self.path, "check", os.path.join(TOP, "examples/answer.sp")],
                                       stdin=subprocess.DEVNULL, stdout=subprocess.DEVNULL)
        except OSError as error:
            raise ToolError(NO_PROGRAM, "cannot run %s: %s" % (self.path, error.strerror)) from None
        try:
            process.wait()
        finally:
            end(process)

    def run(self, words: Sequence[str], data: bytes) -> tuple[int, bytes, str]:
        """Runs the program once: its status (negative: the signal that ended it), its output and its notes."""
        begun = time.monotonic()
        # pylint: disable-next=consider-using-with
        process = subprocess.Popen([self.path, *words], stdin=subprocess.PIPE, stdout=subprocess.PIPE,
                                   stderr=subprocess.PIPE)
        given: Optional[bytes] = data
        patience = PATIENCE
        try:
            while True:
                try:
                    output, notes = process.communicate(given, timeout=patience)
                    return process.returncode, output, notes.decode("utf-8", "replace")
                except subprocess.TimeoutExpired:
                    given, patience = None, 5 * PATIENCE
                    progress("`superpascal %s` goes on: %d s" % (words[0], time.monotonic() - begun))
        finally:
            end(process)

    def __call__(self, words: Sequence[str], data: bytes = b"") -> Answer:
        try:
            status, output, notes = self.run(words, data)
        except (OSError, ValueError) as error:
            why = error.strerror if isinstance(error, OSError) else str(error)
            raise ToolError(NO_PROGRAM, "cannot run the program %s: %s" % (self.path, why)) from None
        if status < 0:
            raise ToolError(NO_PROGRAM, "the program was ended by signal %d" % -status)
        if CHATTER in notes:
            lines = notes.splitlines(keepends=True)
            say("".join(line for line in lines if line.startswith(CHATTER)))
            notes = "".join(line for line in lines if not line.startswith(CHATTER))
        return Answer(status, output, notes)

    def ran(self, words: Sequence[str], data: bytes = b"", file: str = "") -> Answer:
        """The answer of a call that ran the program of a text; its file is named if that is given."""
        answer = self(words, data)
        if answer.status not in (0, 3, 4):
            said = "the program says%s: %s" % (file and " of " + file, answer.notes.split("\n")[0])
            raise ToolError(REFUSED if answer.status == 1 else BAD_WORDS, said)
        return answer

    def beside(self, words: Sequence[str], text: bytes, data: bytes = b"") -> Answer:
        """The same with a file that has this text as the last word."""
        with tempfile.NamedTemporaryFile(prefix="superpascal-") as file:
            file.write(text)
            file.flush()
            return self([*words, file.name], data)


def end(process: subprocess.Popen[bytes]) -> None:
    """Ends a call that still runs. A script has a moment to end what it has started itself."""
    if process.poll() is None:
        process.terminate()
        try:
            process.communicate(timeout=PATIENCE)
        except subprocess.TimeoutExpired:
            process.kill()
            process.communicate()


def progress(words: str) -> None:
    """Says at a terminal what takes long."""
    if sys.stderr is not None and sys.stderr.isatty():
        say("%s\n" % words)


class Words(NamedTuple):
    """The words of a call of the program: its command, the words that are not options, and the options."""

    command: str
    plain: list[str]
    options: dict[str, str]


def split_words(words: Sequence[str]) -> Words:
    """Takes words apart as the program does, if it accepts them."""
    plain, options, left = [], {}, list(words[1:])
    while left:
        word = left.pop(0)
        if word == "--":
            plain.extend(left)
            break
        if not word.startswith("-"):
            plain.append(word)
            continue
        name, equals, value = word.partition("=")
        options[name] = value if equals else left.pop(0) if left else ""
    return Words(words[0] if words else "", plain, options)


def limits_of(options: dict[str, str]) -> Limits:
    """The limits that the options set."""
    found = {}
    for name in LIMITS:
        value = options.get("--" + name)
        if value is not None:
            try:
                found[name] = int(value)
            except ValueError:
                raise ToolError(BAD_WORDS, "--%s wants a number" % name) from None
    return Limits(**found)


def limit_words(options: dict[str, str]) -> list[str]:
    """The limits among the options, as words of a call."""
    return [word for name, value in options.items() if name[2:] in LIMITS for word in (name, value)]


def take_option(words: list[str], name: str) -> Optional[str]:
    """Takes a leading option with its value from the words."""
    if words and words[0].startswith(name + "="):
        return words.pop(0).split("=", 1)[1]
    if words and words[0] == name:
        if len(words) < 2:
            raise ToolError(BAD_WORDS, "%s wants a value" % name)
        del words[0]
        return words.pop(0)
    return None


def take_options(words: list[str], names: Collection[str]) -> dict[str, Optional[str]]:
    """Takes the leading options of these names, with their values, from the words."""
    taken: dict[str, Optional[str]] = {}
    while words and words[0].split("=")[0] in names:
        name = words[0].split("=")[0]
        taken[name] = take_option(words, name)
    return taken


def take_anywhere(words: list[str], names: Collection[str]) -> dict[str, str]:
    """Takes the options of these names, with their values, out of the words."""
    found: dict[str, str] = {}
    at = 0
    while at < len(words) and words[at] != "--":
        name, equals, value = words[at].partition("=")
        if name not in names:
            at += 1
            continue
        if not equals and at + 1 == len(words):
            raise ToolError(BAD_WORDS, "%s wants a value" % name)
        found[name] = value if equals else words[at + 1]
        del words[at:at + (1 if equals else 2)]
    return found


def number(word: str, name: str) -> int:
    """The number of an option."""
    if not word.isdigit():
        raise ToolError(BAD_WORDS, "%s wants a number" % name)
    return int(word[:18])
