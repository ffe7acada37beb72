"""What ends a tool: one line on standard error and a status of its own."""
from __future__ import annotations

import os
import signal
import sys
from typing import Callable, NoReturn

BAD_WORDS = 20
NO_PROGRAM = 21
NO_FILE = 22
BAD_JOURNAL = 23
UNFIT = 24
REFUSED = 25
NO_MEMORY = 26
STOPPED = 27
UNFORESEEN = 28

# The program refuses an input and a file that is longer; a record of a run has an index before each entry.
LONGEST_INPUT = 16_777_216
LONGEST_FILE = 67_108_864
LONGEST_RECORD = 4 * LONGEST_FILE

STATUSES = """statuses of the tool itself (those of the program, 0 to 10, are passed on):
  20  the words ask for nothing that the tool does
  21  the program is missing, or cannot be run
  22  a file cannot be read or written
  23  what should be a journal is none, or is cut off in a line
  24  the journal does not fit this text and input
  25  the text breaks a rule, so that it cannot be followed
  26  out of memory
  27  stopped by Ctrl-C
  28  the tool cannot do it, and this is a mistake in the tool
"""

UNPROVED = """Nothing is proved about this tool. Places, calls, values and ends are the answers of the program.
"""


class ToolError(Exception):
    """Ends the tool with one line and a status."""

    def __init__(self, status: int, line: str) -> None:
        super().__init__(line)
        self.status = status


class Unfit(ToolError):
    """The entry at this index is not one that the text makes there."""

    def __init__(self, index: int, why: str) -> None:
        super().__init__(UNFIT, "the journal does not fit this text and input: entry %d: %s" % (index, why))
        self.index, self.why = index, why


def read_file(path: str, longest: int = LONGEST_FILE) -> bytes:
    """The bytes of a file, or of one that is too long the first ones."""
    try:
        with open(path, "rb") as file:
            return file.read(longest + 1)
    except OSError as error:
        raise ToolError(NO_FILE, "cannot read %s: %s" % (path, error.strerror)) from None


def write_file(path: str, text: bytes) -> None:
    """Writes a file, or standard output if the path is `-`."""
    if path == "-":
        put_out(text)
        return
    try:
        with open(path, "wb") as file:
            file.write(text)
    except OSError as error:
        raise ToolError(NO_FILE, "cannot write %s: %s" % (path, error.strerror)) from None


def put_out(text: bytes) -> None:
    """Writes to standard output; a reader that has gone is no error."""
    try:
        sys.stdout.buffer.write(text)
        sys.stdout.buffer.flush()
    except BrokenPipeError:
        hush()
    except OSError as error:
        hush()
        raise ToolError(NO_FILE, "cannot write the output: %s" % error.strerror) from None


def read_input(longest: int = LONGEST_INPUT) -> bytes:
    """The standard input, or of one that is too long the first bytes; nothing if it is closed."""
    if sys.stdin is None or sys.stdin.closed:
        return b""
    try:
        return sys.stdin.buffer.read(longest + 1)
    except OSError as error:
        raise ToolError(NO_FILE, "cannot read the input: %s" % error.strerror) from None


def hush() -> None:
    """Nobody reads standard output any more: what is left for it goes nowhere."""
    os.dup2(os.open(os.devnull, os.O_WRONLY), 1)


def say(text: str) -> None:
    """Writes to standard error, whatever letters its locale has; a reader that has gone is no error."""
    try:
        sys.stderr.flush()
        sys.stderr.buffer.write(text.encode("utf-8", "replace"))
        sys.stderr.buffer.flush()
    except OSError:
        pass


def leave(number: int, _frame: object) -> NoReturn:
    """A signal ends the tool with all that it has started: calls of the program, and files for them."""
    sys.exit(128 + number)


def ended(name: str, main: Callable[[list[str]], int], usage: str) -> int:
    """The status of a tool: its own or the program's if it went well, else that of the error, reported in one line."""
    sys.setrecursionlimit(10_000)
    for number in (signal.SIGTERM, signal.SIGHUP):
        if signal.getsignal(number) is signal.SIG_DFL:
            signal.signal(number, leave)
    try:
        if sys.argv[1:2] in (["--help"], ["-h"], ["help"]):
            put_out((usage + UNPROVED + "\n" + STATUSES).encode())
            return 0
        return main(sys.argv[1:])
    except ToolError as error:
        said, status = str(error), error.status
    except MemoryError:
        said, status = "out of memory", NO_MEMORY
    except KeyboardInterrupt:
        said, status = "stopped", STOPPED
    except Exception as error:  # pylint: disable=broad-except
        if os.environ.get("SUPERPASCAL_TOOLS_TRACE"):
            raise
        said, status = "cannot do it (%s: %s)" % (type(error).__name__, str(error)[:200]), UNFORESEEN
    say("%s: %s\n" % (name, said))
    return status
