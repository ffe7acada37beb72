"""The processes that are there, for tests of what a signal has to end."""
from __future__ import annotations

from pathlib import Path


def calls_of(path: str) -> list[str]:
    """The numbers of the processes that have a path among their words."""
    found = []
    for words in Path("/proc").glob("[0-9]*/cmdline"):
        try:
            if path.encode() in words.read_bytes():
                found.append(words.parent.name)
        except OSError:
            pass
    return found
