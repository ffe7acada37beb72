"""Calls of programs with limits of time and memory; all of them end at once after Ctrl-C."""
from __future__ import annotations

import os
import signal
import subprocess
import threading
import time
from typing import NamedTuple, Optional, Sequence

from .errors import NO_PROGRAM, ToolError


# in KiB of virtual memory: the program takes 1.5 GiB of it for a small run, most of which is never used
MEMORY = 3 * 1024 * 1024
LIMITED = "ulimit -v %d 2>/dev/null; exec \"$@\"" % MEMORY


class Call(NamedTuple):
    """What a call gave: no status if it was ended by the time limit; a negative one if a signal ended it."""

    status: Optional[int]
    output: bytes
    notes: str
    seconds: float


class Calls:
    """Calls of programs, each in a group of processes of its own, so that all that it started ends with it."""

    def __init__(self) -> None:
        self.lock = threading.Lock()
        self.live: set[subprocess.Popen[bytes]] = set()
        self.stopped = False

    def __call__(self, words: Sequence[str], data: bytes, seconds: float) -> Call:
        """Runs the words on an input; after this number of seconds the call is ended."""
        begun = time.monotonic()
        process = self.start(words)
        status: Optional[int] = None
        try:
            output, notes = process.communicate(data, timeout=seconds)
            status = process.returncode
        except subprocess.TimeoutExpired:
            end_group(process)
            output, notes = process.communicate()
        finally:
            with self.lock:
                self.live.discard(process)
        return Call(status, output, notes.decode("utf-8", "replace"), time.monotonic() - begun)

    def start(self, words: Sequence[str]) -> subprocess.Popen[bytes]:
        """Starts a call, unless all have been ended."""
        with self.lock:
            if self.stopped:
                raise KeyboardInterrupt
            try:
                # pylint: disable-next=consider-using-with
                process = subprocess.Popen(["sh", "-c", LIMITED, "sh", *words], stdin=subprocess.PIPE,
                                           stdout=subprocess.PIPE, stderr=subprocess.PIPE, start_new_session=True)
            except OSError as error:
                raise ToolError(NO_PROGRAM, "cannot run %s: %s" % (words[0], error.strerror)) from None
            self.live.add(process)
            return process

    def stop(self) -> None:
        """Ends all calls, and starts no other."""
        with self.lock:
            self.stopped = True
            for process in self.live:
                end_group(process)


def end_group(process: subprocess.Popen[bytes]) -> None:
    """Ends a call with all processes that it has started."""
    try:
        os.killpg(process.pid, signal.SIGKILL)
    except ProcessLookupError:
        pass
