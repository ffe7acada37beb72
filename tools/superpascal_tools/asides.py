"""Calls of the program beside the editor: each can be cut off, and one that hangs or dies is made again."""
from __future__ import annotations

import os
import re
import shutil
import subprocess
import tempfile
import threading
from typing import Callable, Optional, Sequence

from .calls import Calls
from .documents import Dropped, Text
from .program import BUILT, Answer, Caller
from .errors import NO_PROGRAM, ToolError

SECONDS = 30.0
TRIES = 2
KINDS = dict(zip(("proved", "unproved", "unproved, with checks of each access to memory"), BUILT))


class Found(Caller):
    """The program as the tools find it, without the script `superpascal` between; `tell` is called when that script
    has to compile it first."""

    def __init__(self, path: Optional[str], tell: Callable[[str], None]) -> None:
        self.tell = tell
        super().__init__(path)
        script = os.path.realpath(shutil.which(self.path) or self.path)
        folder = os.path.dirname(script)
        if os.path.isfile(os.path.join(folder, "launcher", "program.sh")):
            self.path = self.behind(script, folder)

    def behind(self, script: str, folder: str) -> str:
        """The program that the script in this folder runs."""
        installed = os.path.join(folder, "program")
        if os.access(installed, os.X_OK):
            return installed
        for _ in range(2):
            got = subprocess.run([script, "--version"], stdin=subprocess.DEVNULL, capture_output=True, check=False)
            for line in got.stdout.decode("utf-8", "replace").splitlines():
                head, _, kind = line.partition(": ")
                if head == "program" and kind in KINDS:
                    return os.path.join(folder, KINDS[kind])
            self.build()
        return script

    def build(self) -> None:
        self.tell("the program is not compiled yet: it is compiled now, which takes some minutes")
        super().build()


class Aside(Caller):
    """Calls for one question about a text. `cut` ends those that run, and lets none begin.

    A call that takes longer than `seconds`, or is ended by a signal, is made again, up to `tries` calls in all.
    """

    # pylint: disable-next=super-init-not-called
    def __init__(self, path: str, tries: int = TRIES, seconds: float = SECONDS) -> None:
        self.path, self.tries, self.seconds, self.calls = path, tries, seconds, Calls()

    def run(self, words: Sequence[str], data: bytes) -> tuple[int, bytes, str]:
        status: Optional[int] = None
        for _ in range(self.tries):
            try:
                status, output, notes, _ = self.calls([self.path, *words], data, self.seconds)
            except KeyboardInterrupt:
                raise Dropped() from None
            if self.calls.stopped:
                raise Dropped()
            if status is not None and status >= 0:
                break
        if status is None:
            raise ToolError(NO_PROGRAM, "the program did not end in %g seconds" % self.seconds)
        return status, output, notes

    def cut(self) -> None:
        """There is a newer question."""
        self.calls.stop()


class Room:
    """A folder for the texts that the program is asked about."""

    def __init__(self) -> None:
        self.folder = tempfile.TemporaryDirectory(prefix="superpascal-")
        self.lock = threading.Lock()
        self.count = 0

    def unnamed(self, line: str, name: str) -> str:
        """A line, with this name instead of a file of the folder."""
        return re.sub(re.escape(self.folder.name) + r"/\d+\.sp", lambda _: name, line)

    def ask(self, command: str, data: bytes, caller: Caller, before: Sequence[str] = ()) -> Answer:
        """What this command of the program says of a text; these words stand before it."""
        with self.lock:
            self.count += 1
            path = os.path.join(self.folder.name, "%d.sp" % self.count)
        try:
            with open(path, "wb") as file:
                file.write(data)
            return caller([*before, command, "--", path])
        except OSError as error:
            raise ToolError(NO_PROGRAM, "cannot write %s: %s" % (path, error.strerror)) from None
        finally:
            if os.path.exists(path):
                os.unlink(path)


Look = Callable[[Text, Callable[[Aside], None]], None]


class Watch(threading.Thread):
    """Looks at each state of a document that stands for a moment, the first one at once.

    A newer state cuts off the calls of the look at an older one, which it has named to `hold`.
    """

    def __init__(self, look: Look, delay: float) -> None:
        super().__init__(daemon=True)
        self.look, self.delay = look, delay
        self.news = threading.Condition()
        self.text: Optional[Text] = None
        self.seen: Optional[Text] = None
        self.is_first, self.is_closed = True, False
        self.caller: Optional[Aside] = None

    def show(self, text: Text) -> None:
        """There is a new state."""
        with self.news:
            self.text = text
            self.drop()

    def close(self) -> None:
        """The document is closed."""
        with self.news:
            self.is_closed = True
            self.drop()

    def drop(self) -> None:
        """Cuts off what is asked about an older state."""
        if self.caller is not None:
            self.caller.cut()
        self.news.notify()

    def settled(self) -> Optional[Text]:
        """Waits for a new state that has stood for the delay; nothing if the document is closed."""
        with self.news:
            while not self.is_closed:
                text = self.text
                if text is self.seen or text is None:
                    self.news.wait()
                elif self.is_first or not self.news.wait_for(lambda: self.is_closed or self.text is not text,
                                                             self.delay):
                    self.is_first, self.seen = False, text
                    return text
        return None

    def run(self) -> None:
        while True:
            text = self.settled()
            if text is None:
                return
            self.look(text, self.hold)

    def hold(self, caller: Aside) -> None:
        """These calls belong to the state that is looked at."""
        with self.news:
            self.caller = caller
            if self.is_closed or self.text is not self.seen:
                caller.cut()
