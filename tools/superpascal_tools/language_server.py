"""tools/language_server: errors in an editor while one types, and more, by the Language Server Protocol."""
from __future__ import annotations

import queue
import signal
import sys
import threading
import weakref
from typing import Any, Callable, Optional

from . import diagnoses
from .asides import SECONDS, TRIES, Aside, Found, Room, Watch
from .documents import SAFE, Dropped, Text
from .messages import (BAD_PARAMS, CANCELLED, CHANGED, FAILED, INTERNAL, INVALID_REQUEST, NO_METHOD, NOT_BEGUN, Bad,
                       Reader, Writer)
from .program import take_option
from .questions import CAPABILITIES, INFO, QUESTIONS, WARNING, Desk
from .errors import BAD_WORDS, ToolError

HELP = """usage: tools/language_server [--program PROGRAM]
Speaks the Language Server Protocol over standard input and output: an editor starts it (docs/EDITORS.md). It shows the
first broken rule while one types, formats, renames, and says what names are and what process statements change and use.

What is refused, formatted and which variables a statement changes is the answer of the program: PROGRAM, else the one
that SUPERPASCAL names, else ./superpascal of this repository.

"""
DELAY = 0.2
LARGE = 100_000
ERROR = 1


def main(words: list[str]) -> int:
    """Serves one editor to its end."""
    path = take_option(words, "--program")
    if words not in ([], ["--stdio"]):
        raise ToolError(BAD_WORDS, "no word %s is known; --help lists them" % words[0])
    signal.signal(signal.SIGTERM, lambda *_: sys.exit(1))
    return Server(path, Reader(0), Writer(1)).serve()


def number_in(value: Any, default: float) -> float:
    """A number of the editor's options, if it is one."""
    return value if isinstance(value, (int, float)) and 0 < value <= 10_000 else default


def unforeseen(error: Exception) -> Bad:
    """A mistake in the server, as it is answered."""
    return Bad(INTERNAL, "%s: %s" % (type(error).__name__, str(error)[:200]))


class Server:
    """One editor and its texts. Messages are taken in their order; questions are answered by a thread of their own."""

    def __init__(self, path: Optional[str], reader: Reader, writer: Writer) -> None:
        self.path, self.reader, self.writer = path, reader, writer
        self.texts: dict[str, Text] = {}
        self.watches: dict[str, Watch] = {}
        self.room, self.delay, self.seconds = Room(), DELAY, SECONDS
        self.can: dict[str, Any] = {}
        self.begun = self.shut = self.ended = False
        self.waiting: set[Any] = set()
        self.cancelled: set[Any] = set()
        self.questions: queue.SimpleQueue[tuple[Any, str, dict[str, Any], Text]] = queue.SimpleQueue()
        self.lock, self.showing, self.finding = threading.Lock(), threading.Lock(), threading.Lock()
        self.program: Optional[Found] = None
        self.error = ""
        self.asides: weakref.WeakSet[Aside] = weakref.WeakSet()
        self.desk = Desk(self.aside, self.room, self.has, self.say)
        threading.Thread(target=self.work, daemon=True).start()

    # Messages.
    def serve(self) -> int:
        """Takes messages up to `exit` or the end of the input; the status is 0 if the editor has shut down before."""
        try:
            while True:
                try:
                    if self.take(self.reader.next()):
                        break
                except Bad as bad:
                    self.writer.refuse(None, bad)
        except EOFError:
            pass
        finally:
            with self.lock:
                self.ended = True
                for aside in list(self.asides):
                    aside.cut()
            self.room.folder.cleanup()
        return 0 if self.shut else 1

    def take(self, message: Any) -> bool:
        """Does what a message says; true if it is the last one."""
        if not isinstance(message, dict):
            raise Bad(INVALID_REQUEST, "a message is an object")
        number, method, params = message.get("id"), message.get("method"), message.get("params")
        if not isinstance(method, str):
            if "result" not in message and "error" not in message:
                self.writer.refuse(number, Bad(INVALID_REQUEST, "a message has a method"))
            return False
        try:
            params = {} if params is None else params
            if not isinstance(params, dict):
                raise Bad(BAD_PARAMS, "the parameters of %s are an object" % method)
            if "id" in message:
                self.ask(number, method, params)
            elif method == "exit":
                return True
            elif self.begun:
                self.note(method, params)
        except Exception as error:  # pylint: disable=broad-except
            bad = error if isinstance(error, Bad) else unforeseen(error)
            if "id" in message:
                self.writer.refuse(number, bad)
            else:
                self.writer.tell("window/logMessage", {"type": WARNING, "message": "%s: %s" % (method, bad)})
        return False

    def ask(self, number: Any, method: str, params: dict[str, Any]) -> None:
        """A request: what is quick is answered here."""
        if not isinstance(number, (int, str)):
            raise Bad(INVALID_REQUEST, "the id of a request is a number or a string")
        if method == "initialize":
            self.writer.answer(number, self.initialize(params))
        elif not self.begun:
            raise Bad(NOT_BEGUN, "the first request is initialize")
        elif self.shut:
            raise Bad(INVALID_REQUEST, "after shutdown comes exit")
        elif method == "shutdown":
            self.shut = True
            self.writer.answer(number, None)
        elif method == "workspace/executeCommand":
            given = params.get("arguments")
            text = self.text_of(given[0] if isinstance(given, list) and given else None)
            threading.Thread(target=self.answer, args=(number, method, params, text), daemon=True).start()
        elif method in QUESTIONS:
            document = params.get("textDocument")
            text = self.text_of(document.get("uri") if isinstance(document, dict) else None)
            self.waiting.add(number)
            self.questions.put((number, method, params, text))
        else:
            raise Bad(NO_METHOD, "no method %s" % method[:100])

    def initialize(self, params: dict[str, Any]) -> dict[str, Any]:
        """The first request."""
        if self.begun:
            raise Bad(INVALID_REQUEST, "initialize comes once")
        options, can = params.get("initializationOptions"), params.get("capabilities")
        self.can = can if isinstance(can, dict) else {}
        if isinstance(options, dict):
            self.delay = number_in(options.get("delay"), self.delay * 1000) / 1000
            self.seconds = number_in(options.get("seconds"), self.seconds)
        self.begun = True
        return {"capabilities": CAPABILITIES, "serverInfo": {"name": "superpascal"}}

    def has(self, *path: str) -> Any:
        """What the editor says of itself, below these words."""
        found: Any = self.can
        for word in path:
            found = found.get(word) if isinstance(found, dict) else None
        return found

    def text_of(self, uri: Any) -> Text:
        """An open document."""
        text = self.texts.get(uri) if isinstance(uri, str) else None
        if text is None:
            raise Bad(BAD_PARAMS, "no such document is open")
        return text

    def note(self, method: str, params: dict[str, Any]) -> None:
        """A notification."""
        document = params.get("textDocument")
        those = document if isinstance(document, dict) else {}
        uri, version = those.get("uri"), those.get("version")
        version = version if isinstance(version, int) else None
        if method == "$/cancelRequest":
            self.cancelled |= {it for it in list(self.waiting) if it == params.get("id")}
        elif method == "textDocument/didOpen":
            if not isinstance(uri, str) or not isinstance(those.get("text"), str):
                raise Bad(BAD_PARAMS, "a document has a uri and a text")
            self.close(uri)
            self.watches[uri] = Watch(self.look, self.delay)
            self.watches[uri].start()
            self.show(Text(uri, version, those["text"].encode("utf-8", SAFE)))
        elif method == "textDocument/didChange":
            changes = params.get("contentChanges")
            self.show(self.text_of(uri).changed(version, changes if isinstance(changes, list) else [None]))
        elif method == "textDocument/didClose":
            closed = self.text_of(uri)
            self.close(uri)
            self.publish(Text(closed.uri, None, b""), [])

    def show(self, text: Text) -> None:
        """A document has a new state."""
        self.outdate(text.uri)
        self.texts[text.uri] = text
        self.watches[text.uri].show(text)

    def close(self, uri: Any) -> None:
        """A document is no longer open."""
        if uri in self.texts:
            self.outdate(uri)
            del self.texts[uri]
            self.watches.pop(uri).close()

    def outdate(self, uri: str) -> None:
        """The state that a document had is an old one: nothing is shown of it any more."""
        with self.showing:
            if uri in self.texts:
                self.texts[uri].is_old = True

    # The program.
    def aside(self, tool: str = "") -> Aside:
        """Calls for one question, of the program or of this tool; the program is looked for when it is first asked."""
        with self.finding:
            if self.program is None:
                self.program = Found(self.path, self.say)
        with self.lock:
            aside = Aside(tool or self.program.path, 1 if tool else TRIES, self.seconds)
            self.asides.add(aside)
            if self.ended:
                aside.cut()
            return aside

    def say(self, words: str, kind: int = INFO) -> None:
        """A message for the user."""
        self.writer.tell("window/showMessage", {"type": kind, "message": "superpascal: " + words})

    def complain(self, error: Exception) -> None:
        """The program cannot be asked: this is said once, until it can be asked again."""
        words = str(error if isinstance(error, ToolError) else unforeseen(error))
        if words != self.error:
            self.error = words
            self.say(words, ERROR)

    def look(self, text: Text, hold: Callable[[Aside], None]) -> None:
        """Shows what is wrong with a text; of a long one first without the cause."""
        try:
            caller = self.aside()
            hold(caller)
            found = diagnoses.checked(text, caller, self.room)
            self.error = ""
            if found is not None and len(text.data) > LARGE:
                self.publish(text, [diagnoses.diagnostic(text, found, diagnoses.simply(found))])
            said = diagnoses.caused(text, found, caller) if found is not None else None
            self.publish(text, [diagnoses.diagnostic(text, found, said)] if found is not None and said else [])
        except Dropped:
            pass
        except Exception as error:  # pylint: disable=broad-except
            self.complain(error)
            self.publish(text, [])

    def publish(self, text: Text, those: list[dict[str, Any]]) -> None:
        """Shows diagnostics, unless the text is an old one."""
        version = {} if text.version is None else {"version": text.version}
        with self.showing:
            if not text.is_old:
                self.writer.tell("textDocument/publishDiagnostics", {"uri": text.uri, "diagnostics": those, **version})

    # Questions.
    def work(self) -> None:
        """Answers questions in their order."""
        while True:
            self.answer(*self.questions.get())

    def answer(self, number: Any, method: str, params: dict[str, Any], text: Text) -> None:
        """Answers one question, unless it is cancelled or the text has changed."""
        try:
            if number in self.cancelled:
                raise Bad(CANCELLED, "cancelled")
            if text.is_old:
                raise Dropped()
            self.writer.answer(number, QUESTIONS[method](self.desk, text, params))
        except Bad as bad:
            self.writer.refuse(number, bad)
        except Dropped:
            self.writer.refuse(number, Bad(CHANGED, "the text has changed since"))
        except ToolError as error:
            self.writer.refuse(number, Bad(FAILED, str(error)))
        except Exception as error:  # pylint: disable=broad-except
            self.writer.refuse(number, unforeseen(error))
        self.waiting.discard(number)
        self.cancelled.discard(number)
