"""An editor for tests: it speaks the Language Server Protocol to tools/language_server."""
import json
import os
import queue
import re
import subprocess
import threading

from cases import TOP

URI = "file:///text.sp"
CAN = {"textDocument": {"hover": {"contentFormat": ["markdown", "plaintext"]},
                        "documentSymbol": {"hierarchicalDocumentSymbolSupport": True}}}
LATE = 120


class Editor:
    """A server that runs, and what came from it: answers by their id, diagnostics in their order, messages shown."""

    def __init__(self, program, begins=True, delay=0.01, can=None, options=(), **places):
        self.server = subprocess.Popen([os.path.join(TOP, "tools", "language_server")], stdin=subprocess.PIPE,
                                       stdout=subprocess.PIPE, stderr=subprocess.PIPE,
                                       env={**os.environ, "SUPERPASCAL": program, **places})
        self.answers, self.diagnostics, self.said = queue.Queue(), queue.Queue(), []
        self.version, self.count, self.held = 0, 0, {}
        for work in (self.listen, self.hear):
            threading.Thread(target=work, daemon=True).start()
        self.notes = b""
        if begins:
            self.begun = self.ask("initialize", {"capabilities": CAN if can is None else can,
                                                 "initializationOptions": {"delay": delay, **dict(options)}})
            self.tell("initialized", {})

    def hear(self):
        """What the server writes to standard error."""
        for line in self.server.stderr:
            self.notes += line

    def listen(self):
        """Takes what the server sends."""
        while True:
            head = b""
            while not head.endswith(b"\r\n\r\n"):
                got = self.server.stdout.read(1)
                if not got:
                    return
                head += got
            message = json.loads(self.server.stdout.read(int(re.search(rb"\d+", head)[0])))
            if "method" not in message:
                self.answers.put(message)
            elif message["method"] == "textDocument/publishDiagnostics":
                self.diagnostics.put(message["params"])
            else:
                self.said.append(message["params"]["message"])

    def put(self, data):
        """Sends bytes as they are."""
        self.server.stdin.write(data)
        self.server.stdin.flush()

    def send(self, message):
        """Sends a message."""
        body = json.dumps({"jsonrpc": "2.0", **message}).encode()
        self.put(b"Content-Length: %d\r\n\r\n%s" % (len(body), body))

    def tell(self, method, params):
        """Sends a notification."""
        self.send({"method": method, "params": params})

    def begin(self, method, params):
        """Sends a request; gives its id."""
        self.count += 1
        self.send({"id": self.count, "method": method, "params": params})
        return self.count

    def answer(self, number):
        """The answer to the request of this id, which is None for bytes that were no message."""
        while number not in self.held:
            got = self.answers.get(timeout=LATE)
            self.held[got["id"]] = got
        return self.held.pop(number)

    def ask(self, method, params):
        """The result of a request, or its error."""
        got = self.answer(self.begin(method, params))
        return got["error"] if "error" in got else got["result"]

    def about(self, method, line=0, character=0, **others):
        """The answer to a question about the text at a place."""
        return self.ask("textDocument/" + method, {
            "textDocument": {"uri": URI}, "position": {"line": line, "character": character}, **others})

    def open(self, text, uri=URI):
        """Opens a text; gives its diagnostics."""
        self.version += 1
        self.tell("textDocument/didOpen", {"textDocument": {
            "uri": uri, "languageId": "superpascal", "version": self.version, "text": text}})
        return self.shown()

    def change(self, text, place=None):
        """Replaces the text, or the part of it from one position to another."""
        self.version += 1
        change = {"text": text}
        if place:
            change["range"] = {"start": dict(zip(("line", "character"), place[0])),
                               "end": dict(zip(("line", "character"), place[1]))}
        self.tell("textDocument/didChange", {"textDocument": {"uri": URI, "version": self.version},
                                             "contentChanges": [change]})

    def shown(self):
        """The diagnostics of the newest version."""
        while True:
            got = self.diagnostics.get(timeout=LATE)
            if got.get("version") == self.version:
                return got["diagnostics"]

    def end(self):
        """Shuts the server down; gives its status."""
        self.ask("shutdown", None)
        self.tell("exit", None)
        self.server.stdin.close()
        return self.server.wait(timeout=LATE)
