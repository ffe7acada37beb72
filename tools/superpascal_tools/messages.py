"""Messages of the Language Server Protocol over streams of bytes: a head with the length, and then JSON.

After bytes that are not a message, reading goes on at the next head.
"""
from __future__ import annotations

import json
import os
import re
import threading
from typing import Any

HEAD = re.compile(rb"Content-Length:", re.I)
LENGTH = re.compile(rb"Content-Length:[ \t]*([0-9]{1,9})[ \t]*\r?\n", re.I)
KIND = re.compile(rb"\s*(Content-Type:[^\r\n]*\r?\n)?\s*", re.I)
END = re.compile(rb"\r?\n\r?\n")
SHORTEST, LONGEST_HEAD = len("Content-Length:"), 4096
LONGEST = 64 * 1024 * 1024

PARSE_ERROR = -32700
INVALID_REQUEST = -32600
NO_METHOD = -32601
BAD_PARAMS = -32602
INTERNAL = -32603
NOT_BEGUN = -32002
CANCELLED = -32800
CHANGED = -32801
FAILED = -32803


class Bad(Exception):
    """What is answered with an error of the protocol."""

    def __init__(self, code: int, words: str) -> None:
        super().__init__(words)
        self.code = code


class Reader:
    """Reads messages from a file descriptor."""

    def __init__(self, source: int) -> None:
        self.source, self.held, self.is_lost = source, bytearray(), False

    def fill(self) -> None:
        """Waits for more bytes."""
        more = os.read(self.source, 1 << 16)
        if not more:
            raise EOFError()
        self.held += more

    def next(self) -> Any:
        """The next message; EOFError at the end of all. What is no message is raised as `Bad`, and passed over."""
        length = self.head()
        while len(self.held) < length:
            self.fill()
        body = bytes(self.held[:length])
        del self.held[:length]
        try:
            return json.loads(body.decode("utf-8"))
        except (ValueError, RecursionError) as error:
            # (a length that is too great takes in the beginning of the next message)
            self.held[:0] = body
            self.is_lost = True
            raise Bad(PARSE_ERROR, "the message is not JSON: %s" % str(error)[:200]) from None

    def head(self) -> int:
        """Takes the next head, and gives the length that it names. What stands before it is raised once."""
        while not self.find() or END.search(self.held) is None and len(self.held) <= LONGEST_HEAD:
            self.fill()
        end, got = END.search(self.held), LENGTH.match(self.held)
        length = int(got[1]) if end and got else LONGEST + 1
        del self.held[:end.end() if end else SHORTEST]
        self.is_lost = length > LONGEST
        if self.is_lost:
            raise Bad(PARSE_ERROR, "the head of a message has no length that can be")
        return length

    def find(self) -> bool:
        """Passes over what comes before the word that begins the next head; false if more bytes are wanted first."""
        got = HEAD.search(self.held)
        if got is None and len(self.held) <= LONGEST_HEAD:
            return False
        stop = got.start() if got else len(self.held) - SHORTEST
        before = bytes(self.held[:stop])
        del self.held[:stop]
        if not self.is_lost and not KIND.fullmatch(before):
            self.is_lost = True
            raise Bad(PARSE_ERROR, "a message begins with Content-Length: N and an empty line")
        return got is not None


class Writer:
    """Writes messages to a file descriptor, from any thread."""

    def __init__(self, target: int) -> None:
        self.target, self.lock = target, threading.Lock()

    def send(self, message: dict[str, Any]) -> None:
        """Writes one message; a reader that has gone is no error."""
        body = json.dumps({"jsonrpc": "2.0", **message}, ensure_ascii=True).encode("ascii")
        data = b"Content-Length: %d\r\n\r\n%s" % (len(body), body)
        with self.lock:
            try:
                while data:
                    data = data[os.write(self.target, data):]
            except OSError:
                pass

    def tell(self, method: str, params: dict[str, Any]) -> None:
        """Sends a notification."""
        self.send({"method": method, "params": params})

    def answer(self, number: Any, result: Any) -> None:
        """Answers a request."""
        self.send({"id": number, "result": result})

    def refuse(self, number: Any, bad: Bad) -> None:
        """Answers a request with an error."""
        self.send({"id": number, "error": {"code": bad.code, "message": str(bad)}})
