"""What stands in the input of a program, by the text of both."""
from __future__ import annotations

import re

from .inspector import Inspector
from .scopes import INTEGER
from .tokens import place_of

NUMBER = re.compile(rb"[ \t\f\r\n]*([+-]?)([0-9]*)")


def no_number(inspector: Inspector, data: bytes) -> str:
    """Where no integer begins in an input, if the program reads only integers one after the other; else nothing."""
    outline = inspector.outline
    reads = [at for at, it in outline.named.items() if it.what == "standard" and it.name in ("read", "readln", "eoln")]
    kinds = {outline.given.get(first) for at in reads for first, _ in inspector.arguments(at)}
    if any(outline.named[at].name != "read" for at in reads) or kinds != {INTEGER}:
        return ""
    at = 0
    while True:
        got = NUMBER.match(data, at)
        if got is None or not got[2]:
            break
        at = got.end()
    at = got.end() if got is not None else at
    there = "its end" if at >= len(data) else "'%s'" % chr(data[at]) if 32 <= data[at] <= 126 else "chr(%d)" % data[at]
    return "no integer begins at line %d, column %d of the input: there is %s" % (*place_of(data, at), there)
