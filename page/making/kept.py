"""What stands in a page that was made."""
from __future__ import annotations

import base64
import gzip
import json
import re


def block(page: str, name: str) -> str:
    """What the page has in its block of this name; nothing if there is none."""
    with open(page, encoding="utf-8") as file:
        found = re.search(r'<script id="%s" type="[^"]*">(.*?)</script>' % name, file.read(), flags=re.S)
    return found[1] if found else ""


def about_of(page: str) -> dict:
    """What the page says of what it was made of."""
    return json.loads(block(page, "about") or "{}")


def program_of(page: str) -> bytes:
    """The program in the page, as WebAssembly."""
    return gzip.decompress(base64.b64decode(block(page, "packed-program")))
