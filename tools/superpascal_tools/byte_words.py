"""The rules of characters in words: what a byte is, and what to write instead of it."""
from __future__ import annotations

import re

from .tokens import MAXINT, place_of

BYTE_ORDER_MARK = b"\xef\xbb\xbf"
QUOTES = "\u2018\u2019\u201c\u201d\u201e\u201a\u00ab\u00bb"
INSTEAD = {
    '"': "a string stands between single quotes: 'text'",
    "`": "a string stands between single quotes: 'text'",
    "!": "there is no !: not equal is <>, and negation is not",
    "~": "there is no ~: negation is not",
    "&": "there is no &: write and",
    "%": "there is no %: the remainder is mod",
    "#": "there is no #: a char by its number is chr(n)",
    "$": "there is no $: numbers are decimal",
    "\\": "there is no \\: a string has no escapes, and two quotes '' stand for one",
    "_": "a name begins with a letter, not with _",
    "}": "this } closes no comment",
}
NO_JUMPS = "there are no labels and no goto: use while, repeat, if or a procedure"
NO_SETS = "there are no sets: use an array of boolean, or compare with = and or"
REFUSED = {
    "forward": "there is no forward: declare a procedure before its first call, in the order of the calls",
    "goto": NO_JUMPS,
    "label": NO_JUMPS,
    "nil": "there are no pointers, so no nil: use an array and indices",
    "file": "there are no files: read takes the input, write makes the output",
    "set": NO_SETS,
    "in": NO_SETS,
    "with": "there is no with: write the record before each field, as r.x",
    "packed": "there is no packed: write array or record only",
}
MORE = {
    "forward": ["If two procedures call each other, declare one inside the other."],
}


def bytes_words(text: bytes, at: int, rule: str) -> tuple[str, list[str]]:
    """The cause of S1 to S5, U1 and U2 at a byte, and what else helps."""
    if rule == "S1":
        return unknown_byte(text, at)
    if rule == "S2":
        return "this comment has no end: %s is missing" % ("}" if text[at:at + 1] == b"{" else "*)"), []
    if rule == "S3":
        line = text[at:].split(b"\n")[0]
        return "this string does not end in its line: the closing quote ' is missing", (
            ["Two quotes '' stand for one quote inside a string."] if line.count(b"'") > 1 else [])
    if rule == "S4":
        digits = re.match(rb"[0-9]+", text[at:])
        return "the number %s is above maxint, %d" % (short(digits[0] if digits else b""), MAXINT), []
    if rule == "S5":
        name = re.match(rb"[A-Za-z0-9_]+", text[at:])
        return "this name has %d bytes; a name has at most 127" % len(name[0] if name else b""), []
    return not_in_language(text, at, rule)


def short(digits: bytes) -> str:
    """Digits as they are shown; of many the first."""
    return digits.decode() if len(digits) <= 30 else digits[:30].decode() + ".."


def unknown_byte(text: bytes, at: int) -> tuple[str, list[str]]:
    """S1: the byte as a character, and the usual causes."""
    if text[:2] in (b"\xff\xfe", b"\xfe\xff") or text[1:2] == b"\0" or text[:1] == b"\0":
        return "this file is UTF-16: save it as ASCII or UTF-8", []
    if at == 0 and text.startswith(BYTE_ORDER_MARK):
        return "the file begins with a byte order mark: save it without one (as UTF-8 without BOM)", []
    if at == 0 and text[:1] == b"\x1f":
        return "this file is compressed, not the text of a program", []
    if text[at] < 128:
        char = chr(text[at])
        named = INSTEAD.get(char, "the byte %s begins no token" % (char if char.isprintable() else text[at]))
        comment = last_comment(text, at) if char == "}" else None
        if comment:
            named = "comments do not nest: the comment of %d:%d ended at %d:%d" % comment
        return named, []
    for size in (2, 3, 4):
        try:
            char = text[at:at + size].decode("utf-8")
        except UnicodeDecodeError:
            continue
        if char in QUOTES:
            return "the quote %s begins no string: a string stands between single quotes: 'text'" % char, []
        if char.isalpha():
            return "%s is not a letter here: names have the letters a to z, digits and _" % char, []
        if char == "\u00a0":
            return "this is a no-break space; blanks are space, tab and the ends of lines", []
        return "the character %s begins no token" % char, ["Outside strings and comments all characters are ASCII."]
    return "the byte %d begins no token" % text[at], ["Outside strings and comments all characters are ASCII."]


def last_comment(text: bytes, at: int) -> tuple[int, int, int, int] | None:
    """The places at which the last comment before `at` began and ended, if it has a second opening inside."""
    found = None
    for got in re.finditer(rb"'[^'\n]*'|\{[^}]*\}|\(\*.*?\*\)", text[:at], re.S):
        if got[0][:1] != b"'" and got.end() <= at:
            found = got
    if found is None or b"{" not in found[0][1:] and b"(*" not in found[0][1:]:
        return None
    return place_of(text, found.start()) + place_of(text, found.end() - 1)


def not_in_language(text: bytes, at: int, rule: str) -> tuple[str, list[str]]:
    """U1 and U2: what the language leaves out."""
    byte = text[at:at + 1]
    if byte == b"/":
        return "there is no / and there are no real numbers: div divides integers", [
            "For parts of one, count in a smaller unit, as hundredths."]
    if byte in (b"^", b"@"):
        return "there are no pointers, so no %s: use an array and indices" % byte.decode(), []
    if rule == "U2":
        got = re.match(rb"[0-9]+(\.[0-9]+)?([eE][+-]?[0-9]+)?", text[at:])
        return "%s is a real number, and there are no real numbers: use integers" % short(got[0] if got else b""), [
            "For parts of one, count in a smaller unit, as hundredths."]
    got = re.match(rb"[A-Za-z0-9_]+", text[at:])
    word = got[0].decode().lower() if got else ""
    return REFUSED.get(word, "the word %s is refused" % word), MORE.get(word, [])
