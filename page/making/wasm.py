"""Reading and writing parts of WebAssembly modules: numbers, sections, and what a module imports."""
from __future__ import annotations

from typing import Iterator


def read_unsigned(data: bytes, at: int) -> tuple[int, int]:
    """A number of LEB128 and where it ends."""
    value = shift = 0
    while True:
        byte = data[at]
        at += 1
        value |= (byte & 127) << shift
        shift += 7
        if byte < 128:
            return value, at


def read_signed(data: bytes, at: int) -> tuple[int, int]:
    """A signed number of LEB128 and where it ends."""
    value, end = read_unsigned(data, at)
    return value - (1 << 7 * (end - at)) if data[end - 1] & 64 else value, end


def unsigned(value: int) -> bytes:
    """A number as LEB128."""
    out = bytearray()
    while True:
        byte = value & 127
        value >>= 7
        out.append(byte | (128 if value else 0))
        if not value:
            return bytes(out)


def signed(value: int) -> bytes:
    """A signed number as LEB128."""
    out = bytearray()
    while True:
        byte = value & 127
        value >>= 7
        if value == (-1 if byte & 64 else 0):
            out.append(byte)
            return bytes(out)
        out.append(byte | 128)


def sections(data: bytes) -> Iterator[tuple[int, int, int]]:
    """The number of each section, with the begin and the end of what it holds."""
    at = 8
    while at < len(data):
        size, begin = read_unsigned(data, at + 1)
        yield data[at], begin, begin + size
        at = begin + size


def section(number: int, body: bytes) -> bytes:
    """A section as bytes."""
    return bytes([number]) + unsigned(len(body)) + body


def imported_functions(data: bytes) -> list[tuple[str, str]]:
    """The functions that a module or an object imports: of which module, by what name."""
    found = []
    for number, at, _ in sections(data):
        if number != 2:
            continue
        count, at = read_unsigned(data, at)
        for _ in range(count):
            names = []
            for _ in range(2):
                size, begin = read_unsigned(data, at)
                at = begin + size
                names.append(data[begin:at].decode())
            kind = data[at]
            at = end_of_import(data, at)
            if kind == 0:
                found.append((names[0], names[1]))
    return found


def end_of_import(data: bytes, at: int) -> int:
    """Where the description of an import ends, behind its two names."""
    kind = data[at]
    if kind == 0:  # a function
        return read_unsigned(data, at + 1)[1]
    if kind == 3:  # a global
        return at + 3
    if kind == 1:  # a table, behind whose type are limits as of a memory
        at += 1
    elif kind != 2:
        raise SystemExit(f"an import of kind {kind}")
    flags = data[at + 1]
    at = read_unsigned(data, at + 2)[1]
    return read_unsigned(data, at)[1] if flags & 1 else at
