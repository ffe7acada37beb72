#!/usr/bin/env python3
"""lower64.py IN OUT: makes a WebAssembly module with a 32-bit memory and table from one with 64-bit ones.

It is for browsers without 64-bit memories, and as binaryen's --memory64-lowering does. The code keeps its 64-bit
numbers; each address is cut to 32 bits where memory is touched, so the program may never make an address beyond its
memory. It takes what LLVM writes for `lime1`; another instruction ends it with an error.
"""
from __future__ import annotations

import sys
from typing import Union

from wasm import read_signed, read_unsigned, section, sections, signed, unsigned

WRAP = b"\xa7"  # i32.wrap_i64
EXTEND, EXTEND_SIGNED = b"\xad", b"\xac"  # i64.extend_i32_u, i64.extend_i32_s
GET, SET = b"\x20", b"\x21"  # local.get, local.set
I32, I64, F32, F64 = 0x7F, 0x7E, 0x7D, 0x7C
LENGTH = "the length of a copy, of 32 bits"
MOST_PAGES = 65535  # (so the last page of 4 GiB is never there, and an address below 0 traps)
LOADS = range(0x28, 0x36)
STORES = {0x36: I32, 0x37: I64, 0x38: F32, 0x39: F64, 0x3A: I32, 0x3B: I32, 0x3C: I64, 0x3D: I64, 0x3E: I64}
BLOCKS = (0x02, 0x03, 0x04)
WITH_INDEX = (0x0C, 0x0D, 0x10, 0x20, 0x21, 0x22, 0x23, 0x24)
BARE = (0x00, 0x01, 0x05, 0x0B, 0x0F, 0x1A, 0x1B, *range(0x45, 0xC5))
Kind = Union[int, str]


class Code:
    """The instructions of one function. Its new locals are counted: one for each type of value that is put aside."""

    def __init__(self, data: bytes, first_local: int) -> None:
        self.data, self.first_local = data, first_local
        self.locals: dict[Kind, int] = {}

    def local(self, kind: Kind) -> bytes:
        """The number of the new local of this type."""
        return unsigned(self.locals.setdefault(kind, self.first_local + len(self.locals)))

    def types_of_locals(self) -> list[int]:
        return [kind if isinstance(kind, int) else I32 for kind in self.locals]

    def lower(self, at: int, end: int) -> bytes:
        """The instructions from `at` to `end`, over a 32-bit memory."""
        out = bytearray()
        while at < end:
            part, at = self.instruction(at)
            out += part
        return bytes(out)

    def instruction(self, at: int) -> tuple[bytes, int]:
        """One instruction, and where the next one stands."""
        op = self.data[at]
        if op in LOADS:
            argument, end = self.memory_argument(at + 1)
            return WRAP + bytes([op]) + argument, end
        if op in STORES:
            argument, end = self.memory_argument(at + 1)
            value = self.local(STORES[op])
            return SET + value + WRAP + GET + value + bytes([op]) + argument, end
        if op == 0x3F:  # memory.size
            return self.data[at:at + 2] + EXTEND, at + 2
        if op == 0x40:  # memory.grow, whose -1 stays -1
            return WRAP + self.data[at:at + 2] + EXTEND_SIGNED, at + 2
        if op == 0x11:  # call_indirect
            end = read_unsigned(self.data, read_unsigned(self.data, at + 1)[1])[1]
            return WRAP + self.data[at:end], end
        if op == 0xFC:
            return self.copy_or_fill(at)
        end = self.end_of(at)
        return self.data[at:end], end

    def memory_argument(self, at: int) -> tuple[bytes, int]:
        """The alignment and the offset of a load or a store."""
        align, at = read_unsigned(self.data, at)
        offset, at = read_unsigned(self.data, at)
        if offset >> 32:
            raise SystemExit("an offset of more than 32 bits")
        return unsigned(align) + unsigned(offset), at

    def copy_or_fill(self, at: int) -> tuple[bytes, int]:
        """memory.copy (two addresses and a length) and memory.fill (an address, a byte and a length)."""
        which, end = read_unsigned(self.data, at + 1)
        if which <= 7:  # conversions of floating point numbers
            return self.data[at:end], end
        if which not in (10, 11):
            raise SystemExit(f"instruction 0xfc {which}")
        end += 2 if which == 10 else 1
        length, middle = self.local(LENGTH), self.local(I32)
        out = WRAP + SET + length + (WRAP if which == 10 else b"") + SET + middle
        return out + WRAP + GET + middle + GET + length + self.data[at:end], end

    def end_of(self, at: int) -> int:
        """Where an instruction ends that does not touch the memory."""
        op, data = self.data[at], self.data
        at += 1
        if op in BARE:
            return at
        if op in BLOCKS or op in (0x41, 0x42):  # (a type of result, or a constant)
            return read_signed(data, at)[1]
        if op in WITH_INDEX:
            return read_unsigned(data, at)[1]
        if op == 0x0E:  # br_table
            count, at = read_unsigned(data, at)
            for _ in range(count + 1):
                at = read_unsigned(data, at)[1]
            return at
        if op in (0x43, 0x44):  # constants of floating point
            return at + (4 if op == 0x43 else 8)
        if op == 0x1C:  # select with a type
            count, at = read_unsigned(data, at)
            return at + count
        raise SystemExit(f"instruction {op:#x}")


def limits(data: bytes, at: int) -> tuple[bytes, int]:
    """The limits of a 64-bit memory or table, as those of a 32-bit one."""
    flags = data[at]
    least, at = read_unsigned(data, at + 1)
    out = bytes([flags & ~4]) + unsigned(least)
    if flags & 1:
        most, at = read_unsigned(data, at)
        out += unsigned(min(most, MOST_PAGES))
    return out, at


def place(data: bytes, at: int) -> tuple[bytes, int]:
    """A constant place of 64 bits in memory or in the table, as one of 32."""
    value, end = read_signed(data, at + 1)
    if data[at] != 0x42 or data[end] != 0x0B:
        raise SystemExit("a place that is no constant")
    value &= 0xFFFFFFFF
    return b"\x41" + signed(value - (1 << 32) if value >> 31 else value) + b"\x0b", end + 1


def parameter_counts(data: bytes, at: int) -> list[int]:
    """How many parameters each type of a function has."""
    counts = []
    count, at = read_unsigned(data, at)
    for _ in range(count):
        size, at = read_unsigned(data, at + 1)
        counts.append(size)
        results, at = read_unsigned(data, at + size)
        at += results
    return counts


def indices(data: bytes, at: int) -> list[int]:
    """The numbers of a list of numbers."""
    numbers = []
    count, at = read_unsigned(data, at)
    for _ in range(count):
        index, at = read_unsigned(data, at)
        numbers.append(index)
    return numbers


def memories_or_tables(data: bytes, at: int, is_table: bool) -> bytes:
    count, at = read_unsigned(data, at)
    body = unsigned(count)
    for _ in range(count):
        head = data[at:at + 1] if is_table else b""
        part, at = limits(data, at + len(head))
        body += head + part
    return body


def elements(data: bytes, at: int) -> bytes:
    """The functions of the table."""
    count, at = read_unsigned(data, at)
    body = unsigned(count)
    for _ in range(count):
        if data[at] != 0:
            raise SystemExit(f"elements of kind {data[at]}")
        part, begin = place(data, at + 1)
        size, at = read_unsigned(data, begin)
        for _ in range(size):
            at = read_unsigned(data, at)[1]
        body += b"\0" + part + data[begin:at]
    return body


def functions(data: bytes, at: int, parameters: list[int]) -> bytes:
    """The code of all functions."""
    count, at = read_unsigned(data, at)
    body = bytearray(unsigned(count))
    for index in range(count):
        size, at = read_unsigned(data, at)
        end = at + size
        groups, begin = read_unsigned(data, at)
        at, locals_before = begin, parameters[index]
        for _ in range(groups):
            alike, at = read_unsigned(data, at)
            locals_before += alike
            at += 1
        code = Code(data, locals_before)
        code_bytes = code.lower(at, end)
        new = code.types_of_locals()
        part = unsigned(groups + len(new)) + data[begin:at] + b"".join(bytes([1, kind]) for kind in new) + code_bytes
        body += unsigned(len(part)) + part
        at = end
    return bytes(body)


def contents(data: bytes, at: int) -> bytes:
    """What the memory holds at the start."""
    count, at = read_unsigned(data, at)
    body = bytearray(unsigned(count))
    for _ in range(count):
        flags, part = data[at], b""
        at += 1
        if flags == 0:
            part, at = place(data, at)
        elif flags != 1:
            raise SystemExit(f"data of kind {flags}")
        size, begin = read_unsigned(data, at)
        at = begin + size
        body += bytes([flags]) + part + unsigned(size) + data[begin:at]
    return bytes(body)


def lower_module(data: bytes) -> bytes:
    """The module with a memory and a table of 32 bits."""
    out = bytearray(data[:8])
    types: list[int] = []
    kinds: list[int] = []
    for number, begin, end in sections(data):
        body = data[begin:end]
        if number == 1:
            types = parameter_counts(data, begin)
        elif number == 3:
            kinds = indices(data, begin)
        elif number in (4, 5):
            body = memories_or_tables(data, begin, number == 4)
        elif number == 9:
            body = elements(data, begin)
        elif number == 10:
            body = functions(data, begin, [types[kind] for kind in kinds])
        elif number == 11:
            body = contents(data, begin)
        out += section(number, body)
    return bytes(out)


if __name__ == "__main__":
    with open(sys.argv[1], "rb") as file:
        module = lower_module(file.read())
    with open(sys.argv[2], "wb") as file:
        file.write(module)
