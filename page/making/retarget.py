"""The text of the program's module, which is compiled for a PC, as one for WebAssembly with 64-bit pointers.

Both targets have pointers of 64 bits and align numbers of 64 bits to 8 bytes and of 128 bits to 16. What is dropped are
the processor, its features and how its stack is probed, and the hint to pause.
"""
from __future__ import annotations

import re

LAYOUT = "e-m:e-p:64:64-p10:8:8-p20:8:8-i64:64-i128:128-n32:64-S128-ni:1:10:20"
TRIPLE = "wasm64-unknown-unknown"
DROPPED = re.compile(r' (?:sanitize_address|"frame-pointer"="all"|"probe-stack"="inline-asm"|"stack-probe-size"="\d*"'
                     r'|"target-cpu"="[^"]*"|"target-features"="[^"]*"|"tune-cpu"="[^"]*")')


def retarget(text: str) -> str:
    """The text of a module for x86-64 as that of one for wasm64."""
    out = []
    for line in text.split("\n"):
        if line.startswith("target datalayout"):
            line = f'target datalayout = "{LAYOUT}"'
        elif line.startswith("target triple"):
            line = f'target triple = "{TRIPLE}"'
        elif line.startswith("attributes"):
            line = DROPPED.sub("", line).replace("= { }", "= { nounwind }")
        elif "call void @llvm.x86.sse2.pause()" in line or line.startswith("declare void @llvm.x86.sse2.pause"):
            continue
        elif "@llvm.x86." in line:
            raise SystemExit("an instruction of x86-64 alone: " + line.strip())
        out.append(line)
    return "\n".join(out)
