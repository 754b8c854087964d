#!/usr/bin/env python3
"""Change the target of the LLVM module of the proved library from x86-64 to wasm64.

  retarget.py IN.ll OUT.ll

Both targets have pointers of 64 bits, little-endian numbers, and the same sizes and alignments of
all types that occur (i1 to i128, pointers, vectors). The status is 1 if the module has what has no
meaning for the other target: intrinsics of a processor, assembly, thread locals.
"""
from __future__ import annotations

import re
import sys
from pathlib import Path
from typing import List

LAYOUT = "e-m:e-p:64:64-p10:8:8-p20:8:8-i64:64-i128:128-n32:64-S128"
TRIPLE = "wasm64-unknown-unknown"
# The attributes of functions that name a processor.
OF_PROCESSOR = (
    r' ?"(?:target-cpu|target-features|tune-cpu|probe-stack|frame-pointer|stack-probe-size'
    r'|no-trapping-math)"="[^"]*"'
)
FORBIDDEN = {
    "intrinsics of a processor": r"@llvm\.(?:x86|aarch64)[\w.]*",
    "assembly": r"\bcall [^\n]*\basm\b|^module asm",
    "thread locals": r"\bthread_local\b",
    "types with another layout": r"\bx86_fp80\b|\bppc_fp128\b|\baddrspace\(",
}


def retargeted(text: str) -> str:
    """Return the module, as text, for the other target."""
    text, layouts = re.subn(
        r'^target datalayout = ".*"$', f'target datalayout = "{LAYOUT}"', text, flags=re.M
    )
    text, triples = re.subn(
        r'^target triple = ".*"$', f'target triple = "{TRIPLE}"', text, flags=re.M
    )
    if (layouts, triples) != (1, 1):
        raise ValueError("the module has no target")
    text = re.sub(OF_PROCESSOR, "", text)
    code = re.sub(r'"(?:[^"\\]|\\.)*"', '""', text)
    for what, pattern in FORBIDDEN.items():
        found = sorted(set(re.findall(pattern, code, re.M)))
        if found:
            raise ValueError(f"the module has {what}: {found}")
    return text


def main(arguments: List[str]) -> int:
    """Change the target of a module, and return the status."""
    source, to = map(Path, arguments)
    try:
        to.write_text(retargeted(source.read_text(encoding="utf-8")), encoding="utf-8")
    except ValueError as fault:
        print(f"retarget.py: {fault}", file=sys.stderr)
        return 1
    return 0


if __name__ == "__main__":
    sys.exit(main(sys.argv[1:]))
