#!/usr/bin/env python3
"""Remove the empty table of a WebAssembly module, in place.

  drop_table.py MODULE

The library calls no function by a pointer, so its table is empty. The linker gives it addresses of
64 bits, which many engines do not support. The status is 1 if the table has elements.
"""
from __future__ import annotations

import sys
from pathlib import Path
from typing import Iterator, List, Tuple

TABLE, ELEMENTS, CUSTOM = 4, 9, 0


def number_at(octets: bytes, at: int) -> Tuple[int, int]:
    """Return the number that is encoded at an offset in LEB128, and the offset after it."""
    value = shift = 0
    while True:
        value |= (octets[at] & 127) << shift
        shift += 7
        at += 1
        if octets[at - 1] < 128:
            return value, at


def sections(octets: bytes) -> Iterator[Tuple[int, bytes]]:
    """Yield the number of each section, and its bytes with their head."""
    at = 8
    while at < len(octets):
        size, begin = number_at(octets, at + 1)
        yield octets[at], octets[at : begin + size]
        at = begin + size


def without_table(octets: bytes) -> bytes:
    """Return a module without its empty table."""
    found = list(sections(octets))
    if any(number == ELEMENTS for number, _ in found):
        raise ValueError("functions are called by pointers: the table has elements")
    return octets[:8] + b"".join(part for number, part in found if number not in (TABLE, CUSTOM))


def main(arguments: List[str]) -> int:
    """Remove the table of a module, and return the status."""
    (path,) = map(Path, arguments)
    try:
        path.write_bytes(without_table(path.read_bytes()))
    except ValueError as fault:
        print(f"drop_table.py: {fault}", file=sys.stderr)
        return 1
    return 0


if __name__ == "__main__":
    sys.exit(main(sys.argv[1:]))
