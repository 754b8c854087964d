"""Faults in the module's runtime, in the package for JavaScript and in the web page."""
from __future__ import annotations

from faults.fault import Fault

WASM = "bindings/wasm"
HEAP, WIDE = f"{WASM}/runtime/heap.c", f"{WASM}/runtime/wide.c"
DECLARATIONS, TABLE = f"{WASM}/declarations.py", f"{WASM}/drop_table.py"
RUNTIME = f"{WASM}/test_runtime.py"
OF_HEAP = f"{RUNTIME}::test_heap_keeps_and_moves_blocks"
OF_WIDE = f"{RUNTIME}::test_wide_numbers_are_the_processors"
OF_LAYOUTS = f"{RUNTIME}::test_layouts_are_the_compilers"

FAULTS = [
    Fault(HEAP, "__builtin_memcpy(to, p, used);", "__builtin_memcpy(to, p, used / 2);", OF_HEAP),
    Fault(HEAP, "end = at + HEAD + rounded(n);", "end = at + HEAD + n / 2;", OF_HEAP),
    Fault(HEAP, "        last = ((head *)last)->before;\n", "        break;\n", OF_HEAP),
    Fault(HEAP, "last != 0 || at < (size)__heap_base", "at < (size)__heap_base", OF_HEAP),
    Fault(WIDE, "x.high * y.low + x.low * y.high", "x.high * y.low", OF_WIDE),
    Fault(
        WIDE,
        "(x.low >> 32) * (y.low & half) + (low >> 32)",
        "(x.low >> 32) * (y.low & half)",
        OF_WIDE,
    ),  # noqa: E501
    Fault(WIDE, "in.high << count | in.low >> (64 - count)", "in.high << count", OF_WIDE),
    Fault(WIDE, "in.low >> count | in.high << (64 - count)", "in.low >> count", OF_WIDE),
    Fault(
        DECLARATIONS,
        "offset, largest = rounded(offset, alignment), ",
        "offset, largest = offset, ",
        OF_LAYOUTS,
    ),  # noqa: E501
    Fault(DECLARATIONS, '"uint32_t": 4}', '"uint32_t": 8}', OF_LAYOUTS),
    Fault(
        DECLARATIONS,
        "if 8 < size <= 16 and fits:",
        "if 8 < size <= 15 and fits:",
        f"{RUNTIME}::test_rejects_a_struct_in_two_words",
    ),
    Fault(
        TABLE,
        "if any(number == ELEMENTS for number, _ in found):",
        "if any(number == CUSTOM for number, _ in found):",
        f"{RUNTIME}::test_keeps_a_table_with_elements",
    ),
]
