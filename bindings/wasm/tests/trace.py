#!/usr/bin/env python3
"""Record calls of the native library, which replay.mjs compares with those of the module.

  trace.py LIBRARY OUT [CALLS] [SEED]

OUT has a record for each call: the number of the function, its arguments, what is then in each
buffer that it may write (each was filled with AA before), and what it returned. Numbers are
little-endian. A buffer is recorded without the bytes AA at its end.
"""
from __future__ import annotations

import ctypes
import importlib
import random
import struct
import sys
from pathlib import Path
from typing import Any, BinaryIO, Dict, List, Optional, Tuple

HERE = Path(__file__).resolve().parent
TOP = HERE.parents[2]
sys.path.insert(0, str(HERE.parent))
sys.dont_write_bytecode = True

declarations: Any = importlib.import_module("declarations")

HEADER = TOP / "bindings" / "c" / "iim.h"
DECLARED = declarations.declared(HEADER.read_text(encoding="utf-8"))
SIZES: Dict[str, int] = {name: each["size"] for name, each in DECLARED["STRUCTS"].items()}
SIZES.update({"uint8_t": 1, "char": 1})
STATUS: Dict[str, int] = DECLARED["CONSTANTS"]
SCALARS: Dict[str, Any] = {"uint8_t": ctypes.c_uint8, "uint64_t": ctypes.c_uint64}
SCALARS.update({"size_t": ctypes.c_size_t, "bool": ctypes.c_uint8, "int": ctypes.c_int32})
SCALARS.update({"uint32_t": ctypes.c_uint32, "void": None})
FORMATS = {"uint8_t": "B", "bool": "B", "int": "i", "uint32_t": "I", "uint64_t": "Q", "size_t": "Q"}
SLOTS, FILL = 3, 0xAA
Limits = Tuple[int, int]
WIRE: Limits = (0, 0)


def by_value(name: str) -> Any:
    """Return a type of ctypes that is passed as a struct of the header is."""
    members = DECLARED["STRUCTS"][name]["members"]
    kinds = {"bool": ctypes.c_uint8, "int64_t": ctypes.c_int64, **SCALARS}
    fields = [(member, kinds[kind]) for member, (_, kind, _) in members.items()]
    return type(name, (ctypes.Structure,), {"_fields_": fields})


class Tracer:
    """Calls the library, and records the calls."""

    def __init__(self, library: str, out: BinaryIO) -> None:
        """Open the library."""
        self._library, self._out = ctypes.CDLL(library), out
        self._functions: Dict[str, Dict[str, Any]] = DECLARED["FUNCTIONS"]
        self._numbers = {name: nth for nth, name in enumerate(self._functions)}
        self._types = {
            name: by_value(name) for name in ("iim_limits", "iim_packing", "iim_instant")
        }
        self._handles = [ctypes.create_string_buffer(16) for _ in range(SLOTS)]
        self.counts: Dict[str, int] = dict.fromkeys(self._functions, 0)
        self.statuses: Dict[Tuple[str, int], int] = {}
        for name, each in self._functions.items():
            getattr(self._library, name).restype = SCALARS[each["result"]]

    def call(self, name: str, *given: Any) -> Tuple[Any, List[bytes]]:
        """Make a call, and return its result and what is in the buffers that it may write."""
        declared, rest = self._functions[name], list(given)
        record, written = [bytes([self._numbers[name]])], []  # type: List[bytes], List[Any]
        words: List[Any] = []
        kinds: List[str] = declared["parameters"]
        skip = False
        for nth, kind in enumerate(kinds):
            if skip:
                skip = False
                continue
            skip = kinds[nth + 1 : nth + 2] == ["size_t"] and kind.split()[0] in ("in", "out")
            skip = skip and kind != "out iim_unpacker"
            words += self._argument(kind, skip, rest, record, written)
        result = getattr(self._library, name)(*words)
        return result, self._finish(name, record, written, result)

    def _argument(
        self, kind: str, has_length: bool, rest: List[Any], record: List[bytes], written: List[Any]
    ) -> List[Any]:
        """Return the words of an argument, and add it to the record."""
        way, _, of = kind.partition(" ")
        if kind in SCALARS:
            value = rest.pop(0)
            record.append(struct.pack("<" + FORMATS[kind], value))
            return [SCALARS[kind](value)]
        if way in ("word", "value"):
            packed = self._types[of](*rest.pop(0))
            record.append(bytes(packed))
            return [packed]
        if kind == "out iim_unpacker":
            slot = rest.pop(0)
            record.append(bytes([slot]))
            written.append(slot)
            return [self._handles[slot]]
        if way == "in":
            octets = rest.pop(0)
            record.append(struct.pack("<I", len(octets)) + octets)
            return [ctypes.c_char_p(octets), *([ctypes.c_size_t(len(octets))] * has_length)]
        return self._output(of, has_length, rest, record, written)

    def _output(
        self, of: str, has_length: bool, rest: List[Any], record: List[bytes], written: List[Any]
    ) -> List[Any]:
        """Return the words of a buffer that is written, and add it to the record."""
        if of == "iim_so_far":
            buffer = ctypes.create_string_buffer(rest.pop(0), SIZES[of])
            record.append(buffer.raw)
            written.append((buffer, SIZES[of]))
            return [buffer]
        count = rest.pop(0) if has_length else 1
        length = count * SIZES[of]
        buffer = ctypes.create_string_buffer(bytes([FILL]) * (length or 1), length or 1)
        written.append((buffer, length))
        if has_length:
            record.append(struct.pack("<I", count))
        return [buffer, *([ctypes.c_size_t(count)] * has_length)]

    def _finish(
        self, name: str, record: List[bytes], written: List[Any], result: Any
    ) -> List[bytes]:
        """Write the record of a call, and return what is in its buffers."""
        found: List[bytes] = []
        for each in written:
            if isinstance(each, int):
                handle = self._handles[each].raw
                found.append(bytes([handle[:8] != bytes(8), handle[8]]))
                record.append(found[-1])
                continue
            found.append(each[0].raw[: each[1]])
            kept = found[-1].rstrip(bytes([FILL]))
            record.append(struct.pack("<I", len(kept)) + kept)
        kind = self._functions[name]["result"]
        if kind != "void":
            record.append(struct.pack("<" + FORMATS[kind], result))
        self._out.write(b"".join(record))
        self.counts[name] += 1
        if self._functions[name]["parameters"][-1:] == ["out iim_answer"]:
            key = name, found[-1][0]
            self.statuses[key] = self.statuses.get(key, 0) + 1
        return found


def answer_of(octets: bytes) -> Tuple[int, int, int, int, int]:
    """Return the status, `octet`, `used`, `written` and `ticket` of an answer."""
    status, octet, used, written, ticket = struct.unpack("<B7x4Q", octets)
    return status, octet, used, written, ticket


class Inputs:
    """Makes calls with inputs that are derived from the samples."""

    def __init__(self, tracer: Tracer, seed: int) -> None:
        """Read the samples."""
        self.call, self.dice = tracer.call, random.Random(seed)
        samples = TOP / "samples"
        names = [*sorted(samples.glob("*.iim")), *sorted(samples.glob("damaged/*.iim"))]
        self.streams = [name.read_bytes() for name in names]
        self.scripts = [name.read_bytes() for name in sorted(samples.glob("*.script"))]
        self.small = [octets for octets in self.streams if len(octets) < 5_000]

    def damaged(self, octets: bytes, others: List[bytes]) -> bytes:
        """Return bytes with some edits."""
        dice, made = self.dice, bytearray(octets)
        for _ in range(dice.choice((1, 1, 1, 2, 3))):
            at, kind = dice.randrange(len(made) + 1), dice.randrange(7)
            other = dice.choice(others)
            low = dice.randrange(len(other) + 1)
            if kind < 2 and at < len(made):
                made[at] = dice.choice((made[at] ^ 1 << dice.randrange(8), dice.randrange(256)))
            elif kind == 2:
                made[at:at] = bytes([dice.choice((0, 1, 2, 3, 4, 10, 13, 22, 28, 32, 128, 255))])
            elif kind == 3:
                del made[at : at + dice.randrange(1, 6)]
            elif kind == 4:
                made[at:at] = other[low : low + dice.randrange(40)]
            elif kind == 5:
                del made[at:]
            else:
                made += other[: dice.randrange(200)]
        return bytes(made)

    def limits(self) -> Limits:
        """Return some limits."""
        dice = self.dice
        narrow = dice.randrange(1, 300), dice.randrange(1, 20)
        return dice.choice((WIRE, WIRE, WIRE, (65_536, 512), narrow, (1_000_000, 2_000)))

    def room(self) -> int:
        """Return the capacity for a ticket."""
        return self.dice.choice((2_000, 2_000, 2_000, 2_000, self.dice.randrange(400), 69_000))

    def tables(self) -> None:
        """Call every function of the tables and names for every number."""
        self.call("iim_version")
        for number in range(256):
            for name in ("iim_cause_name", "iim_cause_text", "iim_layer_name"):
                self.call(name, number, 128)
                self.call(name, number, self.dice.randrange(30))
            for record in range(256):
                self.call("iim_row", record, number)
                self.call("iim_dataset_name", record, number, 64)

    def prefixes(self) -> None:
        """Check each prefix of each small sample."""
        for octets in self.small:
            for end in range(min(len(octets), 600)):
                self.call("iim_check", WIRE, octets[:end])

    def checked(self, octets: bytes, limits: Limits) -> None:
        """Check an input, and print its refusal."""
        answer = self.call("iim_check", limits, octets)[1][-1]
        number = self.dice.choice((1, 7, 2**32, 2**64 - 1))
        self.call("iim_error_text", number, answer, self.dice.choice((128, 128, 20, 0)))

    def fed(self, octets: bytes, limits: Limits, longest: int) -> None:
        """Feed an input in chunks, and read the tickets."""
        ticket, at, came = b"", 0, 0
        for _ in range(60):
            piece = octets[came : came + self.dice.randrange(longest + 1)]
            text = len(piece) if self.dice.random() < 0.95 else self.dice.randrange(len(piece) + 1)
            found = self.call("iim_feed", limits, ticket, at, piece, text, self.room())[1]
            status, octet, used, _, length = answer_of(found[-1])
            if status == STATUS["IIM_SHORT"]:
                continue
            if status > STATUS["IIM_MORE"]:
                return
            ticket, at, came = found[1][:length], octet, came + used
            self.asked(ticket, at, limits)
            if status == STATUS["IIM_DONE"]:
                ticket, at = b"", 0
            if came >= len(octets):
                self.call("iim_end", limits, ticket, at)
                return

    def asked(self, ticket: bytes, at: int, limits: Limits) -> None:
        """Read a ticket, which may be damaged."""
        dice = self.dice
        if ticket and dice.random() < 0.1:
            ticket = self.damaged(ticket, [ticket])
        pick = dice.randrange(6)
        if pick == 0:
            self.call("iim_fields", ticket, dice.choice((0, 0, 1, 7)), dice.choice((0, 2, 40)))
            self.call("iim_field", ticket, dice.choice((0, 1, 5, 600, 2**64 - 1)))
        elif pick == 1:
            self.call("iim_header", ticket)
        elif pick == 2:
            self.call("iim_sizes", ticket)
        elif pick == 3:
            self.call("iim_place", ticket, at if dice.random() < 0.9 else dice.randrange(2**64))
        elif pick == 4 and dice.random() < 0.3:
            self.call("iim_next", limits, ticket)
        elif dice.random() < 0.2:
            self.call("iim_end", limits, ticket, at)

    def audited(self, octets: bytes, limits: Limits, longest: int) -> None:
        """Audit an input in chunks."""
        dice = self.dice
        ticket, so_far, came = b"", bytes(32), 0
        far = dice.randrange(-(2**40), 2**40), dice.randrange(2**32)
        now = dice.choice(((1_700_000_000, 0), far, (dice.randrange(2**31), 999_999_999)))
        for _ in range(40):
            piece = octets[came : came + dice.randrange(longest + 1)]
            rows = dice.choice((0, 1, 2, 8))
            words = limits, ticket, so_far, piece, now, rows, self.room()
            found = self.call("iim_audit", *words)[1]
            status, _, used, _, length = answer_of(found[-1])
            if status > STATUS["IIM_MORE"]:
                return
            ticket, so_far, came = found[2][:length], found[0], came + used
            if came >= len(octets):
                return

    def packed(self) -> None:
        """Pack a script, which may be damaged."""
        dice = self.dice
        script = self.damaged(dice.choice(self.scripts), self.scripts)
        subfile, most = dice.choice((0, 1, 7, 1_024, 2**63)), dice.choice((0, 5, 100, 2**63))
        packing = subfile, dice.randrange(2), dice.randrange(2), most
        self.call("iim_pack", packing, script, dice.choice((0, 100, 5_000)))
        self.call("iim_pack_size", packing, script)

    def valued(self) -> None:
        """Check the value of a dataset."""
        dice = self.dice
        values = b"20240229", b"20230229", b"00000000", b"235959+0000", b"\0\1", b"9" * 8
        value = dice.choice((*values, dice.randbytes(dice.randrange(12))))
        record = dice.choice((1, 2, 7, 8, 9, dice.randrange(256)))
        self.call("iim_admits", record, dice.randrange(256), value)

    def unpacked(self, octets: bytes, limits: Limits, longest: int) -> None:
        """Feed an input to an unpacker, save and restore it, and read it."""
        slot, at = self.dice.randrange(SLOTS), 0
        self.call("iim_unpacker_open", limits, slot)
        for _ in range(40):
            piece = octets[at : at + self.dice.randrange(longest + 1)]
            room = len(piece) if self.dice.random() < 0.95 else self.dice.randrange(9)
            found = self.call("iim_unpacker_feed", slot, piece, room)[1]
            status, octet, used, _, _ = answer_of(found[-1])
            at += used
            self.read(slot, limits)
            if status == STATUS["IIM_DONE"] or self.dice.random() < 0.02:
                self.call("iim_unpacker_reset", slot)
            if at >= len(octets) or status > STATUS["IIM_MORE"]:
                break
        self.call("iim_unpacker_end", slot)
        if self.dice.random() < 0.8:
            self.call("iim_unpacker_close", slot)

    def read(self, slot: int, limits: Limits) -> None:
        """Read an unpacker, or move it to another slot by its ticket."""
        dice = self.dice
        pick, room = dice.randrange(12), self.room()
        if pick == 0:
            found = self.call("iim_unpacker_save", slot, room)[1]
            status, octet, _, _, length = answer_of(found[-1])
            to = dice.randrange(SLOTS)
            if status == STATUS["IIM_DONE"]:
                ticket = found[1][:length]
                if dice.random() < 0.2:
                    ticket = self.damaged(ticket, [ticket])
                self.call("iim_unpacker_restore", limits, to, ticket, octet)
        elif pick == 1:
            self.call("iim_unpacker_fields", slot, room, dice.choice((0, 2, 40)))
        elif pick == 2:
            self.call("iim_unpacker_header", slot, room)
        elif pick == 3:
            self.call("iim_unpacker_sizes", slot, room)
        elif pick == 4:
            record, number = dice.choice(((2, 105), (1, 30), (1, 40), (2, 25), (9, 9)))
            self.call("iim_unpacker_count", slot, record, number)
            words = record, number, dice.choice((0, 0, 1)), dice.choice((0, 300))
            self.call("iim_unpacker_field", slot, *words)

    def step(self) -> None:
        """Make calls with one damaged input."""
        dice, limits = self.dice, self.limits()
        octets = self.damaged(dice.choice(self.small), self.small)
        longest = dice.choice((3, 30, 300, 5_000))
        self.checked(octets, limits)
        pick = dice.randrange(5)
        if pick < 2:
            self.fed(octets, limits, longest)
        elif pick == 2:
            self.audited(octets * dice.choice((1, 2, 3)), limits, longest)
        elif pick == 3:
            self.packed()
        else:
            self.unpacked(octets, limits, longest)
        self.valued()


def record(library: str, path: Path, calls: int, seed: int) -> Tracer:
    """Record calls, at least this number."""
    with path.open("wb") as out:
        tracer = Tracer(library, out)
        inputs = Inputs(tracer, seed)
        inputs.tables()
        inputs.prefixes()
        for octets in inputs.streams:
            inputs.checked(octets, WIRE)
            inputs.fed(octets, WIRE, 4_096)
            inputs.audited(octets, WIRE, 4_096)
            inputs.unpacked(octets, WIRE, 4_096)
        while sum(tracer.counts.values()) < calls:
            inputs.step()
        for slot in range(SLOTS):
            tracer.call("iim_unpacker_close", slot)
    return tracer


def main(arguments: List[str]) -> Optional[int]:
    """Record calls, and print their numbers."""
    library, path, calls, seed = (
        [*arguments, "220000", "1"][:4] if len(arguments) < 4 else arguments
    )
    tracer = record(library, Path(path), int(calls), int(seed))
    print(sum(tracer.counts.values()), "calls")
    print(*(f"{name} {count}" for name, count in tracer.counts.items()), sep="\n")
    return 0


if __name__ == "__main__":
    sys.exit(main(sys.argv[1:]))
