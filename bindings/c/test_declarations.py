"""The names and tables of the C library, and its header against the sources."""
from __future__ import annotations

import re
from pathlib import Path
from typing import Dict, Iterator, List, Tuple

import rules
from pages import causes as page_of_causes
from support.bindings.harness import STATUSES, lines_of
from support.bindings.pages import name_in_tables, tables
from support.bindings.paths import BUILT, HEADER, TOP
from support.bindings.running import run_text, text_of

KINDS = (
    "Graphic Spaced SpacedLines Letters Digits Date PartDate Time Binary Octets Mode Size"
    " SizeFromOne"
).split()
# Causes that the rules of the format do not have.
AROUND = {
    71: "Read",
    72: "Interrupted",
    90: "TooManyEnvelopes",
    100: "TicketForm",
    101: "TicketVersion",
    102: "Impossible",
}
# The types of the sources, as C declares them.
WORDS = {
    "u8": "uint8_t",
    "i32": "int",
    "u32": "uint32_t",
    "u64": "uint64_t",
    "i64": "int64_t",
    "usize": "size_t",
    "bool": "bool",
}


def rows() -> Iterator[str]:
    """Yield the lines of the rows of the tables, by the rules."""
    for record in range(256):
        for number in range(256):
            row = rules.row_of(record, number)
            if row:
                # (only 7:90 depends on the mode)
                duty = 3 if (record, number) == (7, 90) else 1 if row.is_mandatory else 2
                kind = KINDS.index(row.kind) + 1
                name = name_in_tables(record, number) or ""
                numbers = f"{row.least} {row.most} {kind} {duty} {int(row.repeats)}"
                yield f"row {record}:{number:02} {numbers} {name}"


def test_prints_the_tables(program: Path) -> None:
    assert len(tables()) == len(rules.ROWS)
    causes = {**rules.CAUSES, **rules.OTHER_CAUSES, **AROUND}
    lines = lines_of(program, "tables")

    def of(kind: str) -> List[str]:
        return [line for line in lines if line.startswith(kind)]

    assert of("row") == list(rows())
    assert of("cause") == [f"cause {number} {causes[number]}" for number in sorted(causes)]
    assert of("layer") == [f"layer {n + 1} {name}" for n, name in enumerate(rules.LAYERS)]
    assert of("version") == ["version 1 1"]


def test_returns_the_meaning_of_each_cause(program: Path) -> None:
    want = page_of_causes.meanings()
    assert len(want) >= 40
    lines = [f"{number} {len(want[number])} {want[number]}" for number in sorted(want)]
    assert lines_of(program, "texts") == lines


def upper(name: str) -> str:
    """Return a name of the sources as C writes a constant."""
    return re.sub(r"(?<!^)(?=[A-Z])", "_", name).upper()


def source_of(path: str) -> str:
    """Return the text of a source."""
    return text_of(TOP / "crates" / path)


def variants(path: str, name: str) -> List[str]:
    """Return the variants of a type of the sources."""
    body = re.search(rf"pub enum {name} \{{\n(.*?)^\}}", source_of(path), re.M | re.S)
    assert body, name
    return re.findall(r"^    (\w+),", body[1], re.M)


def constants(path: str) -> Dict[str, str]:
    """Return the constants of a source, by name."""
    return dict(re.findall(r"^pub const (\w+): u8 = (\d+);", source_of(path), re.M))


def test_names_kinds_and_duties_as_the_header() -> None:
    form = r"IIM_((?:KIND|DUTY|LAYER|PART|BEGUN|COPY)_\w+) = (\d+)"
    words: Dict[str, str] = dict(re.findall(form, text_of(HEADER)))

    def of_header(kind: str) -> Dict[str, str]:
        return {name: number for name, number in words.items() if name.startswith(kind)}

    def numbered(kind: str, names: List[str], first: int) -> Dict[str, str]:
        pairs = enumerate(names, first)
        return {f"{kind}_{upper(name)}": str(number) for number, name in pairs}

    for kind in "Kind", "Duty":
        names = variants("iim_tables/src/shape.rt", kind)
        assert numbered(kind.upper(), names, 1) == of_header(kind.upper())
    layers = {f"LAYER_{name.upper()}": str(n + 1) for n, name in enumerate(rules.LAYERS)}
    assert layers == of_header("LAYER")
    parts = variants("wire_message/src/saved.rt", "MessagePart")
    assert numbered("PART", parts, 0) == of_header("PART")
    for kind, source, order in [
        ("BEGUN", "begun", ["NOTHING", "TAG", "DATA", "ENDED"]),
        ("COPY", "row", ["FREE", "HELD", "EXPIRED"]),
    ]:
        found = {f"{kind}_{name}": n for name, n in constants(f"iim_c/src/{source}.rt").items()}
        assert found == of_header(kind)
        assert [words[f"{kind}_{name}"] for name in order] == [str(n) for n in range(len(order))]
    others = "NO_MEMORY", "BAD_TICKET", "BAD_PACKING", "BAD_INSTANT", "BAD_HANDLE"
    statuses = {name: n for name, n in STATUSES.items() if "_" not in name or name in others}
    sources = [source_of(f"{crate}/src/status.rt") for crate in ("iim_c", "iim_handle")]
    found = dict(re.findall(r"pub const (\w+): u8 = (\d+);", "".join(sources)))
    assert found == statuses


def plain(text: str) -> str:
    """Return a text with single spaces."""
    return re.sub(r"\s+", " ", text).strip()


def struct_of(name: str) -> str:
    """Return the name in C of a type of the sources."""
    return re.sub(r"(?<!^)(?=[A-Z])", "_", name).lower()


def of_c(kind: str) -> List[str]:
    """Return the types of the arguments in C for an argument of the sources."""
    if kind == "Global":
        return []
    if slice_of := re.fullmatch(r"&(mut )?\[u8\]", kind):
        return ["uint8_t *" if slice_of[1] else "const uint8_t *", "size_t "]
    if array_of := re.fullmatch(r"&mut \[(\w+)\]", kind):
        return [f"{struct_of(array_of[1])} *", "size_t "]
    if struct := re.fullmatch(r"&(mut )?(\w+)", kind):
        return [f"{'' if struct[1] else 'const '}{struct_of(struct[2])} *"]
    return [f"{WORDS.get(kind) or struct_of(kind)} "]


# A function: its name, its result, and the types of its arguments.
Function = Tuple[str, str, List[str]]


def exports() -> Iterator[Function]:
    """Yield the exports of the crate, in C."""
    form = r'#\[unsafe\(no_mangle\)\]\npub extern "C" fn (\w+)\((.*?)\)(?: -> (\w+))?\s'
    for name, words, result in re.findall(form, source_of("iim_exports/src/lib.rt"), re.S):
        kinds = [plain(each).partition(": ")[2] for each in words.split(",") if each.strip()]
        arguments = [part for kind in kinds for part in of_c(kind)]
        yield name, WORDS[result] if result else "void", arguments


def code_of_header() -> str:
    """Return the text of the header without its comments."""
    return re.sub(r"/\*.*?\*/", "", text_of(HEADER), flags=re.S)


def declared() -> Iterator[Function]:
    """Yield the functions of the header."""
    form = r"^(\w+) (iim_\w+)\(([^)]*)\);"
    for result, name, words in re.findall(form, code_of_header(), re.M):
        each = [] if words.strip() == "void" else [plain(word) for word in words.split(",")]
        yield name, result, [re.sub(r"\w+$", "", word) for word in each]


def test_declares_each_export_with_its_arguments() -> None:
    want = []
    for name, result, words in exports():
        # (a name is text for C, whose bytes are `char`)
        if name.endswith(("_name", "_text")):
            words = [word.replace("uint8_t *", "char *") for word in words]
        want.append((name, result, words))
    assert sorted(declared()) == sorted(want)
    assert len(want) >= 18


def test_declares_each_struct_with_its_members() -> None:
    found = {}
    form = r"typedef struct iim_\w+ \{(.*?)\} (iim_\w+);"
    for body, name in re.findall(form, code_of_header(), re.S):
        members = (plain(each).rsplit(" ", 1) for each in body.split(";") if each.strip())
        found[name] = [(kind, member) for kind, member in members]
    want = {}
    form = r"#\[repr\(C\)\]\n#\[derive\([^)]*\)\]\npub struct (\w+) \{\n(.*?)^\}"
    for path in sorted((TOP / "crates" / "iim_c" / "src").glob("*.rt")):
        for name, body in re.findall(form, text_of(path), re.M | re.S):
            # (an array has its length after the name)
            want[struct_of(name)] = [
                (WORDS.get(kind) or struct_of(kind), f"{member}[{count}]" if count else member)
                for member, kind, count in re.findall(
                    r"^    pub (\w+): \[?(\w+)(?:; (\d+)\])?,", body, re.M
                )
            ]
    # (the library alone reads the state of an unpacker, which is behind a pointer)
    unpacker = {"iim_unpacker": [("void", "*state"), ("bool", "is_open")]}
    assert found == {**want, **unpacker}


def test_exports_only_the_declared_functions() -> None:
    status, output, errors = run_text(["nm", "-D", "--defined-only", BUILT / "libiim.so"])
    assert (status, errors) == (0, "")
    found = sorted(line.split()[-1] for line in output.splitlines())
    assert found == sorted(name for name, *_ in exports())
