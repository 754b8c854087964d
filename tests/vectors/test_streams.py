"""Check the program on generated streams of envelopes, and on what it packs."""
from __future__ import annotations

from typing import Callable, Iterator, Optional, Tuple

import rules
from hypothesis import event, given
from hypothesis import strategies as st
from rules import read
from vectors.asking import Case, Vectors, digits, named, shown, value_of
from vectors.cases import audit_case, listed, script_of, stream_case
from vectors.strategies import Script, dated_streams, examples, scripts, streams

CountCases = Callable[[int], None]


def test_takes_one_envelope_after_another(vectors: Vectors, count_cases: CountCases) -> None:
    """Read streams of envelopes, which may end in an invalid or incomplete one."""
    count = 0

    @examples(150)
    @given(streams())
    def check(octets: bytes) -> None:
        nonlocal count
        found, why = listed(octets)
        event(f"{min(len(found), 5)} envelopes, then {'a refusal' if why else 'the end'}")
        vectors.check(stream_case(octets))
        count += 1

    check()
    count_cases(count)


def test_audits_streams(vectors: Vectors, count_cases: CountCases) -> None:
    """Audit streams whose envelopes are repeated, held, expired or free."""
    count = 0

    @examples(150)
    @given(dated_streams())
    def check(octets: bytes) -> None:
        nonlocal count
        case = audit_case(octets)
        for line in case.asked[0][1]:
            event(line.rpartition("copy ")[2] if "copy" in line else "no copy")
        vectors.check(case)
        count += 1

    check()
    count_cases(count)


def packings(subfile: int, size: int, more: int) -> Iterator[Tuple[str, Optional[str]]]:
    """Yield the plans of the size of an object, each with the cause of its refusal, if any."""
    yield f"known:{size}", None
    yield f"known:{size - 1}", "80 PastAnnounced"
    yield f"known:{size + 1}", "81 ShortOfAnnounced"
    yield f"unknown:{size}", None
    yield f"unknown:{size - 1}", "80 PastAnnounced"
    # (a packer allocates the lesser of a subfile and the bound: some are too large)
    if subfile <= 1024:
        yield "unknown", None
        for most in size + more, 2**32 - 1, 2**32, rules.GREATEST:
            yield f"unknown:{most}", None


def script_case(script: Script) -> Case:
    """Return a case that parses a script."""
    octets, at = script_of(script.fields, script.head, script.lines, script.trailer)
    return Case(is_new=False).ask(
        f"script {digits(octets)}",
        *(f"field {named(*field[:2])} {shown(field[2])}" for field in script.fields),
        "message " + " ".join(map(shown, script.head)),
        f"trailer {shown(script.trailer)}",
        *(f"line {shown(line)}" for line in script.lines),
        f"text at line {at}",
    )


def add_packing(case: Case, script: Script, subfile: int, size: str, fault: Optional[str]) -> None:
    """Add questions that pack the value of a script, and unpack the result."""
    story = rules.object_of(script.head, script.lines, script.trailer)
    most = int(size[8:]) if size.startswith("unknown:") else None
    octets = rules.packed(script.fields, story, subfile, size.startswith("known"), most)
    if fault:
        case.ask(f"pack {subfile} {size}", f"{fault} written 0 out -")
        return
    case.ask(f"pack {subfile} {size}", f"packed {shown(octets)}")
    case.ask(f"pack_cut 12 {subfile} {size}", f"pieces of 1 packed {shown(octets)}")
    envelope = read(octets, (2**17, 512))
    case.ask("new 131072/512").ask(f"feed {digits(octets)}", f"done {len(octets)}")
    case.ask("value", *value_of(envelope))
    case.ask("lines", *(f"line {shown(line)}" for line in script.lines))


def test_packs_random_values(vectors: Vectors, count_cases: CountCases) -> None:
    """Pack values with each plan that fits them, and reject the other plans."""
    count = 0
    subfiles = st.sampled_from([1024, 1, 7, None, 2**40, rules.GREATEST])

    @examples(120)
    @given(scripts(), subfiles, st.integers(1, 2**40))
    def check(script: Script, given_subfile: Optional[int], more: int) -> None:
        nonlocal count
        size = len(rules.object_of(script.head, script.lines, script.trailer))
        subfile, case = given_subfile or size, script_case(script)
        for plan, fault in packings(subfile, size, more):
            add_packing(case, script, subfile, plan, fault)
        vectors.check(case)
        count += 1

    check()
    count_cases(count)
