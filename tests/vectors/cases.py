"""Cases that several tests ask: envelopes fed in different ways, saved states, values, scripts."""
from __future__ import annotations

from typing import Dict, Iterator, List, Optional, Sequence, Tuple

import rules
import tickets
import worked
from envelopes import SMALLEST
from rules import LIMITS, Envelope, read
from tickets import Place, ticket
from vectors.asking import NAMED, Case, digits, named, truth

Limits = Tuple[int, int]
Field = Tuple[int, int, bytes]
NEW = ticket(Envelope()) or b""


def fronts(octets: bytes) -> List[Envelope]:
    """Return for each octet the state of the envelope before the dataset of the octet."""
    envelope, found = Envelope(), []
    while not envelope.is_done:
        before = envelope.copy()
        envelope.dataset(octets)
        found += [before] * (envelope.at - before.at)
    return found


def changes(name: str, first: int, end: int, octets: Sequence[int]) -> Iterator[Case]:
    """Yield a worked envelope with each octet of a part replaced by each of these octets."""
    whole = NAMED[name]
    for at, front in [*enumerate(fronts(whole))][first:end]:
        for octet in octets:
            if octet != whole[at]:
                changed = whole[:at] + bytes([octet]) + whole[at + 1 :]
                answer = front.copy().read(changed).answer()
                written = f"${name}[:{at}].{octet:02X}.${name}[{at + 1}:]"
                case = Case().ask(f"feed {written}", answer)
                yield case.ask(f"new {case.limits}").ask(f"each {written}", answer)


def continued(
    front: str, rest: str, whole: bytes, at: int, limits: Limits = LIMITS
) -> Iterator[Case]:
    """Yield cases that save after a prefix and continue from the ticket, in both versions."""
    begun, ended = read(whole[:at], limits), read(whole, limits)
    if begun.refusal:
        return
    for version in 1, 2:
        saved = ticket(begun, version)
        if saved is None:
            continue
        new = digits(ticket(begun) or b"")
        case = Case(limits).ask(f"feed {front}", begun.answer()).ask("end", begun.end() or "none")
        case.ask("save", new)
        case.ask(f"restore {case.limits} {begun.at} {digits(saved)}", "restored").ask("save", new)
        if not begun.is_done:
            case.ask(f"feed {rest}", f"done {ended.at - at}" if ended.is_done else ended.answer())
        yield case.ends(ended)


def fed(octets: bytes, seed: int, limits: Limits = LIMITS) -> Iterator[Case]:
    """Yield a case for each way to split octets into chunks."""
    envelope, written = read(octets, limits), digits(octets)
    for way in "feed", "each", f"cut {seed}":
        yield Case(limits).ask(f"{way} {written}", envelope.answer()).ends(envelope)


def fields_of(octets: bytes) -> Iterator[Tuple[bytes, bytes]]:
    """Yield the tag and the data of each dataset of a valid envelope."""
    while octets:
        size = 5 + (octets[4] if octets[3] == 0x80 else 0)
        end = size + rules.number(octets[5:size] or octets[3:5])
        yield octets[:size], octets[size:end]
        octets = octets[end:]


def other_tags(tag: bytes) -> Iterator[bytes]:
    """Yield tags with another record, another number, another count, or no valid count."""
    for record in (0, 1, 2, 3, 6, 7, 8, 9, 10, 255):
        yield tag[:1] + bytes([record]) + tag[2:]
        yield tag[:1] + bytes([record]) + tag[2:3] + b"\x80\0"
    for dataset in (0, 10, 20, 30, 60, 90, 95, 250):
        yield tag[:2] + bytes([dataset]) + tag[3:]
    for form in (b"\x80\0", b"\x80\x09", b"\x81\1", b"\xff\xff", b"\0\0", b"\x7f\xff"):
        yield tag[:3] + form + tag[5:]


def spoiled(octets: bytes) -> Iterator[bytes]:
    """Yield an envelope with each dataset missing, doubled, swapped, or with another tag."""
    found = [tag + data for tag, data in fields_of(octets)]
    for at, (tag, data) in enumerate(fields_of(octets)):
        front, back = b"".join(found[:at]), b"".join(found[at + 1 :])
        yield front + back
        yield front + found[at] * 2 + back
        yield front + found[at] + b"".join([*found[at + 1 : at + 3], found[at], *found[at + 3 :]])
        if at:
            yield b"".join([*found[: at - 1], found[at], found[at - 1]]) + back
        for other in other_tags(tag):
            yield front + other + data + back


def listed(octets: bytes) -> Tuple[List[Envelope], Optional[str]]:
    """Return the complete envelopes of a stream, and the reply after them."""
    found: List[Envelope] = []
    while octets:
        envelope = read(octets)
        if not envelope.is_done:
            return found, envelope.answer() if envelope.refusal else envelope.end()
        found.append(envelope)
        octets = octets[envelope.at :]
    return found, None


def in_other_ways(octets: bytes) -> Iterator[Case]:
    """Yield an envelope restored from a ticket after each octet, as a stream, and audited."""
    envelope, written = read(octets), digits(octets)
    yield Case().ask(f"carry {written}", envelope.answer()).ends(envelope)
    yield stream_case(octets)
    yield audit_case(octets)


def stream_case(octets: bytes) -> Case:
    """Return a case that reads a stream of envelopes."""
    found, why = listed(octets)
    printed = [f"{envelope.at} octets, {envelope.total} total" for envelope in found]
    question = f"intake {LIMITS[0]}/{LIMITS[1]} {digits(octets)}"
    return Case(is_new=False).ask(question, *printed, why or "end")


def audit_case(octets: bytes) -> Case:
    """Return a case that audits a stream of envelopes."""
    found, why = listed(octets)
    printed = [f"{len(found) + 1} {why}"] if why else rules.report(found, worked.NOW)
    return Case(is_new=False).ask(f"audit 2024-03-01T12:00:00Z {digits(octets)}", *printed)


def one_subfile_too_many() -> Case:
    """Return a case that begins a subfile after a ticket with the most subfiles."""
    front = read(SMALLEST[:86])
    place = tickets.place(front)._replace(section=8, subfiles=rules.SUBFILES)
    front.section, front.subfiles = 8, rules.SUBFILES
    head = bytes.fromhex("1C080A0000")
    case = Case().ask(
        f"restore {LIMITS[0]}/{LIMITS[1]} 86 {digits(tickets.spelled(place))}", "restored"
    )
    return case.ask(f"feed {digits(head)}", front.read(SMALLEST[:86] + head).answer())


def judged(octets: bytes, limits: Limits) -> Case:
    """Return a case that restores a ticket, and asks for the state of the unpacker after it."""
    answer = tickets.judged(octets, limits)
    case = Case(limits)
    case.ask(f"restore {case.limits} 7 {digits(octets)}", answer)
    if answer != "restored":
        return case.ask("save", digits(NEW)).ask("state", "octets 0 done false failed false")
    case.ask("save", digits(tickets.widened(octets)))
    return case.ask("state", f"octets 7 done {truth(octets[6] == 2)} failed false")


def small_tickets() -> Iterator[Case]:
    """Yield small tickets with one octet changed."""
    whole = ticket(read(SMALLEST[:88])) or b""
    for octets in NEW, ticket(Envelope(), 1) or b"", whole:
        for at in range(len(octets)):
            others = range(256) if octets != whole else {0, 1, 2, 7, 8, 9, 255, octets[at] ^ 1}
            for octet in others:
                yield judged(octets[:at] + bytes([octet]) + octets[at + 1 :], LIMITS)


def texts_up_to(part: int) -> Iterator[List[bytes]]:
    """Yield the texts of a part of a message: short, longest, and some one octet too long."""
    kinds = [(b"A", 8, 1), (b"1", 8, 2), (b"1", 1, 4), (b"A", 8, 5), (b"1", 6, 6)]
    kinds += [(b"i", 64, 7), (b"t", 64, 10)]
    for sizes in [1] * len(kinds), [most for _, most, _ in kinds], [0] * len(kinds):
        yield [letter * size if of <= part else b"" for (letter, _, of), size in zip(kinds, sizes)]
    texts = [letter if of <= part else b"" for letter, _, of in kinds]
    for at, (letter, most, _) in enumerate(kinds):
        yield [*texts[:at], letter * (most + 1), *texts[at + 1 :]]
        yield [*texts[:at], b"", *texts[at + 1 :]]


def parts_of_message(part: int) -> Iterator[Place]:
    """Yield states in a subfile and a part of a message, with counters at their bounds."""
    front = tickets.place(read(SMALLEST[:105]))
    for texts in texts_up_to(part):
        for counter in (0, 1, 31, 32, 33) if part in (0, 8, 11) else (0, 1):
            for flag in range(4) if part in (8, 9) else (0, 1):
                yield front._replace(part=part, counter=counter, flag=flag, texts=texts)


def sizes_of(total: int) -> Iterator[Dict[int, int]]:
    """Yield numbers of record 7 near the number of octets of the object so far."""
    for numbers in (
        {10: 0},
        {10: 1, 90: total},
        {10: 1, 90: total + 1},
        {10: 0, 95: total},
        {10: 0, 95: max(0, total - 1)},
    ):
        yield {20: rules.GREATEST, **numbers}


def around(place: Place) -> Iterator[Place]:
    """Yield a state with the least and the greatest number of octets that reach it, and one beyond.

    The state is in a subfile. If it is at the end of the object, it is also in record 9: before the
    size, in the size, and after it.
    """
    least, most = tickets.lengths(place)
    for total in sorted({least, max(0, least - 1), most or least + 500, (most or least) + 1}):
        for numbers in sizes_of(total):
            there = place._replace(total=total, numbers=numbers)
            yield there
            if place.part >= rules.Message.TEXT:
                for begun in (10, 4, 4, b""), (10, 4, 1, b"\0\0\0"), None:
                    yield there._replace(section=9, phase=1 if begun else 2, begun=begun)


def row_case(record: int, dataset: int) -> Case:
    """Return a case that asks for a row, with each single octet, and lengths near its bounds."""
    row, case = rules.row_of(record, dataset), Case(is_new=False)
    if row is None:
        return case.ask(f"row {record} {dataset}", "none")
    duty = "Mandatory" if row.is_mandatory else "Optional"
    duty = "ByMode" if (record, dataset) == (7, 90) else duty
    repeats = "repeats" if row.repeats else "once"
    printed = f"{named(record, dataset)} {row.least}..{row.most} {row.kind} {duty} {repeats}"
    case.ask(f"row {record} {dataset}", printed)
    for octet in range(256):
        case.ask(f"admits {record} {dataset} {octet:02X}", yes_of(row, bytes([octet])))
    most = min(row.most, 20000)
    for size in {max(0, row.least - 1), row.least, row.least + 1, most, most + 1}:
        for octet in b"\0A1\xff":
            octets = f"({octet:02X})*{size}" if size else "-"
            case.ask(f"admits {record} {dataset} {octets}", yes_of(row, bytes([octet]) * size))
    return case


def yes_of(row: rules.Row, octets: bytes) -> str:
    """Return whether a row accepts octets, in the form of a reply."""
    return "yes" if rules.admits(row, octets) else "no"


def written(octets: bytes) -> str:
    """Return octets as part of a line of a script, after a space, or nothing without octets."""
    return " " + rules.shown(octets) if octets else ""


def script_of(
    fields: Sequence[Field], head: Sequence[bytes], lines: Sequence[bytes], trailer: bytes
) -> Tuple[bytes, int]:
    """Return the script of a value, and the number of its lines before the story."""
    front = [f"{named(*field[:2])}{written(field[2])}" for field in fields]
    front.append("message " + " ".join(part.decode() for part in head[:5]) + written(head[5]))
    front += [f"trailer{written(trailer)}"] if trailer else []
    front.append("text")
    octets = "".join(f"{line}\n" for line in front).encode()
    return octets + b"".join(line + b"\n" for line in lines), len(front)
