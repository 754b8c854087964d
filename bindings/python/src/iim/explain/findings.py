"""Find what a rejected envelope suffers from, by trying to undo it.

Each finding names what was tried and how far the library then accepts the bytes. They are sorted:
the likeliest, and those after which everything is accepted, come first.
"""
from __future__ import annotations

import functools
import re
from typing import Iterator, List, NamedTuple, Optional, Tuple

import iim
from iim.explain import recognition
from iim.explain.channels import CHANNELS, CONVERSIONS, Part, encoded, undone
from iim.explain.corrections import corrections
from iim.explain.locating import Edit, Located, hole_at, joined_at, located, tags_after
from iim.explain.rebuilding import (
    object_changed,
    placeholder,
    rebuilt,
    record_1,
)
from iim.explain.tries import FURTHER, MESSAGE, MISSING, NEAR, RECORD, STORY, Fix, Tries
from iim.explain.trying import Outcome, judge
from iim.explain.walk import Item
from iim.explain.words import counted, name, names, plain, shown, titled

# The bytes of a file from the rejected envelope on that are changed as a whole; those of the search
# by the counts; those in which something is looked for; and the largest span in front that is junk.
LIMIT, SEARCHED, NEARBY, JUNK = 1 << 21, 1 << 20, 1 << 17, 1 << 16

# The likelihood of a finding: the lower, the likelier.
TRANSFER, VALUE, BETWEEN, BIT, PLACE, DATASET, BYTE, OTHER, NOTE = range(9)

# The conversions that are named also if they make only more of the envelope valid.
PARTIAL = "With each CR LF changed to LF", "With UTF-8 converted"

BINARY = "transfer the file again in binary mode"


class Finding(NamedTuple):
    """What was tried, and with which result.

    Attributes:
        likelihood: How likely it is: 0 is the likeliest.
        kind: A word for what was tried.
        text: A sentence.
        outcome: How far the changed bytes are accepted; `None` for a fact, which was not tried.
        reason: The likely reason, if this is the best finding, or an empty text.
        advice: What to do then, or an empty text.
        edit: The bytes that were replaced, or `None`.
        fix: The single-byte changes, or `None`.
    """

    likelihood: int
    kind: str
    text: str
    outcome: Optional[Outcome] = None
    reason: str = ""
    advice: str = ""
    edit: Optional[Edit] = None
    fix: Optional[Fix] = None

    @property
    def is_whole(self) -> bool:
        """Whether the envelope is accepted then."""
        return self.outcome is not None and self.outcome.envelopes > 0

    def order(self) -> Tuple[int, int, int]:
        """Return the key by which findings are sorted."""
        reach = self.outcome.reach if self.outcome else 0
        is_sure = self.is_whole or self.outcome is None and self.likelihood <= VALUE
        tier = 0 if is_sure else 2 if self.outcome is None else 1
        return tier, self.likelihood, -reach if tier == 1 else 0


class Findings:
    """What the envelope of `tries` suffers from."""

    def __init__(self, tries: Tries) -> None:
        """Prepare to look for it."""
        self._tries, self._limits = tries, tries.limits
        self._octet, self._refusal = tries.octet, tries.refusal

    @functools.cached_property
    def octets(self) -> bytes:
        """The bytes from the envelope on, at most `LIMIT`."""
        return self._tries.take(0, LIMIT)

    @property
    def _is_near(self) -> bool:
        """Whether the rejected byte is in `octets`, or just after them."""
        return self._octet <= len(self.octets)

    @functools.cached_property
    def _sizes(self) -> iim.Sizes:
        """The sizes of the object up to the rejected byte."""
        return iim.Envelope(self._refusal.ticket, nth=1, at=0, length=self._octet).sizes

    def _judge(self, octets: bytes) -> Outcome:
        """Return how far bytes in place of those of the envelope are accepted."""
        is_cut = self._tries.source.size - self._tries.at > len(self.octets)
        return judge(octets, self._limits, is_cut)

    @functools.cached_property
    def kind(self) -> Optional[recognition.Kind]:
        """What the file is, if it does not begin as IIM; otherwise `None`."""
        if self._tries.at or self._octet > 16 or self.octets[:2] == b"\x1c\x01":
            return None
        return recognition.kind_of(self.octets)

    @functools.cached_property
    def all(self) -> List[Finding]:
        """All findings, the best first."""
        if not self._tries.source.size:
            return []
        found = [*self._of_file()]
        if self.is_foreign:
            return sorted(found, key=Finding.order)
        if self._is_near:
            found += self._transfers()
        if not any(each.is_whole and each.likelihood == TRANSFER for each in found):
            if self._is_near:
                found += [*self._values(), *self._places(), *self._datasets(), *self._messages()]
            found += [*self._lost_octets(), *self._single_bytes()]
        if self._is_near and not any(each.is_whole for each in found):
            found += self._hole()
        found += self._after_the_last()
        found += self._facts()
        return sorted(distinct(found), key=Finding.order)

    @property
    def is_foreign(self) -> bool:
        """Whether the file is something else than IIM, so that its bytes are not envelopes'."""
        return self.kind is not None or self.is_message

    @functools.cached_property
    def is_message(self) -> bool:
        """Whether the file is a bare message."""
        return not self._tries.at and BARE.match(self.octets) is not None

    def _result(
        self, how: str, outcome: Outcome, least: int = 0, edit: Optional[Edit] = None
    ) -> Optional[str]:
        """Return a sentence on a change that makes more of the envelope valid, or `None`.

        Its offset is that in the file, or in the changed bytes if many of them were changed.
        """
        if outcome.envelopes:
            return f"{how}: the envelope is accepted{after_it(outcome)}."
        if outcome.reach > max(self._octet + FURTHER, least):
            of = "" if edit else " of the changed octets"
            return f"{how}: it is valid up to octet {reach_of(outcome, edit):,}{of}."
        return None

    def _tried(
        self,
        likelihood: int,
        kind: str,
        how: str,
        octets: bytes,
        reason: str = "",
        advice: str = "",
        edit: Optional[Edit] = None,
        least: int = 0,
    ) -> Iterator[Finding]:
        """Try bytes in place of those of the envelope, and yield a finding if that helps."""
        outcome = self._judge(octets)
        text = self._result(how, outcome, least, edit)
        if text is not None:
            yield Finding(likelihood, kind, text, outcome, reason, advice, edit)

    # --- The whole file

    def _of_file(self) -> Iterator[Finding]:
        """Try what the file is, and what is inside it or behind its beginning."""
        if self._octet > 64:
            return
        if self._tries.at:
            yield from self._without_record_1()
            return
        if self.is_message:
            yield from self._bare_message()
            return
        if self.kind is not None:
            yield from self._inside()
        if not self._octet or self.kind is not None:
            yield from self._in_front()
        yield from self._without_record_1()

    def _inside(self) -> Iterator[Finding]:
        """Try what is inside the file."""
        assert self.kind is not None
        octets = self._tries.take(0, recognition.MOST)
        tried = recognition.best(octets, self._limits)
        if tried is None:
            return
        how = ", ".join(f"{layer.how[:1].lower()}{layer.how[1:]}" for layer in tried.layers)
        names_of = " in ".join(layer.kind.name for layer in reversed(tried.layers))
        outcome = tried.outcome
        sentence = f"{how[:1].upper()}{how[1:]}, it is {outcome.sentence()}"
        if outcome.tail and outcome.tail <= 4:
            sentence += f": without the last {counted(outcome.tail, 'octet')}, all of it"
        elif outcome.refusal is not None and not outcome.envelopes:
            sentence += f", then {str(outcome.refusal).partition(' ')[2]}"
        advice = "; then ".join(
            dict.fromkeys(layer.kind.advice for layer in tried.layers if layer.kind.advice)
        )
        yield Finding(
            TRANSFER, "inside", f"{sentence}.", outcome, f"the file is {names_of}", advice
        )

    def _in_front(self) -> Iterator[Finding]:
        """Try the file without what is in front of the first record 1."""
        for at in joined_at(self.octets[:JUNK], 1):
            outcome = self._judge(self.octets[at:])
            if outcome.envelopes:
                front = self.octets[:at]
                what = f", '{plain(front[:40])}'" if printable_text(front) else ""
                what = f", all {name(front[0])}" if len(set(front)) == 1 else what
                how = f"Without the first {counted(at, 'octet')}{what}"
                text = f"{how}, it is {outcome.sentence()}."
                reason = f"{counted(at, 'octet')} were put in front of the envelope"
                yield Finding(
                    BETWEEN,
                    "front",
                    text,
                    outcome,
                    reason,
                    "remove what is in front of 1C 01",
                    Edit(0, at, b""),
                )
                return

    def _bare_message(self) -> Iterator[Finding]:
        """Try the file as the message of an envelope."""
        octets = self.octets
        front = record_1().replace(placeholder(1, 20), b"\x1c\1\x14\0\2\0\2")
        size = len(octets)
        numbers = [(10, b"\1"), (20, size.to_bytes(4, "big")), (90, size.to_bytes(4, "big"))]
        parts = [Part(2, 0, b"\0\4"), *(Part(7, *each) for each in numbers), Part(8, 10, octets)]
        made = front + encoded([*parts, Part(9, 10, size.to_bytes(4, "big"))])
        outcome = self._judge(made)
        needs = (
            "an envelope needs 1:00, 1:20 as 2, 1:22, 1:30 Service Identifier, 1:40 Envelope"
            " Number, 1:70 Date Sent, 2:00, 7:10, 7:20, the message as 8:10, and 9:10"
        )
        reason = "the file is a bare IPTC 7901 message, without an envelope"
        begin = made.index(octets)
        if outcome.is_all:
            text = f"With an envelope put around it, it is accepted: {needs}."
        else:
            reached = max(0, outcome.reach - begin)
            text = (
                f"With an envelope put around it, the message is valid up to octet {reached:,} of"
                f" {size:,}: {needs}."
            )
        yield Finding(
            TRANSFER,
            "bare message",
            text,
            outcome,
            reason,
            "put an envelope around it, such as with `iimwire pack`",
        )

    def _without_record_1(self) -> Iterator[Finding]:
        """Try a record 2 without a record 1.

        Either record 1 was lost, or this is a block of record 2 alone, as pictures carry it.
        """
        front = self.octets[:JUNK]
        begin = re.search(rb"\x1c\x02", front)
        if begin is None or b"\x1c\x01" in front[: begin.start()]:
            return
        at = begin.start()
        before = record_1()
        before = before.replace(placeholder(1, 20), b"\x1c\1\x14\0\2\0\2")
        outcome = self._judge(before + self.octets[at:])
        reach = outcome.first - len(before) + at
        found = f"At octet {at:,} a record 2 begins, and there is no record 1 before it"
        valid = f"it is valid up to octet {reach:,}"
        lost, advice = "record 1 is lost", "ask for the file again"
        inserted = f"{found}: record 1 is lost. With a record 1 inserted there,"
        if outcome.is_all:
            text = f"{inserted} everything after it is accepted."
        elif outcome.envelopes:
            text = f"{inserted} the envelope is accepted, and ends before octet {reach:,}."
        elif self._record_of(outcome, before) > 2:
            text = f"{inserted} {valid}."
        elif reach >= at + 5 and not self._tries.at:
            alone = "this is a block of record 2 alone, as pictures carry it, and no wire copy"
            text, lost = f"{found}. With one inserted there, {valid}: {alone}.", alone
            advice = "use a reader for pictures, such as exiftool"
        else:
            return
        yield Finding(TRANSFER, "record 1", text, outcome, lost, advice)

    def _record_of(self, outcome: Outcome, before: bytes) -> int:
        """Return the record in which a tried envelope is rejected."""
        refusal = outcome.refusal
        if refusal is None:
            return 9
        there = iim.Receiver.resume(refusal.ticket, refusal.octet, self._limits)
        return there.current_position().record

    # --- Transfers and conversions

    def _transfers(self) -> Iterator[Finding]:
        """Try to undo a transfer as text, or a conversion."""
        octets = self.octets if self._octet < SEARCHED else b""
        found: List[Finding] = []
        for each in CONVERSIONS:
            try:
                made = each.undo(octets)
            except ValueError:
                made = self._of_front(each.undo)
            if made and made != octets:
                found += self._tried(TRANSFER, "conversion", each.undone, made, each.done, BINARY)
        whole = [each for each in found if each.is_whole]
        if whole:
            yield from whole[:1]
            return
        for channel in CHANNELS.values():
            restored = undone(channel, octets[:SEARCHED])
            if restored is None:
                continue
            advice, likelihood = BINARY, TRANSFER
            if channel.key == "characters":
                advice, likelihood = "ask the sender to count octets", VALUE
                if b"\xef\xbf\xbd" in octets:
                    continue
            for finding in self._tried(
                likelihood, channel.key, channel.undone, restored, channel.done, advice
            ):
                if finding.is_whole:
                    yield finding
                    return
        yield from self._lost_characters()
        if len(octets) > self._octet:
            yield from (
                each._replace(likelihood=OTHER)
                for each in found
                if each.text.startswith(PARTIAL)
                and each.outcome
                and each.outcome.reach > self._octet + 64
            )

    def _of_front(self, undo: object) -> bytes:
        """Return the bytes up to the rejected one, changed back, if that is possible."""
        return b""

    def _lost_characters(self) -> Iterator[Finding]:
        """Yield what the bytes lack that each envelope has, and marks of lost characters."""
        octets = self.octets
        if octets[:2] != b"\x1c\x01" or len(octets) < 16 or self._tries.ends and self._octet < 64:
            return
        if b"\0" not in octets:
            yield Finding(
                TRANSFER,
                "no nul",
                "Each envelope has NULs (00), as in the tags of 1:00 and 2:00 and in each count"
                f" below 256: these {counted(len(octets), 'octet')} have none.",
                None,
                "a transfer dropped or replaced each NUL (00)",
                BINARY,
            )
        marks = octets.count(b"\xef\xbf\xbd")
        if marks:
            first = octets.index(b"\xef\xbf\xbd")
            yield Finding(
                TRANSFER,
                "replacement",
                f"EF BF BD, the replacement character of UTF-8, is there {counted(marks, 'time')},"
                f" first at octet {first:,}: octets are lost there, with three in place of each.",
                None,
                "a program read the file as UTF-8 text, and replaced what it could not read",
                BINARY,
            )

    # --- Values

    def _values(self) -> Iterator[Finding]:
        """Try other forms of the invalid value."""
        here, refusal = self._tries.here, self._refusal
        if (
            here is None
            or here.size is None
            or here.number is None
            or refusal.cause not in (13, 15, 16)
        ):
            return
        begin = here.at + here.head
        value = self.octets[begin : begin + here.size]
        title = titled(here.record, here.number)
        if len(value) < here.size or here.size > 1 << 16:
            return
        for each in list(corrections(here.record, here.number, value))[:4]:
            put = encoded([Part(here.record, here.number, each.value)])
            edit = Edit(here.at, here.head + here.size, put)
            made = shown(each.value, 24) if each.value.isalnum() else value_of(each.value)
            how = f"With {title} as {made}, {each.how}"
            yield from self._tried(
                VALUE,
                "value",
                how,
                edit.of(self.octets),
                each.reason,
                advice_of_value(refusal.cause),
                edit,
                here.at + len(put),
            )

    # --- Places

    def _places(self) -> Iterator[Finding]:
        """Try where bytes may be lost, added or zeroed, and where the envelope continues."""
        item = self._suspect()
        if item is not None:
            total = self._sizes.announced
            best: List[Finding] = []
            for place in located(self.octets, item, self._octet, total):
                best += self._place(place)
            best.sort(key=Finding.order)
            yield from best[: 1 if best and best[0].is_whole else 2]
        yield from self._joined()

    def _suspect(self) -> Optional[Item]:
        """Return the dataset that may be longer or shorter than it counts."""
        tries = self._tries
        if tries.here is not None and tries.place.begun == "data":
            return tries.here
        if not tries.datasets:
            return None
        if tries.here is not None:
            return tries.datasets[-2] if len(tries.datasets) > 1 else None
        return tries.datasets[-1]

    def _place(self, place: Located) -> Iterator[Finding]:
        """Try a place, and yield a finding if it helps."""
        outcome = self._judge(place.edit.of(self.octets))
        reach = reach_of(outcome, place.edit)
        if outcome.envelopes:
            end = f"the envelope is accepted{after_it(outcome)}"
        elif reach > self._octet + FURTHER + 8:
            end = f"it is valid up to octet {reach:,}"
        else:
            return
        text = f"{place.what[:1].upper()}{place.what[1:]}: {place.how}, {end}."
        yield Finding(PLACE, "place", text, outcome, place.reason, BINARY, place.edit)

    def _joined(self) -> Iterator[Finding]:
        """Try where another envelope begins, inside the rejected one or after some bytes."""
        if self._tries.here is not None and self._tries.here.record in (1, 2):
            begin = self._tries.here.at + self._tries.here.head
        else:
            begin = max(0, self._octet - NEARBY // 4) if self._octet else 0
        for at in joined_at(self.octets[: self._octet + NEARBY], begin):
            if not at:
                continue
            outcome = self._judge(self.octets[at:])
            if not outcome.envelopes:
                continue
            if self._octet:
                if not ENDED.search(self.octets[max(0, at - 16) : at]):
                    yield self._of_joined(at, outcome)
            else:
                yield from self._between(at, outcome)
            return

    def _of_joined(self, at: int, outcome: Outcome) -> Finding:
        """Return the finding of an envelope inside the rejected one."""
        where = f"octet {at:,}" + f" (octet {self._tries.at + at:,} of the file)" * bool(
            self._tries.at
        )
        text = (
            f"At {where} another envelope begins: from there on, the bytes are"
            f" {outcome.sentence()}. So envelope {self._refusal.nth:,} ends early, before it."
        )
        return Finding(
            VALUE,
            "joined",
            text,
            None,
            "the end of the envelope is lost, and another file was joined to it",
            "ask for the first of both again; split the file before the second",
        )

    def _between(self, at: int, outcome: Outcome) -> Iterator[Finding]:
        """Yield the finding of bytes between two envelopes."""
        mark = self.octets[:at]
        called = between_in_words(mark)
        count = counted(at, "octet")
        begin = self._tries.at
        every = re.sub(re.escape(mark) + rb"(?=\x1c\x01)", b"", self.octets[at:])
        if mark[:1] != b"\x1c":
            rest = self._judge(every)
            if not rest.envelopes > outcome.envelopes and rest.tail and rest.tail <= len(mark):
                rest = outcome
            for made in (every, every[: -len(mark)] if every.endswith(mark) else every):
                rest = self._judge(made)
                if rest.is_all and rest.envelopes > outcome.envelopes:
                    total = counted(rest.envelopes + self._refusal.nth - 1, "envelope")
                    text = (
                        f"With the {called} after each envelope removed ({count} each), all"
                        f" {total} are accepted."
                    )
                    yield Finding(
                        BETWEEN,
                        "between",
                        text,
                        rest,
                        f"{called} was put after each envelope",
                        "join envelopes without anything between them",
                    )
                    return
        text = (
            f"Without octets {begin:,} to {begin + at - 1:,} of the file ({count}, {called}), what"
            f" follows is {outcome.sentence()}."
        )
        yield Finding(
            BETWEEN,
            "between",
            text,
            outcome,
            f"{called} is between two envelopes",
            "join envelopes without anything between them",
            Edit(0, at, b""),
        )

    # --- Datasets

    def _datasets(self) -> Iterator[Finding]:
        """Try without a redundant dataset, with a missing one, and built again."""
        here, refusal = self._tries.here, self._refusal
        if self._tries.ends:
            return
        if here is not None and here.size is not None:
            yield from self._without(here)
            if refusal.cause == MISSING:
                put = placeholder(refusal.record, refusal.number)
                missing = titled(refusal.record, refusal.number)
                how = f"With {missing} inserted before it, as '{shown(put[5:])}'"
                edit = Edit(here.at, 0, put)
                yield from self._tried(
                    VALUE,
                    "missing",
                    how,
                    edit.of(self.octets),
                    f"the sender omits {missing}",
                    f"ask the sender to set {missing}",
                    edit,
                )
        if refusal.layer in (RECORD, "object"):
            for each in rebuilt(self.octets):
                yield from self._tried(
                    DATASET, "rebuilt", each.how, each.octets, each.reason, each.advice
                )
        yield from self._skipped()

    def _without(self, here: Item) -> Iterator[Finding]:
        """Try without the rejected dataset."""
        if self._refusal.layer != RECORD or here.size is None or self._refusal.cause == MISSING:
            return
        end = here.at + here.head + here.size
        what = f"Without this dataset {titled(here.record, here.number)}"
        edit = Edit(here.at, end - here.at, b"")
        reason = ""
        if self._refusal.cause == 12:
            value = self.octets[here.at + here.head : end]
            first = dict((key, data) for key, data in reversed(self._values_before(here)))
            same = first.get((here.record, here.number or 0)) == value
            reason = f"{titled(here.record, here.number)} is there twice, "
            reason += "with the same value" if same else "with two values"
        yield from self._tried(
            DATASET,
            "without",
            what,
            edit.of(self.octets),
            reason,
            "find out which of the two is meant" if reason else "",
            edit,
            here.at + 4,
        )

    def _values_before(self, here: Item) -> List[Tuple[Tuple[int, int], bytes]]:
        """Return the values of the datasets before one."""
        return [
            (
                (item.record, item.number or 0),
                self.octets[item.at + item.head : item.at + item.length],
            )
            for item in self._tries.datasets
            if item.at < here.at
        ]

    def _skipped(self) -> Iterator[Finding]:
        """Try without the bytes from the end of the last complete dataset up to a later tag."""
        here, datasets = self._tries.here, self._tries.datasets
        if here is None and datasets and datasets[-1].record < 8:
            begin, record = self._octet, datasets[-1].record
        else:
            return
        for tag, at in tags_after(self.octets, record, begin, begin + NEARBY)[:4]:
            if at > begin:
                edit = Edit(begin, at - begin, b"")
                count = counted(at - begin, "octet")
                how = f"Without octets {begin:,} to {at - 1:,} ({count})"
                hole = hole_at(self.octets, begin)
                reason = f"{count} are between two datasets"
                if hole is not None:
                    how += f", of which {hole[0]:,} to {hole[1] - 1:,} are NUL"
                    reason = f"{counted(hole[1] - hole[0], 'octet')} were replaced by NUL (00)"
                found = [
                    *self._tried(OTHER, "skipped", how, edit.of(self.octets), reason, BINARY, edit)
                ]
                if found:
                    yield from found
                    return

    # --- The message

    def _messages(self) -> Iterator[Finding]:
        """Try changes of the message, with subfiles and sizes that fit."""
        if self._refusal.layer not in (MESSAGE, STORY):
            return
        puts = 0
        for how, octets, reason, advice in self._message_changes():
            is_put = " put in before " in how
            found = list(self._tried(DATASET, "message", how, octets, reason, advice))
            if not is_put or not puts:
                yield from found
            puts += is_put and any(each.is_whole for each in found)

    def _message_changes(self) -> Iterator[Tuple[str, bytes, str, str]]:
        """Yield changes of the message: how, the bytes, the likely reason and what to do."""
        at = self._sizes.total
        sizes = ", and the sizes as they are then"
        changes = [
            (
                "With each CR of the object that is alone made LF",
                lambda octets: re.sub(rb"\r(?!\r?\n)", b"\n", octets),
                "lines end with CR alone",
                "end lines with CR LF",
            ),
            (
                f"Without octet {self._octet:,}{sizes}",
                lambda octets: octets[:at] + octets[at + 1 :],
                "",
                "",
            ),
            (
                f"With ETX (03) and EOT (04) put in at the end of the object{sizes}",
                lambda octets: octets + b"\3\4",
                "the end of the story is lost, or the sender omits ETX and EOT",
                "",
            ),
            (
                f"With EOT (04) put in at the end of the object{sizes}",
                lambda octets: octets + b"\4",
                "the sender omits EOT (04) at the end of the message",
                "",
            ),
        ]
        for put in (b" 0", b"0", b"1", b" ", b"\n", b"\r\n", b"N ", b"X"):
            called = f"'{plain(put)}'" if printable_text(put) and put.strip() else ""
            called = called or " ".join(name(octet) for octet in put)
            changes.append(
                (
                    f"With {called} put in before octet {self._octet:,}{sizes}",
                    functools.partial(inserted, at, put),
                    "",
                    "",
                )
            )
        for how, change, reason, advice in changes:
            made = object_changed(self.octets, change)
            if made is not None:
                yield how, made, reason, advice

    # --- Single bytes

    def _lost_octets(self) -> Iterator[Finding]:
        """Try to remove or insert one byte, if changing one byte does not fix the envelope."""
        tries = self._tries
        if tries.ends or any(fix.whole for fix in tries.fixes.values()):
            return
        span = range(max(0, self._octet - NEAR), self._octet + 1)
        less = [octet for octet in span if tries.edited(octet, 1, b"")[1]]
        if less:
            which = octets_in_words(less)
            values = names({self._tries.take(octet, 1)[0] for octet in less})
            text = f"Without {which} ({values}) the envelope is accepted: one octet was added."
            edit = Edit(less[0], 1, b"")
            outcome = self._accepted(edit)
            yield Finding(PLACE, "added octet", text, outcome, "one octet was added", BINARY, edit)
        put = {
            octet: [value for value in b"0A\n\r \0\x1c\3\4\1\2" if self._fits(octet, value)]
            for octet in span
        }
        fits = [octet for octet in span if put[octet]]
        if fits:
            which = octets_in_words(fits, "before ")
            values = names(set(value for octet in fits for value in put[octet]))
            text = f"With {values} inserted {which} the envelope is accepted: one octet is lost."
            edit = Edit(fits[-1], 0, bytes(put[fits[-1]][:1]))
            outcome = self._accepted(edit)
            yield Finding(PLACE, "lost octet", text, outcome, "one octet is lost", BINARY, edit)

    def _accepted(self, edit: Edit) -> Outcome:
        """Return the outcome of an edit after which the envelope is accepted."""
        if self._is_near:
            return self._judge(edit.of(self.octets))
        return Outcome(0, 1, 0, 0, 0, None)

    def _fits(self, octet: int, value: int) -> bool:
        """Check whether the envelope is accepted with a byte inserted at an offset."""
        return self._tries.edited(octet, 0, bytes([value]))[1]

    def _single_bytes(self) -> Iterator[Finding]:
        """Yield the single-byte changes that fix the envelope or make more of it valid."""
        from iim.explain.sections import fix_in_words

        for fix in self._tries.reported_fixes():
            if self._keeps_bad_value(fix):
                continue
            likelihood = {0: BIT, 1: BYTE, 2: OTHER}[fix.order[0]]
            first = min(fix.octets)
            edit = Edit(fix.first, 1, bytes([first]))
            outcome = Outcome(0, int(fix.whole), 0, fix.far, fix.far, None)
            reason = "one bit was changed" if fix.order[0] == 0 else ""
            advice = "transfer the file again" if reason else ""
            yield Finding(
                likelihood,
                "single byte",
                fix_in_words(self._tries, fix),
                outcome,
                reason,
                advice,
                edit,
                fix,
            )

    def _keeps_bad_value(self, fix: Fix) -> bool:
        """Check whether a change would keep a rejected value under another dataset number."""
        here = self._tries.here
        if self._refusal.cause not in (13, 15, 16) or here is None or here.number is None:
            return False
        if fix.first != here.at + 2:
            return False
        had = {(item.record, item.number or 0) for item in self._tries.datasets[:-1]}
        lacking = {key for key in MANDATORY if key[0] == here.record} - had
        return not all((here.record, number) in lacking for number in fix.octets)

    # --- The end

    def _after_the_last(self) -> Iterator[Finding]:
        """Yield a finding if the rejected bytes follow a complete envelope."""
        nth, rest = self._refusal.nth, self._tries.source.size - self._tries.at
        if self._octet or nth == 1 or self._tries.ends:
            return
        octets = self._tries.take(0, LIMIT)
        what = f", all {name(octets[0])}" if len(set(octets)) == 1 and rest == len(octets) else ""
        before = "The envelope before it is"
        if nth > 2:
            before = f"All {nth - 1:,} envelopes before it are"
        last = f"the last {counted(rest, 'octet')}{what}"
        kind = recognition.kind_of(octets)
        reason = f"{counted(rest, 'octet')} follow the last envelope"
        reason += what or (f": {kind.name}" if kind else "")
        yield Finding(
            NOTE,
            "after the last",
            f"{before} complete: without {last}, the file is accepted.",
            Outcome(0, nth - 1, 0, 0, 0, None),
            reason,
            "remove what follows the last envelope",
        )

    def _hole(self) -> Iterator[Finding]:
        """Yield the zeros at the rejected byte, if they are many."""
        hole = None if self._tries.ends else hole_at(self.octets, self._octet)
        if hole is not None:
            count = counted(hole[1] - hole[0], "octet")
            text = f"Octets {hole[0]:,} to {hole[1] - 1:,} are NUL, a hole of {count}:"
            reason = (
                f"{count} from {hole[0]:,} on were replaced by NUL (00), as by a fault of a disk"
            )
            yield Finding(VALUE, "hole", f"{text} what was there is lost.", None, reason, BINARY)

    def _facts(self) -> Iterator[Finding]:
        """Yield what is missing of a file that ends early."""
        here = self._tries.here
        if not self._tries.ends:
            return
        if here is not None and here.size is not None:
            missing = here.at + here.head + here.size - self._octet
            if missing > 0:
                count = f"The count of {titled(here.record, here.number)} at {here.at:,}"
                are = "is" if missing == 1 else "are"
                text = (
                    f"{count} is {counted(here.size, 'octet')}, which is more than the file has:"
                    f" {missing:,} {are} missing, or the count is damaged."
                )
                yield Finding(NOTE, "missing", text)
        announced, total = self._sizes.announced, self._sizes.total
        if announced is not None and announced > total:
            text = (
                f"7:90 announces {counted(announced, 'octet')} of the object, and {total:,} were"
                f" received: {announced - total:,} are missing, and what comes after them."
            )
            yield Finding(NOTE, "missing", text)
        hole = hole_at(self.octets, self._octet) if self._is_near else None
        if hole is not None:
            text = (
                f"The last {counted(hole[1] - hole[0], 'octet')} of the file, from octet"
                f" {self._tries.at + hole[0]:,} on, are NUL (00)."
            )
            yield Finding(
                NOTE,
                "hole",
                text,
                None,
                "the file was written in part only, and its end is filled with NUL (00)",
                BINARY,
            )


# The end of an envelope.
ENDED = re.compile(
    b"|".join(rb"\x1c\x09\x0a\x00%s[\x00-\xff]{%d}" % (bytes([n]), n) for n in range(1, 9)).join(
        [b"(", rb")\Z"]
    )
)
MANDATORY = {(1, 0), (1, 20), (1, 22), (1, 30), (1, 40), (1, 70), (2, 0), (7, 10), (7, 20), (9, 10)}

# The beginning of a bare message.
BARE = re.compile(
    rb"[\0\n\r\x16]{0,32}\x01[A-Za-z]{1,8}\d{1,8} ?\d? ?[A-Za-z0-9]{0,8} ?\d{0,6}[^\x02]{0,100}\x02"
)


def reach_of(outcome: Outcome, edit: Optional[Edit]) -> int:
    """Return the offset up to which an envelope is valid with an edit, in the envelope as it is."""
    if edit is None:
        return outcome.reach
    return max(edit.at, outcome.reach + edit.cut - len(edit.put))


def inserted(at: int, put: bytes, octets: bytes) -> bytes:
    """Return bytes with others put in at an offset."""
    return octets[:at] + put + octets[at:]


def after_it(outcome: Outcome) -> str:
    """Return what is said of the envelopes after one that is accepted."""
    more = outcome.envelopes - 1
    if not more:
        return ""
    rest = "" if outcome.is_all else " up to another error"
    if outcome.is_all and outcome.is_cut:
        rest = " that were tried"
    return f", and {'the one' if more == 1 else f'the {more:,}'} after it{rest}"


def printable_text(octets: bytes) -> bool:
    """Check whether bytes are printable ASCII."""
    return all(32 <= octet < 127 for octet in octets)


def value_of(octets: bytes) -> str:
    """Return a value in quotation marks, or in hexadecimal."""
    if all(32 <= octet < 127 for octet in octets):
        return f"'{shown(octets, 24)}'"
    if any(octet < 32 for octet in octets) and len(octets) <= 8:
        return octets.hex(" ").upper()
    return f"'{shown(octets, 24)}'"


def between_in_words(octets: bytes) -> str:
    """Return the name of some bytes between two envelopes."""
    if octets in (b"\n", b"\r", b"\r\n"):
        return {b"\n": "LF", b"\r": "CR", b"\r\n": "CR LF"}[octets]
    if len(set(octets)) == 1:
        return f"all {name(octets[0])}"
    return f"'{plain(octets[:30])}'" + "..." * (len(octets) > 30)


def octets_in_words(octets: List[int], before: str = "") -> str:
    """Return some offsets in words."""
    if len(octets) == 1:
        return f"{before}octet {octets[0]:,}"
    if octets == list(range(octets[0], octets[-1] + 1)):
        return f"{before}one of the octets {octets[0]:,} to {octets[-1]:,}"
    some = ", ".join(f"{octet:,}" for octet in octets[:-1])
    return f"{before}octet {some} or {octets[-1]:,}"


def advice_of_value(cause: int) -> str:
    """Return what to do about an invalid value."""
    return "ask the sender to correct the value" + (" or its length" if cause == 13 else "")


def distinct(found: List[Finding]) -> Iterator[Finding]:
    """Yield the findings with different texts."""
    seen = set()
    for each in found:
        if each.text not in seen:
            seen.add(each.text)
            yield each
