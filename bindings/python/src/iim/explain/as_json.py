"""Write an explanation as one JSON object."""
from __future__ import annotations

import json
from typing import Any, Dict, List, Optional

import iim
from iim.explain import words
from iim.explain.case import Case, Found, Whole
from iim.explain.charsets import parts_of
from iim.explain.findings import Finding
from iim.explain.release import release
from iim.explain.sections import sections
from iim.explain.walk import Item
from iim.explain.words import printable

# The number of the form: it grows if a member gets another meaning or is removed.
FORM = 1


def as_json(case: Case) -> str:
    """Return the explanation of a file as JSON, on one line."""
    return json.dumps(explanation(case), ensure_ascii=True)


def explanation(case: Case) -> Dict[str, Any]:
    """Return the explanation of a file as a dictionary."""
    listed = case.listed()
    return {
        "form": FORM,
        "release": release(),
        "file": printable(case.source.name),
        "size": case.source.size,
        "sha256": case.sha_256,
        "verdict": case.verdict(),
        "accepted": case.count,
        "refused": None if case.refusal is None else refused(case),
        "sections": [
            {"title": section.title, "lines": section.lines} for section in sections(case)
        ],
        "ask": case.ask or None,
        "envelopes": [envelope(found, case) for found in listed],
        "envelopes_left_out": listed[-1].nth - len(listed) if listed else 0,
        "shown": [whole_of(whole) for whole in case.wholes],
    }


def envelope(found: Found, case: Case) -> Dict[str, Any]:
    """Return a listed envelope."""
    return {
        "envelope": found.nth,
        "at": found.at,
        "octets": found.length,
        "id": [None if part is None else words.shown(part) for part in found.id],
        "is_refused": bool(case.refusal and found.nth == case.refusal.nth),
    }


def refused(case: Case) -> Dict[str, Any]:
    """Return the refusal, its likely reason and the findings."""
    refusal, whole = case.refusal, case.refused
    assert refusal is not None
    made: Dict[str, Any] = {
        "envelope": refusal.nth,
        "at": refusal.at,
        "octet": refusal.octet,
        "octet_in_file": refusal.octet_in_file,
        "ends_early": isinstance(refusal, iim.TruncatedError),
        "layer": refusal.layer,
        "dataset": refusal.dataset,
        "name": iim.dataset_name(refusal.record, refusal.number),
        "cause": refusal.cause,
        "cause_name": refusal.cause_name,
        "meaning": iim.cause_text(refusal.cause),
    }
    if whole is None or whole.tries is None or case.findings is None:
        return made
    kind = case.findings.kind
    made["is"] = kind.name if kind else None
    made["reason"], made["advice"] = case.reason.reason, case.reason.advice or None
    made["accepted_next"] = sorted(whole.tries.accepted)
    made["fixes"] = [finding(each) for each in case.findings.all]
    return made


def finding(each: Finding) -> Dict[str, Any]:
    """Return what was tried, and with which result."""
    made: Dict[str, Any] = {"kind": each.kind, "text": each.text}
    if each.outcome is not None:
        made["accepts_envelope"] = each.is_whole
    if each.edit is not None:
        put = each.edit.put[:1_024]
        made["edit"] = {"octet": each.edit.at, "removed": each.edit.cut, "put": put.hex()}
    if each.fix is not None:
        values = sorted(each.fix.octets)
        made["single"] = {"first": each.fix.first, "last": each.fix.last, "values": values}
    return made


def whole_of(whole: Whole) -> Dict[str, Any]:
    """Return an envelope that is shown byte by byte."""
    return {
        "envelope": whole.found.nth,
        "at": whole.found.at,
        "octets": whole.found.length,
        "encoding": {"name": whole.encoding.name, "source": whole.encoding.source},
        "items": [item_of(whole, item) for item in whole.walk.items],
        "notes": [*whole.instants(), *whole.sizes()],
    }


def item_of(whole: Whole, item: Item) -> Dict[str, Any]:
    """Return a dataset, a part of the message or a line of the story."""
    made: Dict[str, Any] = {
        "at": item.at,
        "octets": item.length,
        "kind": item.kind,
        "label": item.label,
        "value": item.value,
    }
    if item.kind == "dataset":
        made["dataset"] = [item.record, item.number]
        made["count"] = item.size
    if item.text is not None:
        made["text"] = text_of(whole, item.text)
        made["text_octets"] = item.text_size
    if whole.tries is not None and item is whole.tries.here:
        made["is_refused"] = True
    return made


def text_of(whole: Whole, octets: bytes) -> Optional[str]:
    """Return bytes as text, with escapes for those that are no text of the encoding."""
    texts: List[str] = [text for text, _ in parts_of(octets, whole.encoding.name)]
    return "".join(texts)
