"""Envelopes after transfers as text, and after conversions."""
from __future__ import annotations

import re
from typing import Callable, List, Tuple

from damages.damage import ACCEPTED, Damage, Made, ask
from newsroom import COPIES, FRENCH, NORWEGIAN, RUSSIAN


def transfers() -> Made:
    """Yield each envelope after transfers that change octets."""
    changes: List[Tuple[str, Callable[[bytes], bytes], str]] = [
        ("lone LF to CR LF", lambda octets: re.sub(rb"(?<!\r)\n", b"\r\n", octets), "CR LF of LF"),
        ("LF to CR LF", lambda octets: octets.replace(b"\n", b"\r\n"), "CR LF of each LF"),
        ("CR LF to LF", lambda octets: octets.replace(b"\r\n", b"\n"), "made LF of CR LF"),
        ("CR LF to CR", lambda octets: octets.replace(b"\r\n", b"\r"), "made CR of CR LF"),
        ("LF dropped", lambda octets: octets.replace(b"\n", b""), "dropped each LF (0A)"),
        ("NUL dropped", lambda octets: octets.replace(b"\0", b""), "dropped each NUL (00)"),
        ("NUL to space", lambda octets: octets.replace(b"\0", b" "), "a space (20) of each NUL"),
    ]
    for called, copy in COPIES.items():
        for name, change, words in changes:
            sentences = [words, f": {ACCEPTED}", ask(copy) if "NUL" not in name else "Ask "]
            yield Damage(f"{called}: {name}", change(copy.octets), sentences)


def conversions() -> Made:
    """Yield envelopes that a program read as text of one encoding and wrote in another."""
    for called, copy in ("norwegian", NORWEGIAN), ("russian", RUSSIAN):
        latin = copy.octets.decode("latin-1")
        yield Damage(
            f"{called}: Latin-1 to UTF-8",
            latin.encode("utf-8"),
            [
                "Likely reason: a program read the file as Latin-1 text and wrote it as UTF-8.",
                f"With UTF-8 converted to Latin-1: {ACCEPTED}.",
            ],
        )
    text = FRENCH.octets.decode("utf-8")
    yield Damage(
        "french: UTF-8 to Windows-1252",
        text.encode("cp1252"),
        [
            "as UTF-8 text and wrote it as Windows-1252.",
            f"Windows-1252 converted to UTF-8: {ACCEPTED}.",
        ],
    )
    yield Damage(
        "french: UTF-8 twice",
        FRENCH.octets.decode("latin-1").encode("utf-8"),
        [f"With UTF-8 converted to Latin-1: {ACCEPTED}."],
    )
    lost = NORWEGIAN.octets.decode("utf-8", "replace").encode("utf-8")
    count = lost.count(b"\xef\xbf\xbd")
    first = lost.index(b"\xef\xbf\xbd")
    yield Damage(
        "norwegian: read as UTF-8, with replacement characters",
        lost,
        [f"is there {count} times, first at octet {first:,}", "replaced what it could not read"],
    )
    yield Damage(
        "norwegian: to EBCDIC",
        NORWEGIAN.octets.decode("latin-1").encode("cp500"),
        [f"With EBCDIC (code page 500) converted to Latin-1: {ACCEPTED}."],
    )
