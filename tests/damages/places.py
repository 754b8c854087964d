"""Envelopes with lost, added and zeroed octets, and several in one file."""
from __future__ import annotations

from damages.damage import ACCEPTED, Damage, Made, ask
from newsroom import COPIES, FRENCH, NORWEGIAN, RUSSIAN, SUBFILE


def places() -> Made:
    """Yield envelopes that lost or gained octets inside their subfiles, or have a hole."""
    for called, copy in COPIES.items():
        octets = copy.octets
        head, data, end = copy.place(8, 10, 1)
        middle = (data + end) // 2
        middle = next(at for at in range(middle, end) if min(octets[at - 1 : at + 4]) > 32)
        for count, words in (1, "1 octet"), (3, "3 octets"):
            yield Damage(
                f"{called}: {words} of a subfile lost",
                octets[:middle] + octets[middle + count :],
                [
                    f"The subfile at {head:,} is {words} shorter than it counts ({SUBFILE:,}):",
                    f"with {words} put in anywhere in its text, {ACCEPTED}.",
                    ask(copy),
                ],
            )
        yield Damage(
            f"{called}: an octet added to a subfile",
            octets[:middle] + b"e" + octets[middle:],
            [
                f"The subfile at {head:,} is 1 octet longer than it counts ({SUBFILE:,}):",
                f"with 1 octet removed from its text, {ACCEPTED}.",
            ],
        )
    yield from blocks()


def blocks() -> Made:
    """Yield envelopes of which a block of 512 octets is lost or zeroed."""
    for called, copy in COPIES.items():
        octets = copy.octets
        head, data, _ = copy.place(8, 10, 0)
        second, _, end = copy.place(8, 10, 1)
        inside = second + 100
        yield Damage(
            f"{called}: 512 octets lost in a subfile",
            octets[:inside] + octets[inside + 512 :],
            [
                f"The subfile at {second:,} is 512 octets shorter than it counts ({SUBFILE:,}):",
                "Likely reason: a block of 512 octets of the subfile",
            ],
        )
        across = second - 200
        yield Damage(
            f"{called}: 512 octets lost across a tag",
            octets[:across] + octets[across + 512 :],
            [
                f"A block of 512 octets is missing in the subfile at {head:,} and after it:",
                f"with 512 octets put in there, {ACCEPTED}.",
            ],
        )
        yield Damage(
            f"{called}: 512 octets zeroed across a tag",
            octets[:across] + b"\0" * 512 + octets[across + 512 :],
            [
                f"Octets {across:,} to {across + 511:,} are NUL, a hole of 512 octets:",
                f"with the tag of 8:10 Subfile put in at {second:,}, where the hole covers it,"
                f" {ACCEPTED}.",
            ],
        )


def ends() -> Made:
    """Yield files that end early, or have more after the end."""
    for called, copy in COPIES.items():
        octets = copy.octets
        head, data, end = copy.place(8, 10, 1)
        at = data + 300
        total = len(copy.message)
        received = SUBFILE + 300
        yield Damage(
            f"{called}: cut off",
            octets[:at],
            [
                f"The file ends after octet {at:,} of envelope 1,",
                f"The count of 8:10 Subfile at {head:,} is {SUBFILE:,} octets, which is more than"
                f" the file has: {SUBFILE - 300:,} are missing,",
                f"7:90 announces {total:,} octets of the object, and {received:,} were received:"
                f" {total - received:,} are missing,",
                "Likely reason: the transfer was interrupted, or the file is still being written.",
                ask(copy),
            ],
        )
    octets = NORWEGIAN.octets
    yield Damage(
        "norwegian: NULs after the end",
        octets + b"\0" * 77,
        [
            "The envelope before it is complete: without the last 77 octets, all NUL, the file is"
            " accepted.",
        ],
    )
    yield Damage(
        "norwegian: a line end after the end",
        octets + b"\r\n",
        ["without the last 2 octets, the file is accepted."],
    )


def joined() -> Made:
    """Yield several envelopes in one file."""
    copies = [NORWEGIAN.octets, FRENCH.octets, RUSSIAN.octets]
    whole = len(copies[0])
    yield Damage(
        "all: line ends between envelopes",
        b"\r\n".join(copies),
        [
            "With the CR LF after each envelope removed (2 octets each), all 3 envelopes are"
            " accepted.",
        ],
    )
    yield Damage(
        "all: 40 octets between two envelopes",
        copies[0] + b"-" * 40 + copies[1],
        [
            f"Without octets {whole:,} to {whole + 39:,} of the file (40 octets,",
            "what follows is accepted: 1 envelope.",
        ],
    )
    cut = copies[0][:2000]
    yield Damage(
        "all: a file that was cut off joined with another",
        cut + copies[1] + copies[2],
        [
            "At octet 2,000 another envelope begins: from there on, the bytes are accepted: 2"
            " envelopes.",
            "Likely reason: the end of the envelope is lost, and another file was joined to it.",
            ask(NORWEGIAN),
        ],
    )
    yield Damage(
        "all: a mail's header in front",
        b"X" * 130 + copies[0],
        ["Without the first 130 octets, all 'X', it is accepted: 1 envelope."],
    )
