"""Envelopes as newsrooms have them, of three kilobytes each, for tests.

One has text in Latin-1, one in UTF-8, which its 1:90 declares, and one in Cyrillic letters of
ISO 8859-5, which its 1:90 declares, too. Each has a caption of several lines and several subfiles.
"""
from __future__ import annotations

from typing import Dict, List, NamedTuple, Tuple

import rules
from rules import Field

SUBFILE = 1024


class Copy(NamedTuple):
    """An envelope, and what it is made of.

    Attributes:
        fields: The datasets of records 1 and 2.
        head: The parts of the message's header.
        lines: The lines of the story.
        encoding: The encoding of the text.
    """

    fields: List[Field]
    head: List[bytes]
    lines: List[bytes]
    encoding: str

    @property
    def message(self) -> bytes:
        """The message."""
        return rules.object_of(self.head, self.lines, b"")

    @property
    def octets(self) -> bytes:
        """The envelope."""
        packed: bytes = rules.packed(self.fields, self.message, SUBFILE)
        return packed

    def with_field(self, record: int, number: int, value: bytes) -> Copy:
        """Return the same copy with another value of a dataset."""
        fields = [
            (record, number, value) if field[:2] == (record, number) else field
            for field in self.fields
        ]
        assert fields != self.fields, f"{record}:{number:02} is as before"
        return self._replace(fields=fields)

    def without_field(self, record: int, number: int) -> Copy:
        """Return the same copy without a dataset."""
        fields = [field for field in self.fields if field[:2] != (record, number)]
        assert fields != self.fields, f"{record}:{number:02} is not there"
        return self._replace(fields=fields)

    def place(self, record: int, number: int, nth: int = 0) -> Tuple[int, int, int]:
        """Return the offset of a dataset, of its data, and of what follows it."""
        places = [place for key, place in placed(self.octets) if key == (record, number)]
        return places[nth]


Placed = Tuple[Tuple[int, int], Tuple[int, int, int]]


def placed(octets: bytes) -> List[Placed]:
    """Return the datasets of a valid envelope with standard counts, each with its offsets."""
    found, at = [], 0
    while at < len(octets):
        count = int.from_bytes(octets[at + 3 : at + 5], "big")
        assert octets[at] == 0x1C and count < 0x8000, f"no tag at {at}"
        found.append(((octets[at + 1], octets[at + 2]), (at, at + 5, at + 5 + count)))
        at += 5 + count
    return found


def story_of(paragraphs: List[str], encoding: str, times: int) -> List[bytes]:
    """Return the lines of a story: its paragraphs several times, each with its number."""
    return [
        f"{nth + 1}. {paragraph}".encode(encoding)
        for nth, paragraph in enumerate(paragraphs * times)
    ]


def fields_of(
    service: bytes, number: bytes, encoding: str, texts: Dict[int, str], more: List[Field]
) -> List[Field]:
    """Return the datasets of an envelope, of which those of record 2 are in order."""
    own = [(2, each, text.encode(encoding)) for each, text in texts.items()]
    return [
        (1, 0, b"\0\4"),
        (1, 5, b"REDAKSJON"),
        (1, 20, b"\0\2"),
        (1, 22, b"\0\1"),
        (1, 30, service),
        (1, 40, number),
        (1, 50, b"POL"),
        (1, 60, b"5"),
        (1, 70, b"20241007"),
        (1, 80, b"081500+0200"),
        *(field for field in more if field[0] == 1),
        (2, 0, b"\0\4"),
        *sorted([*own, *(field for field in more if field[0] == 2)], key=lambda field: field[1]),
    ]


NORWEGIAN = Copy(
    fields_of(
        b"NTB",
        b"00004711",
        "latin-1",
        {
            5: "Statsbudsjett",
            20: "Økonomi",
            40: "Må ikke brukes før pressekonferansen.\r\nSperrefrist kl. 10.",
            85: "Politisk journalist",
            80: "Åse Bjørnstad",
            90: "Tromsø",
            101: "Norge",
            105: "Strømstøtten økes: regjeringen vil bruke mer",
            120: "Finansministeren på vei til Stortinget.\r\nFoto: Bjørn Ås\r\nArkiv",
        },
        [
            (2, 7, b"Versjon 2"),
            (2, 10, b"4"),
            (2, 15, b"POL"),
            (2, 25, "økonomi".encode("latin-1")),
            (2, 25, b"budsjett"),
            (2, 30, b"20241007"),
            (2, 35, b"101500+0200"),
            (2, 55, b"20241006"),
            (2, 100, b"NOR"),
        ],
    ),
    [b"NTB", b"4711", b"4", b"POL", b"412", "strøm".encode("latin-1")],
    story_of(
        [
            "Oslo (NTB): Regjeringen legger fram forslaget om økt strømstøtte i dag.",
            "Støtten gjelder husholdninger, og skal dekke ni tideler av prisen over sytti øre.",
            "- Dette er en god dag for folk flest, sier statsråden på vei inn i møtet.",
            "",
            "Opposisjonen mener at ordningen kommer for sent, og at den er for dårlig.",
        ],
        "latin-1",
        7,
    ),
    "latin-1",
)

FRENCH = Copy(
    fields_of(
        b"AFP",
        b"00000815",
        "utf-8",
        {
            5: "Budget-vote",
            40: "Embargo jusqu'à 10 heures.\r\nNe pas diffuser avant.",
            80: "Zoé Lefèvre",
            90: "Besançon",
            101: "France",
            105: "Le budget adopté à l'Assemblée après une nuit de débats – « enfin »",
            120: "La présidente de l'Assemblée.\r\nPhoto d'archives : René Noël\r\nAFP",
        },
        [
            (1, 90, b"\x1b%G"),
            (2, 10, b"3"),
            (2, 15, b"ECO"),
            (2, 25, "débat".encode("utf-8")),
            (2, 30, b"20241007"),
            (2, 35, b"100000+0200"),
            (2, 37, b"20241009"),
            (2, 100, b"FRA"),
        ],
    ),
    [b"AFP", b"0815", b"3", b"ECO", b"380", b"budget"],
    story_of(
        [
            "PARIS, 7 oct 2024 (AFP) - Les députés ont adopté le budget à l'aube, à une voix près.",
            "« Nous avons tenu », a déclaré la présidente, épuisée mais soulagée, à sa sortie.",
            "L'opposition a déjà annoncé un recours – il sera examiné dès la semaine prochaine.",
            "Près de 3.000 amendements avaient été déposés.",
        ],
        "utf-8",
        8,
    )
    # (by this line no octet of a size is above 7F, so that all octets are UTF-8)
    + ["Prochaine séance : mardi à 15 heures (AFP).".encode("utf-8")],
    "utf-8",
)

RUSSIAN = Copy(
    fields_of(
        b"TASS",
        b"00012345",
        "iso8859-5",
        {
            5: "Выставка",
            80: "Мария Иванова",
            90: "Казань",
            105: "В Казани открылась выставка художников Поволжья",
            120: "Зал музея перед открытием.\r\nФото: Анна Петрова\r\nАрхив",
        },
        [
            (1, 90, b"\x1b-L"),
            (2, 10, b"5"),
            (2, 15, b"CUL"),
            (2, 25, "музей".encode("iso8859-5")),
            (2, 55, b"20241000"),
            (2, 100, b"RUS"),
        ],
    ),
    [b"TASS", b"12345", b"5", b"CUL", b"350", "музей".encode("iso8859-5")],
    story_of(
        [
            "КАЗАНЬ, 7 октября. В музее открылась выставка, на которой показаны двести картин.",
            "Их авторы живут в городах на Волге, и многие показывают свои работы впервые.",
            "Выставка будет открыта до конца месяца, затем ее увидят жители других городов.",
        ],
        "iso8859-5",
        11,
    ),
    "iso8859-5",
)

COPIES = {"norwegian": NORWEGIAN, "french": FRENCH, "russian": RUSSIAN}
