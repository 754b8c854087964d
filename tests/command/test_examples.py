"""The example programs: a gateway that stores envelopes, a relay, `json` and `send`."""
from __future__ import annotations

import json
import os
import re
import shutil
import subprocess
from pathlib import Path

import pytest

from support.preloaded import loaded, run_refused
from support.running import SECONDS, TOP, Command, write
from support.streams import SMALLEST, STORY, TEXT, dataset, head, split

# What the gateway stores of the two worked envelopes.
STORED = [b"TST 00000001 20240301\n\n", b"TST 00000002 20240301\nRates held\n" + TEXT]


def test_receiver_stores_accepted_envelopes(receiver: Command) -> None:
    first, second = STORED
    assert receiver() == (0, b"", b"")
    assert receiver([], SMALLEST) == (0, first, b"")
    assert receiver([], SMALLEST + STORY + SMALLEST) == (0, first + second + first, b"")


REFUSED = [
    (SMALLEST[:100], b"octet 100 by layer dataset on 8:10, cause 3 Truncated\n"),
    (STORY[:228] + b"\x02", b"octet 228 by layer story on 8:10, cause 41 ControlOctet\n"),
    (b"\x1d" + SMALLEST, b"octet 0 by layer dataset on 0:00, cause 1 Marker\n"),
]


def test_receiver_stores_nothing_of_a_refusal(receiver: Command) -> None:
    for octets, where in REFUSED:
        want = 1, STORED[1] + b"envelope 2 refused at " + where, b""
        assert receiver([], STORY + octets) == want


def test_receiver_reports_io_errors(receiver: Command) -> None:
    # A read that fails after an envelope, and inside one.
    for octets in b"", SMALLEST, SMALLEST + STORY[:228]:
        status, output, errors = receiver.until_read_fails([], octets)
        want = STORED[0] if octets else b""
        assert (status, output, len(errors) > 1) == (3, want, True), len(octets)
    with open("/dev/full", "wb") as full:
        status, _, errors = receiver([], SMALLEST, stdout=full)
        assert (status, len(errors) > 1) == (3, True)
        # (also if the error cannot be printed)
        assert receiver([], SMALLEST, stdout=full, stderr=full).status == 3


def test_receiver_reports_failed_allocations(receiver: Command, tmp_path: Path) -> None:
    library = loaded(tmp_path, "refuse")
    file = write(tmp_path / "a.iim", SMALLEST + STORY + SMALLEST)
    stored = STORED[0] + STORED[1] + STORED[0]
    with file.open("rb") as stdin:
        got, requests = run_refused(library, "0", [receiver.path], stdin=stdin)
    assert got == (0, stored, b"")
    # (a sink whose allocation fails stops, and that is no refusal)
    for number in range(1, len(requests) + 1):
        for refused in str(number), f"{number}+":
            with file.open("rb") as stdin:
                got, asked = run_refused(library, refused, [receiver.path], stdin=stdin)
            assert (b"x" in asked, got.status) == (True, 3), refused
            assert stored.startswith(got.output), refused


# Envelopes with info and trailer: their datasets, and their object as it is packed.
TRAILED = [
    (
        head(b"00000003"),
        b"\x01TST0007 4 ECO 5 rates \\\xe9\r\n\x02Rates stay.\r\nNo change.\x03 tail\r\n\\\xe9\x04",
    ),
    (
        head(b"00000004") + dataset(2, 105, b"Long"),
        b"\x01AB12 4 A1 05\r\n\x02" + b"a word " * 900 + b"\r\n\r\n\x03!\x04",
    ),
    (head(b"00000005"), b"\x01X1 4 N 0\r\n\x02\x03" + b"t" * 64 + b"\x04"),
]


def as_received(fields: bytes, story: bytes) -> bytes:
    """Return an envelope in another encoding.

    It has filler around its object, line ends of one octet, and subfiles of 7 octets whose size is
    not announced.
    """
    text, end, tail = story.partition(b"\x03")
    object_ = b"\0\n" + text.replace(b"\r\n", b"\n") + end + tail + b"\x16\r"
    return split(fields, object_, 7, False)


def test_relay_adds_a_dataset(relay: Command) -> None:
    received = [as_received(*each) for each in TRAILED]
    added = dataset(2, 122, b"RELAY")
    sent = [split(fields + added, story, 1024, True) for fields, story in TRAILED]
    assert relay() == (0, b"", b"")
    assert relay([], b"".join(received)) == (0, b"".join(sent), b"")
    # What it has sent is relayed with the dataset twice.
    twice = [split(fields + added * 2, story, 1024, True) for fields, story in TRAILED]
    assert relay([], b"".join(sent)) == (0, b"".join(twice), b"")
    for octets, why in (received[1][:-1], "truncated"), (b"\x1d", "refused"):
        status, output, errors = relay([], received[0] + octets)
        assert (status, output) == (1, sent[0]), why
        assert errors.startswith(b"Error: envelope 2: refused at octet "), why


def files_of(crate: Path) -> dict[str, bytes]:
    """Return the sources and proofs of a crate."""
    files = (path for path in crate.rglob("*") if path.is_file())
    return {str(path.relative_to(crate)): path.read_bytes() for path in files}


def renamed(path: str, octets: bytes) -> bytes:
    """Return a file of relay_copy as the guide's crate has it: definitions name their crate."""
    return octets.replace(b"relay_copy", b"my_relay") if path.endswith(".antt") else octets


def test_guide_makes_the_relay(tmp_path: Path) -> None:
    # The commands of the guide make relay_copy, which the gate proves and builds, under another
    # name.
    page = (TOP / "docs/guide/relay.md").read_text()
    *making, _, _, _ = re.findall(r"^```sh\n(.*?)^```$", page, re.M | re.S)
    assert len(making) == 3
    left_out = shutil.ignore_patterns("out", "must-fail", "wrong-bodies.edits")
    shutil.copytree(TOP / "crates", tmp_path / "crates", ignore=left_out)
    shutil.copy(TOP / "crates.txt", tmp_path)
    arguments = ["sh", "-e", "-c", "".join(making)]
    ran = subprocess.run(arguments, cwd=tmp_path, capture_output=True, timeout=SECONDS)
    assert (ran.returncode, ran.stderr) == (0, b"")
    copied = files_of(tmp_path / "crates/relay_copy").items()
    proved = {
        it: renamed(it, octets) for it, octets in copied if it.startswith(("src/", "proofs/"))
    }
    assert files_of(tmp_path / "crates/my_relay") == proved
    lines = (tmp_path / "crates.txt").read_text().splitlines()
    assert lines.count(lines[-1].replace("my_relay", "relay_copy")) == 1


STEP = (
    r"cd crates/my_relay && (rt \w+)"
    r"(?: < \.\./\.\./(samples/stream\.iim) > sent\.iim)?; cd \.\./\.\.\n"
)


def test_guide_runs_the_relay(run: Command, relay: Command) -> None:
    page = (TOP / "docs/guide/relay.md").read_text()
    blocks = re.findall(r"^```sh\n(.*?)^```$", page, re.M | re.S)
    steps = [re.fullmatch(STEP, each) for each in blocks[-3:]]
    stream = "samples/stream.iim"
    assert [step and step.groups() for step in steps] == [
        ("rt try", stream),
        ("rt check", None),
        ("rt run", stream),
    ]
    status, sent, errors = relay([], (TOP / stream).read_bytes())
    assert (status, errors) == (0, b"")
    assert run(["check"], sent) == (0, b"1 accepted 124 octets\n2 accepted 256 octets\n", b"")


USAGE = b"Error: usage: examples json | send | resume PLACE\n"
ARGUMENTS = [
    *([], [""], ["copy"], ["JSON"], ["json", "send"], ["send", "json"], ["resume"]),
    ["resume", "place", "place"],
]


@pytest.mark.parametrize("words", ARGUMENTS, ids=" ".join)
def test_examples_print_their_usage(examples: Command, tmp_path: Path, words: list[str]) -> None:
    assert examples(words, SMALLEST, cwd=tmp_path) == (1, b"", USAGE)
    assert os.listdir(tmp_path) == []


# Of each envelope: its number, more datasets, the parts of its header, its lines and its trailer.
Envelope = tuple[str, list[list[str]], list[str], list[str], str]
ENVELOPES: list[Envelope] = [
    (
        "00000003",
        [],
        ["TST", "0007", "4", "ECO", "5", "rates \\x5C\\xE9"],
        ["Rates stay.", "No change."],
        " tail\\x0D\\x0A\\x5C\\xE9",
    ),
    (
        "00000004",
        [["2:105", "Long"]],
        ["AB", "12", "4", "A1", "05", ""],
        ["a word " * 900, "", ""],
        "!",
    ),
    ("00000005", [], ["X", "1", "4", "N", "0", ""], [""], "t" * 64),
]
FIRST = [["1:00", "\\x00\\x04"], ["1:20", "\\x00\\x02"], ["1:22", "\\x00\\x01"], ["1:30", "TST"]]
PARTS = ["source", "number", "priority", "category", "words", "info"]


def test_prints_each_envelope_as_json(examples: Command) -> None:
    stream = b"".join(split(fields, story, 1024, True) for fields, story in TRAILED)
    status, output, errors = examples(["json"], stream)
    assert (status, errors) == (0, b"")
    want = []
    for at, (number, more, parts, story, trailer) in enumerate(ENVELOPES, 1):
        fields = [*FIRST, ["1:40", number], ["1:70", "20240301"], ["2:00", "\\x00\\x04"], *more]
        want.append(
            {
                "envelope": at,
                "fields": fields,
                **dict(zip(PARTS, parts)),
                "story": story,
                "trailer": trailer,
            }
        )
    assert [json.loads(line) for line in output.splitlines()] == want
    assert examples(["json"]) == (0, b"", b"")
    status, output, errors = examples(["json"], SMALLEST + STORY[:228] + b"\x02")
    assert (status, len(output.splitlines())) == (1, 1)
    assert errors.startswith(b"Error: envelope 2: refused at octet 228 ")


def as_sent(text: bytes) -> bytes:
    """Return the envelope that the sender makes of lines with this text."""
    fields = head(b"00000002") + dataset(2, 105, b"Rates held") + dataset(2, 80, b"A. Moor")
    return split(fields, b"\x01TST0007 4 ECO 4 rates\r\n\x02" + text + b"\x03\x04", 1024, False)


def test_sends_the_lines_of_its_input(run: Command, examples: Command) -> None:
    for lines in TEXT, TEXT[:-1], b"", b"\n\n", b"a word " * 900 + b"\n":
        sent = as_sent(lines.removesuffix(b"\n").replace(b"\n", b"\r\n"))
        assert examples(["send"], lines) == (0, sent, b""), lines
        assert run(["check"], sent) == (0, f"1 accepted {len(sent)} octets\n".encode(), b""), lines
    # Lines that are not UTF-8, or contain what no story can, are not sent: the output is invalid.
    for lines in b"Rates \xff\n", b"Rates \x03\n":
        status, output, errors = examples(["send"], lines)
        assert (status, errors.startswith(b"Error: ")) == (1, True), lines
        assert run(["check"], output).status == 1, lines


def test_other_compiler_sends(examples_by_rattle: Command) -> None:
    # (`rt ci` runs what both compilers built, but of this program only `json`)
    sent = as_sent(b"Rates stay.\r\nNo change.")
    assert examples_by_rattle(["send"], TEXT) == (0, sent, b"")
