"""Help, the version, and usage errors."""
from __future__ import annotations

import re
import subprocess
from pathlib import Path

import pytest

from support.manual import help_of
from support.running import SECONDS, TOP, Command, in_pipe, in_shell, usage_error, write
from support.streams import (
    ACCEPTED,
    COMMANDS,
    SCRIPT,
    SHOWN,
    SMALLEST,
    STORY,
    TEXT,
    escaped,
)

MANY = "9223372036854775808"


def test_rejects_unknown_arguments(run: Command, tmp_path: Path) -> None:
    file = write(tmp_path / "a.iim", SMALLEST)
    for line in "", "chek", "help", "check --subfile 5":
        usage_error(run, line.split())
    usage_error(run, ["pack", file, file])
    usage_error(run, [file])


def test_prints_usage_and_version(run: Command) -> None:
    for words in ["--help"], ["check", "--help"], ["check", "a", "b", "--help"]:
        status, output, errors = run(words, SMALLEST)
        assert (status, b"Usage: iimwire" in output, errors) == (0, True, b""), words
    assert b"FILE" in run(["check", "--help"]).output
    for word in "--version", "-V":
        assert run([word], SMALLEST) == (0, b"iimwire 2\n", b"")
    for words in ["check", "--version"], ["version"]:
        usage_error(run, words)


def test_prints_help_and_version_to_a_pipe(run: Command, tmp_path: Path) -> None:
    about = b"Reads and packs envelopes of the IPTC-NAA Information Interchange Model\n"
    assert in_pipe(run, tmp_path, "iimwire --help | head -1") == (0, about, b"")
    assert in_pipe(run, tmp_path, "iimwire --version && true") == (0, b"iimwire 2\n", b"")
    usage = "iimwire check --help | grep -c '^Usage: iimwire check'"
    assert in_pipe(run, tmp_path, usage) == (0, b"1\n", b"")


@pytest.mark.parametrize("word", ["--help", "--version"])
def test_reports_a_full_device_for_help(run: Command, tmp_path: Path, word: str) -> None:
    with open("/dev/full", "wb") as full:
        assert run([word], stdout=full) == (3, b"", b"cannot write\n")
        assert run([word], stderr=full).status == 0
    assert in_pipe(run, tmp_path, f"iimwire {word} >&-") == (3, b"", b"cannot write\n")


@pytest.mark.parametrize("name", ["", *COMMANDS])
def test_prints_the_complete_help(run: Command, name: str) -> None:
    text = (TOP / f"tests/help/{name or 'iimwire'}.txt").read_bytes()
    for option in "--help", "-h":
        words = [name, option] if name else [option]
        assert run(words, SMALLEST) == (0, text, b"")


def test_accepts_any_number_of_arguments(run: Command, tmp_path: Path) -> None:
    file = write(tmp_path / "a.script", SCRIPT)
    # The longest line with an effect: eight arguments, after the program's name.
    options = ["--unknown", "--max", "14"]
    want = run(["pack", *options], SCRIPT).output
    assert run(["pack", *options, "--subfile", "1024", "--", file]) == (0, want, b"")
    for count in (*range(2, 20), 100, 1000):
        usage_error(run, ["pack", *["a.iim"] * count], b"unexpected argument 'a.iim' found")


@pytest.mark.parametrize("word", ["a\x1b[31m", "a\x9b31m", "a\nb", "a\\b", "é\x85"])
def test_escapes_control_characters_of_arguments(run: Command, word: str) -> None:
    for words in (
        [word],
        ["pack", "a.iim", word],
        ["audit", "a.iim", word],
        ["check", f"--{word}"],
        ["pack", "--subfile", word],
        ["pack", f"--max={word}"],
    ):
        errors = usage_error(run, words, b"").decode()
        assert [it for it in errors if it not in "\n\\" and escaped(it) != it] == [], words
        assert escaped(word) in errors, words


def test_rejects_bad_values_of_pack_and_audit(run: Command) -> None:
    assert run(["pack", "--max", "5"], SCRIPT) == (2, b"", b"--max needs --unknown\n")
    assert run(["audit", "--now", "noon"], SMALLEST) == (2, b"", b"bad --now\n")
    for words in (
        ["pack", "--subfile", "0"],
        ["pack", "--subfile", MANY],
        ["pack", "--subfile", "18446744073709551616"],
        ["pack", "--subfile", "five"],
        ["pack", "--max", MANY, "--unknown"],
        ["pack", "--max", "18446744073709551616", "--unknown"],
        ["audit", "--now"],
    ):
        usage_error(run, words, words[1].encode())
    usage_error(run, ["audit"], b"--now")


def test_reports_each_usage_error(run: Command) -> None:
    for words in ["--max", "5"], ["--max", "5", "--subfile", "7"]:
        assert run(["pack", *words], SCRIPT) == (2, b"", b"--max needs --unknown\n")
    for instant in "", "noon", "2024-03-01", "2024-02-30T12:00:00Z":
        assert run(["audit", "--now", instant], SMALLEST) == (2, b"", b"bad --now\n")
    for line in (
        *("", "shows", "help", "version", "check --version", "pack a.iim b.iim"),
        *("check --subfile 5", "check --files-from - a.iim"),
        *("pack --subfile 0", f"pack --subfile {MANY}", "pack --subfile x", "pack --subfile"),
        *(f"pack --unknown --max {MANY}", "pack --unknown --max=-1", "audit", "audit --now"),
    ):
        # The texts of clap have at least two lines; the command's own have one.
        assert usage_error(run, line.split(), b"").count(b"\n") >= 2, line
    first = usage_error(run, ["chek"], b"").partition(b"\n")[0]
    assert first == b"error: unrecognized subcommand 'chek'"


def test_rejects_a_run_without_a_program_name(run: Command) -> None:
    ran = subprocess.run(
        [""], executable=run.path, input=SMALLEST, capture_output=True, timeout=SECONDS
    )
    assert (ran.returncode, ran.stdout) == (2, b"")


EXAMPLES = {
    "check": ACCEPTED,
    "show": SHOWN,
    "story": TEXT,
    "pack": b"",
    "audit": b"3 envelopes, 1 repeated, 0 held\n",
}


@pytest.mark.parametrize("name", EXAMPLES)
def test_help_has_an_example_and_exit_statuses(run: Command, tmp_path: Path, name: str) -> None:
    for folder in "samples", "docs":
        (tmp_path / folder).symlink_to(TOP / folder)
    text, want = help_of(run, name), EXAMPLES[name]
    (example,) = [line.strip() for line in text.splitlines() if line.startswith("  iimwire ")]
    assert "Status: 0 " in text and "docs/reference/causes.md" in text
    status, output, errors = in_shell(run, tmp_path, example)
    got = output[-len(want) :] if name == "audit" else output
    assert (status, got, errors) == (0, want, b"")
    assert name != "pack" or (tmp_path / "story.iim").read_bytes() == STORY


def test_help_of_pack_has_a_valid_script(run: Command) -> None:
    others = "   ", "  [", "  -", "  iimwire"
    indented = (line for line in help_of(run, "pack").splitlines() if line.startswith("  "))
    lines = [line[2:] for line in indented if not line.startswith(others)]
    status, packed, errors = run(["pack"], "".join(f"{line}\n" for line in lines).encode())
    assert (status, errors) == (0, b"")
    want = 0, b"Rates stay.\n", b"1 accepted %d octets\n" % len(packed)
    assert run(["story"], packed) == want


def test_help_of_audit_has_valid_instants(run: Command) -> None:
    form = r"\d{4}-\d\d-\d\dT[\d:.]*\d(?:Z|\+\d\d:\d\d)"
    instants = re.findall(form, help_of(run, "audit"))
    assert len(instants) == 3
    for now in instants:
        want = 0, b"0 envelopes, 0 repeated, 0 held\n", b""
        assert run(["audit", "--now", now]) == want, now
    assert run(["audit", "--now", "2024-03-01T12:00:00"]) == (2, b"", b"bad --now\n")
    assert run(["check", "/dev/stdin"], SMALLEST) == (0, ACCEPTED, b"")
