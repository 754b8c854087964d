"""The programs of docs/guide and README.md."""
from __future__ import annotations

import contextlib
import json
import os
import re
import shutil
import socket
import subprocess
import sys
import tempfile
from pathlib import Path

import pytest
import rules
from support.bindings.archive import random_tree
from typing import Iterator, List
from support.bindings.pages import block, blocks
from support.bindings.paths import SOURCES, ARCHIVE, NOW, SECONDS, TOP
from support.bindings.running import files_in, run, run_shell, samples, write_file


@contextlib.contextmanager
def clone(command: Path) -> Iterator[str]:
    """Make a directory that looks like the top of a clone in which everything is built."""
    with tempfile.TemporaryDirectory() as folder:
        for name in "bindings", "samples", "docs":
            os.symlink(f"{TOP}/{name}", f"{folder}/{name}")
        os.makedirs(f"{folder}/crates/iimwire/out")
        for name in "iimwire", "crates/iimwire/out/iimwire":
            os.symlink(command, f"{folder}/{name}")
        yield folder


def test_runs_the_shell_programs_of_the_guide(command: Path) -> None:
    with clone(command) as folder:
        text, output = block("command", "sh", "./iimwire check samples/stream.iim")
        assert run_shell(text, folder) == (0, output, "")
        text, output = block("command", "sh", "# Sort the named files.")
        write_file(folder, "sort.sh", text.encode())
        assert run_shell("sh sort.sh samples/stream.iim samples/damaged/truncated.iim", folder) == (
            0,
            output,
            "",
        )
        assert (os.listdir(f"{folder}/good"), sorted(os.listdir(f"{folder}/bad"))) == (
            ["stream.iim"],
            ["truncated.iim", "truncated.iim.why"],
        )
        text, _ = block("command", "sh", "./iimwire story")
        assert run_shell(text, folder) == (0, "\nRates stay.\nNo change.\n", "")
        with open(f"{folder}/lines") as lines:
            assert lines.read() == "1 accepted 114 octets\n2 accepted 246 octets\n"
        assert run_shell(block("command", "sh", "./iimwire pack")[0], folder) == (0, "", "")
        with open(f"{folder}/story.iim", "rb") as packed:
            assert packed.read() == samples()["story.iim"]


def test_quotes_programs_in_the_guides() -> None:
    for guide, language, path, shown in ("rattle", "rust", "crates/receive_copy/src/main.rt", 2), (
        "c",
        "c",
        "bindings/c/headline.c",
        2,
    ):
        found = [text for name, text in blocks(f"docs/guide/{guide}.md") if name == language]
        with open(f"{TOP}/{path}") as source:
            program = source.read()
        assert (path, len(found), [text for text in found if text not in program]) == (
            path,
            shown,
            [],
        )
    with open(f"{TOP}/crates.txt") as crates:
        assert (
            block("rattle", "", "receive_copy: ")[0] in crates.read()
        ), "another line in crates.txt"


def test_runs_the_c_program_of_the_guide(command: Path) -> None:
    with clone(command) as folder:
        words, _ = block("c", "sh", "headline.c")
        assert run_shell(words, folder) == (0, "Rates held\n", "")
        for name, octets in samples().items():
            want = rules.read(octets)
            headline = rules.first(want.fields, 2, 105)
            if not want.is_done:
                reported = 1, "", f"{want.refusal or want.end()}\n"
            else:
                reported = (
                    (1, "", "the envelope has no headline\n")
                    if headline is None
                    else (0, f"{headline.decode()}\n", "")
                )
            assert (name, run_shell(f"./headline samples/{name}", folder)) == (name, reported)


def test_runs_the_python_programs_of_the_guide(command: Path) -> None:
    with clone(command) as folder:
        text, _ = block("python", "python", "envelope.headline")
        write_file(folder, "receive.py", text.encode())
        words, output = block("python", "sh", "receive.py")
        assert run_shell(words, folder) == (0, output, "")
        refused = "1 refused at octet 54 by layer record on 1:70, cause 15 BadValue"
        reported = f"octet 54 of the file: {refused}\n"
        assert run_shell(words.replace("stream", "damaged/bad_value"), folder) == (1, "", reported)
        assert run_shell(words.replace("stream", "damaged/truncated"), folder) == (
            1,
            "",
            "the file ends in envelope 1\n",
        )
        words, output = block("python", "sh", "python3 -m iim samples")
        status, lines, errors = run_shell(words, folder)
        assert (status, errors) == (1, "")
        # (the page breaks lines, and abbreviates by `..`)
        at = 0
        for part in re.sub(r"\n *", " ", output).replace("} {", "}\n{").strip().split(".."):
            part = part.strip(" ,")
            assert part in lines[at:], f"not printed: {part}"
            at = lines.index(part, at) + len(part)


def test_packs_the_envelope_of_the_guide(command: Path) -> None:
    with clone(command) as folder:
        write_file(folder, "pack.py", block("python", "python", "iim.build")[0].encode())
        status, octets, errors = run(
            [sys.executable, "pack.py"], cwd=folder, env={**os.environ, "PYTHONPATH": str(SOURCES)}
        )
        want = rules.read(octets)
        assert (status, errors, want.is_done) == (0, b"", True)
        assert [
            rules.first(want.fields, *number) for number in ((1, 30), (1, 40), (1, 70), (2, 105))
        ] == [b"TST", b"00000003", b"20240301", b"Rates held"]
        write_file(folder, "packed.iim", octets)
        assert run([command, "story", "packed.iim"], cwd=folder)[1] == b"Rates stay.\nNo change.\n"


def test_receives_from_a_socket_as_the_guide_does(command: Path) -> None:
    stream = samples()["stream.iim"]
    both = 0, b"00000001\n00000002\n", b""
    one = 1, b"00000001\n", b"2 refused at octet 245 by layer dataset on 9"
    with clone(command) as folder, socket.create_server(("127.0.0.1", 0)) as server:
        write_file(folder, "client.py", block("python", "python", "create_connection")[0].encode())
        for octets, want in (stream, both), (stream[:-1], one):
            words = [sys.executable, "client.py", *map(str, server.getsockname())]
            env = {**os.environ, "PYTHONPATH": str(SOURCES)}
            with subprocess.Popen(
                words, cwd=folder, env=env, stdout=subprocess.PIPE, stderr=subprocess.PIPE
            ) as client:
                with server.accept()[0] as connection:
                    for at in range(0, len(octets), 100):
                        connection.sendall(octets[at : at + 100])
                output, errors = client.communicate(timeout=SECONDS)
            last = errors.splitlines()[-1:]
            assert (client.returncode, output, b"".join(last).partition(b":")[0]) == want


def test_runs_the_archive_of_the_guide(command: Path) -> None:
    with clone(command) as folder:
        words, output = block("archive", "sh", "iim.archive --workers 2")
        status, lines, errors = run_shell(words, folder)
        assert (status, lines.splitlines()[-1], errors) == (1, output.rstrip("\n"), "")
        status, lines, errors = run_shell(block("archive", "sh", "--into samples.index")[0], folder)
        assert (status, errors, json.loads(lines)) == (
            1,
            "",
            {**json.loads(output), "unchanged": 0, "gone": 0},
        )
        assert (
            run_shell("python3 -m iim.archive --into others.index samples/story.iim", folder)[0]
            == 0
        )
        status, lines, errors = run_shell(block("archive", "sh", "query --cause")[0], folder)
        assert (
            status,
            errors,
            {json.loads(line)["refused"]["cause_name"] for line in lines.splitlines()},
        ) == (0, "", {"CountForm"})
        status, lines, errors = run_shell(
            block("archive", "sh", "samples.index others.index")[0], folder
        )
        rows = [json.loads(line) for line in lines.splitlines()]
        assert (status, errors, [row for row in rows if not row["repeats"]]) == (0, "", [])
        assert len(rows) == json.loads(output)["repeated"] + 1
        status, lines, errors = run_shell(block("archive", "sh", "archive verify")[0], folder)
        assert (status, errors, json.loads(lines)["intact"]) == (0, "", 38)


def test_checks_a_tree_as_the_guide_does(command: Path) -> None:
    if not shutil.which("parallel"):
        pytest.skip("GNU parallel is not installed")
    with clone(command) as folder:
        tree = random_tree(f"{folder}/TREE", 30)
        check, refused, audit = (
            block("command", "sh", words)[0]
            for words in ("each check {} > checked", "accepted/' checked", "Z {} > audited")
        )
        write_file(folder, "each", block("command", "sh", "# Run `iimwire check`")[0].encode())
        assert run_shell(check, folder)[0] == 1
        paths = [os.path.relpath(path, folder) for path in files_in(tree)]

        def checked_lines(path: str) -> List[str]:
            lines = run([command, "check", f"{folder}/{path}"])[1].decode().splitlines()
            return lines if Path(folder, path).stat().st_size else ["empty"]

        lines = [(path, line) for path in paths for line in checked_lines(path)]
        with open(f"{folder}/checked") as checked:
            assert checked.read().splitlines() == [f"{path}\t{line}" for path, line in lines]
        assert run_shell(refused, folder)[1].splitlines() == [
            f"{path}\t{line}" for path, line in lines if " accepted " not in line
        ]
        # The repeats that iim-archive finds in the files without a refusal.
        whole = [path for path in paths if not run([command, "check", f"{folder}/{path}"])[0]]
        rows = run([*ARCHIVE, "--now", NOW, *whole], cwd=folder)[1].splitlines()[:-1]
        repeats = [
            (row["file"], row["envelope"], row["repeats"])
            for row in map(json.loads, rows)
            if row.get("repeats")
        ]
        want = [
            f"{path} {number} repeats {first['file']} {first['envelope']}"
            for path, number, first in repeats
        ]
        assert sorted(run(["sh", "-c", audit], cwd=folder)[1].decode().splitlines()) == sorted(want)
        assert len(want) > 10, f"only {len(want)} repeats"


def test_runs_the_python_lines_of_the_readme(command: Path) -> None:
    (program,) = [text for name, text in blocks("README.md") if name == "python"]
    with clone(command) as folder:
        write_file(folder, "lines.py", program.encode())
        reported = "b'TST' b'Rates held' [b'Rates stay.', b'No change.']\n"
        assert run_shell(f"PYTHONPATH=bindings/python/src {sys.executable} lines.py", folder) == (
            0,
            reported,
            "",
        )


def test_runs_the_c_lines_of_the_readme(command: Path) -> None:
    (lines,) = [text for name, text in blocks("README.md") if name == "c"]
    head = '#include "iim.h"\n#include <inttypes.h>\n#include <stdio.h>\n'
    body = f"size_t count = fread(octets, 1, sizeof octets, stdin);\n{lines}return 0;\n"
    program = f"{head}static uint8_t octets[4096];\nint main(void) {{\n{body}}}\n"
    with clone(command) as folder:
        write_file(folder, "lines.c", program.encode())
        words = (
            "-std=c11 -Wall -Wextra -Werror -I bindings/c -o lines lines.c bindings/out/libiim.a"
        )
        assert run_shell(f"cc {words} && ./lines < samples/story.iim", folder) == (
            0,
            "status 0 after 246 octets\n",
            "",
        )
        assert run_shell("./lines < samples/damaged/bad_value.iim", folder) == (
            0,
            "status 2 after 54 octets\n",
            "",
        )
