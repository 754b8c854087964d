"""Run `python3 -m iim`, with and without its library."""
from __future__ import annotations
from typing import Any, Dict, List, Sequence, Tuple
from support.bindings.paths import ARCHIVE, MODULE, SOURCES
from support.bindings.pages import name_in_tables

import json
import os
import shutil
import subprocess
import sys

import envelopes
import pytest
import rules
from envelopes import SMALLEST, STORY, STORY_FIELDS
from iim import _library
from newsroom import COPIES, RUSSIAN
from support.bindings.paths import environment, SAMPLES, SECONDS, TOP
from support.bindings.running import run, write_file


def module(
    words: Sequence[str], octets: bytes = b"", **more: Any
) -> Tuple[int, List[Dict[str, Any]], str]:
    """Run `python3 -m iim`, and return the status, the values of the lines, and the errors."""
    status, output, errors = run([*MODULE, *words], octets, env=environment(), **more)
    return status, [json.loads(line) for line in output.splitlines()], errors.decode()


STORY_AS_JSON: Dict[str, Any] = {
    "envelope": 1,
    "at": 0,
    "length": 246,
    "named": {
        "model_version": "\0\4",
        "file_format": "\0\2",
        "file_format_version": "\0\1",
        "service_identifier": "TST",
        "envelope_number": "00000002",
        "date_sent": "20240301",
        "record_version": "\0\4",
        "keywords": ["rates", "bank", "euro"],
        "bylines": ["A. Moor", "B. Lund"],
        "byline_titles": ["Editor", "Writer"],
        "headline": "Rates held",
    },
    "fields": [
        {
            "dataset": f"{record}:{number:02}",
            "name": name_in_tables(record, number),
            "octets": octets.decode("latin-1"),
        }
        for record, number, octets in STORY_FIELDS
    ],
    "header": {
        "source": "TST",
        "number": "0007",
        "priority": "4",
        "category": "ECO",
        "words": "5",
        "info": "rates",
    },
    "trailer": "",
    "sizes": {
        "mode": 1,
        "subfile": 1024,
        "announced": 50,
        "maximum": None,
        "subfiles": 1,
        "total": 50,
    },
    "lines": ["Rates stay.", "No change."],
}


TRUNCATED_AS_JSON: Dict[str, Any] = {
    "layer": "dataset",
    "dataset": "8:10",
    "name": "Subfile",
    "octet": 100,
    "octet_in_file": 460,
    "cause": 3,
    "cause_name": "Truncated",
}


# The known part of the smallest envelope if it is truncated.
SMALLEST_AS_KNOWN: Dict[str, Any] = {
    "id": {"service": "TST", "number": "00000001", "date_sent": "20240301"},
    "fields": [
        {
            "dataset": f"{record}:{number:02}",
            "name": name_in_tables(record, number),
            "octets": octets.decode("latin-1"),
        }
        for record, number, octets in envelopes.SMALLEST_FIELDS
    ],
}


def test_prints_envelopes_as_json() -> None:
    assert module([], STORY) == (0, [STORY_AS_JSON], "")
    assert module([f"{SAMPLES}/story.iim"], SMALLEST) == (
        0,
        [{"file": f"{SAMPLES}/story.iim", **STORY_AS_JSON}],
        "",
    )
    assert module([], b"") == (0, [], "")
    status, lines, errors = module([], SMALLEST + STORY + SMALLEST[:100])
    assert (status, errors, len(lines)) == (1, "", 3)
    assert lines[1] == {**STORY_AS_JSON, "envelope": 2, "at": 114}
    assert lines[2] == {"envelope": 3, "at": 360, "refused": TRUNCATED_AS_JSON, **SMALLEST_AS_KNOWN}


def test_prints_many_files_with_their_names(folder: str) -> None:
    for name, octets in (
        ("b.iim", STORY),
        ("a b.iim", SMALLEST[:100]),
        ("-c", SMALLEST),
        ("é\n", SMALLEST),
    ):
        write_file(folder, name, octets)
    status, lines, errors = module(
        ["b.iim", "a b.iim", "absent", "é\n", ".", "--", "-c"], cwd=folder
    )
    assert (status, errors) == (3, "")
    assert [line["file"] for line in lines] == ["b.iim", "a b.iim", "absent", "é\n", ".", "-c"]
    assert lines[0] == {"file": "b.iim", **STORY_AS_JSON}
    assert lines[1] == {
        "file": "a b.iim",
        "envelope": 1,
        "at": 0,
        "refused": {**TRUNCATED_AS_JSON, "octet_in_file": 100},
        **SMALLEST_AS_KNOWN,
    }
    assert (lines[2]["failed"], lines[4]["failed"]) == (
        "cannot open: No such file or directory",
        "cannot open: Is a directory",
    )
    assert (lines[3]["length"], lines[5]["length"]) == (114, 114)
    assert module(["a b.iim", "b.iim"], cwd=folder)[0] == 1
    assert module(["b.iim", "-c"][:1], cwd=folder)[0] == 0


def test_checks_the_arguments_of_the_module() -> None:
    for words in (
        ["--limits"],
        ["--limits", "1", "x"],
        ["--limits", "0", "1"],
        ["--limits", "1", "4294967296"],
        ["--other"],
    ):
        assert (words, module(words)[:2]) == (words, (2, []))
    status, lines, _ = module(["--limits", "77", "16"], STORY)
    assert (status, lines[0]["refused"]["cause_name"], lines[0]["refused"]["octet"]) == (
        1,
        "HeaderFull",
        155,
    )
    assert module(["--limits", "78", "16"], STORY) == (0, [STORY_AS_JSON], "")


def test_reports_a_closed_pipe_and_a_full_disk() -> None:
    reader, writer = os.pipe()
    os.close(reader)
    closed = b"python3 -m iim: standard output: Broken pipe\n"
    of_module, of_archive = [*MODULE, f"{SAMPLES}/story.iim"], [*ARCHIVE, str(SAMPLES)]
    # (iim-archive ends without an error if its reader has closed the pipe)
    for words, printed in (of_module, closed), (of_archive, b""):
        ran = subprocess.run(
            words,
            stdout=writer,
            stderr=subprocess.PIPE,
            env=environment(),
            timeout=SECONDS,
        )
        assert (words, ran.returncode, ran.stderr) == (words, 3, printed)
    os.close(writer)
    with open("/dev/full", "wb") as full:
        for words, name in (of_module, "python3 -m iim"), (of_archive, "iim-archive"):
            printed = f"{name}: standard output: No space left on device\n".encode()
            ran = subprocess.run(
                words,
                stdout=full,
                stderr=subprocess.PIPE,
                env=environment(),
                timeout=SECONDS,
            )
            assert (words, ran.returncode, ran.stderr) == (words, 3, printed)


def test_reports_a_missing_library(folder: str) -> None:
    shutil.copytree(SOURCES / "iim", f"{folder}/iim", ignore=shutil.ignore_patterns("__pycache__"))
    plain = {
        name: value
        for name, value in os.environ.items()
        if name not in ("IIM_LIBRARY", "LD_LIBRARY_PATH", "PYTHONPATH")
    }
    # (the library named must exist; libm is another library)
    for env in (
        plain,
        {**plain, "IIM_LIBRARY": f"{folder}/absent.so"},
        {**plain, "IIM_LIBRARY": "libm.so.6"},
    ):
        # (raised at the first call)
        status, output, errors = run(
            [sys.executable, "-c", "import iim; print(1, flush=True); iim.row(1, 0)"],
            cwd=folder,
            env=env,
        )
        assert (
            status,
            output,
            b"ImportError: no libiim.so: bindings/build makes it" in errors,
        ) == (1, b"1\n", True)
        for words in MODULE, ARCHIVE, [*ARCHIVE, "query"]:
            status, output, errors = run([*words, "--help"], cwd=folder, env=env)
            assert (words, status, errors, output[:6]) == (words, 0, b"", b"usage:")
        for words in (
            [*MODULE, f"{SAMPLES}/story.iim"],
            [*ARCHIVE, str(SAMPLES)],
            [*ARCHIVE, "--workers", "1", str(SAMPLES)],
        ):
            status, output, errors = run(words, cwd=folder, env=env)
            front, _, reason = errors.partition(b"no libiim.so: bi")
            program = b"python3 -m iim: " if "iim" in words else b"iim-archive: "
            assert (words, status, front, reason[:6], output) == (words, 3, program, b"ndings", b"")
    for env, cwd in ({**plain, "IIM_LIBRARY": _library.library._name}, folder), (
        {**plain, "PYTHONPATH": str(SOURCES)},
        TOP,
    ):
        assert run([sys.executable, "-c", "import iim; iim.row(1, 0)"], cwd=cwd, env=env) == (
            0,
            b"",
            b"",
        )
    shutil.copy(_library.library._name, f"{folder}/iim/libiim.so")
    words = [sys.executable, "-c", "from iim import _library; print(_library.library._name)"]
    assert run(words, cwd=folder, env=plain) == (0, f"{folder}/iim/libiim.so\n".encode(), b"")


def test_names_a_library_that_is_too_old(folder: str) -> None:
    compiler = shutil.which("cc")
    if compiler is None:
        pytest.skip("no C compiler is installed")
    # (all functions of the header except one)
    names = [name for name in _library.FUNCTIONS if name != "iim_fields"]
    source = write_file(
        folder, "old.c", "".join(f"int {name}(void) {{ return 1; }}\n" for name in names).encode()
    )
    assert run([compiler, "-shared", "-fPIC", "-o", f"{folder}/old.so", source])[0] == 0
    words = [sys.executable, "-m", "iim", f"{SAMPLES}/story.iim"]
    status, output, errors = run(words, env=environment(IIM_LIBRARY=f"{folder}/old.so"))
    wanted = (
        f"python3 -m iim: {folder}/old.so is older than this module: install both from one release"
        f" ({folder}/old.so: undefined symbol: iim_fields)\n"
    )
    assert (status, output, errors.decode()) == (3, b"", wanted)


def test_writes_text_in_the_encoding_asked_for(folder: str) -> None:
    declared = {"norwegian": None, "french": "utf-8", "russian": "iso8859-5"}
    for name, copy in COPIES.items():
        path = write_file(folder, f"{name}.iim", copy.octets)
        headline = rules.first(copy.fields, 2, 105)
        assert headline is not None
        for asked, encoding in (copy.encoding, None), ("declared", declared[name]):
            status, (line,), errors = module(["--encoding", asked, path])
            assert (status, errors) == (0, "")
            assert line["named"]["headline"] == headline.decode(copy.encoding)
            assert line["lines"] == [each.decode(copy.encoding) for each in copy.lines]
            assert line["header"]["info"] == copy.head[5].decode(copy.encoding)
            # (numbers are not text)
            assert line["named"]["file_format"] == "\0\2"
            if asked == "declared":
                assert line["encoding"] == encoding
    path = write_file(folder, "cut.iim", RUSSIAN.octets[:-1])
    status, (line,), _ = module(["--encoding", "declared", path])
    (by_line,) = [field["octets"] for field in line["fields"] if field["dataset"] == "2:80"]
    assert (status, by_line, line["encoding"]) == (1, "Мария Иванова", "iso8859-5")
    # (bytes that are not of the encoding, and names of no encoding)
    status, (line,), _ = module(["--encoding", "ascii", path])
    assert (status, line["encoding"], "\\xbc" in json.dumps(line)) == (1, "ascii", True)
    for wrong in "utf-16", "rot13", "none":
        assert module(["--encoding", wrong, path])[0] == 2
