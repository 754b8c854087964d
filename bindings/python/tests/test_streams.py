"""Files that are open: iterators as context managers, and the log of iim-archive."""
from __future__ import annotations

import json
import logging
import os
import subprocess
import sys
from pathlib import Path
from typing import Callable, List, Set

import iim
import pytest
from iim.archive import distributed, output
from iim.archive.index import Index
from iim.explain.walk import Source

pytestmark = pytest.mark.usefixtures("way")

NOW = "2024-03-01T12:00:00Z"


def open_files() -> Set[str]:
    """Return the paths of the files that this process has open."""
    links = Path("/proc/self/fd")
    if not links.exists():
        pytest.skip("/proc is not there")
    return {os.readlink(link) for link in links.iterdir() if link.is_symlink()}


@pytest.mark.parametrize("reading", [iim.read, iim.audit, iim.audit_blocks])
def test_stream_closes_its_file(
    library: Path, top: Path, reading: Callable[[Path], iim.Stream[object]]
) -> None:
    path = top / "samples" / "stream.iim"
    with reading(path) as items:
        assert next(items) is not None
        assert str(path) in open_files()
    assert str(path) not in open_files()
    assert list(items) == []


def test_stream_of_a_file_leaves_it_open(library: Path, top: Path) -> None:
    with (top / "samples" / "stream.iim").open("rb") as file:
        with iim.read(file) as envelopes:
            first = next(envelopes)
        assert (first.nth, file.closed) == (1, False)


def test_iterates_as_it_advances(library: Path, top: Path) -> None:
    numbers = [b"00000001", b"00000002"]
    path = top / "samples" / "stream.iim"
    with iim.read(path) as envelopes:
        assert next(envelopes).id.number == numbers[0]
        assert [envelope.id.number for envelope in envelopes] == numbers[1:]
    assert [envelope.id.number for envelope in iim.read(path)] == numbers


def test_closed_blocks_release_the_auditor(library: Path, top: Path) -> None:
    auditor = iim.Auditor()
    with (top / "samples" / "stream.iim").open("rb", buffering=0) as file:
        with auditor.blocks(file.readinto) as blocks:
            next(blocks)
            with pytest.raises(RuntimeError):
                next(auditor.blocks(file.readinto))
        file.seek(0)
        assert sum(map(len, auditor.blocks(file.readinto))) == 2


def test_json_has_the_dictionary(library: Path, top: Path) -> None:
    (envelope,) = iim.read(top / "samples" / "story.iim")
    assert json.loads(envelope.to_json()) == envelope.to_dict()
    assert envelope.to_dict()["named"]["headline"] == "Rates held"
    with pytest.raises(iim.TruncatedError) as caught:
        list(iim.read(top / "samples" / "damaged" / "truncated.iim"))
    assert json.loads(caught.value.to_json()) == caught.value.to_dict()
    assert caught.value.to_dict()["refused"]["cause_name"] == "Truncated"


def test_field_is_text_in_an_encoding(library: Path, top: Path) -> None:
    (envelope,) = iim.read(top / "samples" / "story.iim")
    texts = {field.dataset: field.text("ascii") for field in envelope.datasets if field.name}
    assert (texts["2:105"], texts["1:30"]) == ("Rates held", "TST")


def test_source_closes_its_file(top: Path) -> None:
    path = top / "samples" / "story.iim"
    with Source(str(path)) as source:
        assert (source.take(0, 1), str(path) in open_files()) == (b"\x1c", True)
    assert str(path) not in open_files()


def test_source_closes_a_file_that_it_copied() -> None:
    # (its size is unknown, so that its bytes are copied)
    path, before = "/proc/self/limits", open_files()
    with Source(path) as source:
        assert source.take(0, 5) == b"Limit"
        assert len(open_files() - before) == 2
    assert open_files() == before


def test_index_closes_its_files(tmp_path: Path) -> None:
    path = tmp_path / "archive.index"
    with Index(str(path)):
        assert str(path) in open_files()
    assert [name for name in open_files() if name.startswith(str(path))] == []


def archive(top: Path, *words: str) -> List[str]:
    """Run iim-archive, and return the lines of its standard error."""
    source = str(top / "bindings" / "python" / "src")
    env = {**os.environ, "PYTHONPATH": os.pathsep.join([source, os.environ.get("PYTHONPATH", "")])}
    program = [sys.executable, "-m", "iim.archive", *words]
    return subprocess.run(program, env=env, capture_output=True, text=True).stderr.splitlines()


def test_logs_the_steps_if_verbose(library: Path, top: Path, tmp_path: Path) -> None:
    path, index = str(top / "samples" / "story.iim"), str(tmp_path / "archive.index")
    assert archive(top, "--now", NOW, path) == []
    assert archive(top, "--verbose", "--now", NOW, path) == [
        "iim-archive: 1 files are read and printed"
    ]
    assert archive(top, "--verbose", "--now", NOW, "--into", index, path) == [
        "iim-archive: 1 files are found, and their rows are stored"
    ]


def test_logs_a_failure_as_one_line(library: Path, top: Path, tmp_path: Path) -> None:
    path = tmp_path / "no\nindex"
    path.write_text("text")
    (line,) = archive(top, "query", str(path))
    assert line == f"iim-archive: {tmp_path}/no\\nindex: file is not a database"


def test_silences_all_logs_but_its_own() -> None:
    names = "distributed.client", "another"
    loggers = [logging.getLogger(name) for name in names]
    loggers[0].setLevel(logging.DEBUG)
    try:
        distributed.silence_logs()
        assert [logger.isEnabledFor(logging.CRITICAL) for logger in loggers] == [False, False]
        assert not logging.getLogger("distributed.later").isEnabledFor(logging.CRITICAL)
        assert output.LOGGER.isEnabledFor(logging.ERROR)
    finally:
        for logger in map(logging.getLogger, list(logging.root.manager.loggerDict)):
            logger.disabled = False
        for name in distributed.SILENT:
            logging.getLogger(name).setLevel(logging.NOTSET)
