"""The packages of Debian, installed in an empty root and removed again."""
from __future__ import annotations

import os
import re
import shutil
from pathlib import Path

import pytest

from support.debian import Root, typed
from support.packages import RELEASE, TRIPLE, run, text_of
from support.running import TOP

# All of these change the one root.
pytestmark = pytest.mark.xdist_group("debian")
SAMPLES = "/usr/share/doc/iimwire/samples"
ROOM = "/srv/tried"


def test_installs_the_command_by_one_command(root: Root) -> None:
    # The line of README.md, run as root in the directory of the packages.
    (line,) = re.findall(r"^sudo (apt install .*)$", text_of("README.md"), re.M)
    words, _, check = line.partition(" && ")
    with root.installed("iimwire", by=f"cd /packages && {words}"):
        folder = "/usr/share/doc/iimwire"
        assert root.run(check) == "1 accepted 114 octets\n"
        assert root.run("iimwire --version") == f"iimwire {RELEASE}\n"
        page = root.run("man iimwire | cat")
        for word in "IIMWIRE(1)", "iimwire check", "LoneReturn", folder:
            assert word in page
        # (the examples of the page run in the directory that it names)
        refused = root.run(f"cd {folder} && iimwire check samples/damaged/missing.iim || true")
        line = "1 refused at octet 46 by layer record on 1:70, cause 14 Missing"
        assert refused == f"{line}\n"
        assert line in re.sub(r"\s+", " ", page)
        links = re.findall(r"\]\(([\w./]+\.md)", root.run(f"cat {folder}/docs/reference/causes.md"))
        for link in links:
            assert Path(f"{root.path}{folder}/docs/reference/{link}").is_file(), link


def test_completes_arguments_on_a_terminal(root: Root) -> None:
    with root.installed("iimwire"):
        shown = typed(root, b"iimwire s\t\t", rb"show +story")
        assert re.search(r"show +story", shown)
        keys = f"iimwire ch\t{SAMPLES}/small\tiim\r".encode()
        assert "1 accepted 114 octets" in typed(root, keys, rb"octets\r")


def test_compiles_a_program_with_pkg_config(root: Root) -> None:
    with root.installed("libiim-dev"), root.folder(ROOM) as folder:
        # (the compiler is that of this machine)
        env = {**os.environ, "PKG_CONFIG_SYSROOT_DIR": str(root.path)}
        env["PKG_CONFIG_LIBDIR"] = f"{root.path}/usr/lib/{TRIPLE}/pkgconfig"
        env |= {"PKG_CONFIG_ALLOW_SYSTEM_CFLAGS": "1", "PKG_CONFIG_ALLOW_SYSTEM_LIBS": "1"}
        assert run(["pkg-config", "--modversion", "libiim"], env=env).strip() == RELEASE
        flags = run(["pkg-config", "--cflags", "--libs", "libiim"], env=env).split()
        source = f"{root.path}/usr/share/doc/libiim-dev/examples/headline.c"
        run(["cc", "-o", folder / "headline", source, *flags])
        shutil.copy(TOP / "samples/story.iim", folder)
        assert root.run(f"{ROOM}/headline {ROOM}/story.iim") == "Rates held\n"
        assert "libiim.so.1 => /" in root.run(f"ldd {ROOM}/headline")


READ = f"""import iim
for envelope in iim.read('{SAMPLES}/stream.iim'):
    print(envelope.id.number.text('ascii'), envelope.headline)"""


def test_loads_the_module(root: Root) -> None:
    with root.installed("python3-iim", "iimwire"):
        assert root.run(f'python3 -c "{READ}"') == "00000001 None\n00000002 b'Rates held'\n"
        printed = root.run(f"python3 -m iim {SAMPLES}/story.iim")
        assert printed.startswith(f'{{"file": "{SAMPLES}/story.iim", "envelope": 1, ')
        help_ = root.run("python3 -m pydoc iim | head -n 1")
        assert help_.strip() == "Help on package iim:"


def test_archives_the_samples(root: Root) -> None:
    instant = "--now 2024-03-01T12:00:00Z"
    with root.installed("python3-iim", "iimwire"), root.folder(ROOM):
        rows = root.run(f"iim-archive --name '*.iim' {instant} {SAMPLES} || [ $? -eq 1 ]")
        sums = re.findall(r'^\{"files": 38, .*$', text_of("docs/guide/archive.md"), re.M)
        assert rows.splitlines()[-1] == sums[0]
        index = f"{ROOM}/tree.index"
        into = f"iim-archive --name '*.iim' --into {index} {SAMPLES}"
        root.run(f"{into} >/dev/null || [ $? -eq 1 ]")
        report = root.run(f"iim-archive report {index} {instant}")
        where = "damaged/bad_value.iim: envelope 1, octet 54 of the file, 1:70, cause 15 BadValue"
        assert "38 files, " in report and where in report
        page = root.run("man iim-archive | cat")
        for word in "IIM-ARCHIVE(1)", "iim-archive query", "iim-archive report":
            assert word in page


def test_explains_a_file(root: Root) -> None:
    # What README.md names, of the sample that docs/guide/explain.md shows.
    (words,) = re.findall(r"^\$ (iim-explain samples/\S+ --html .*)$", text_of("README.md"), re.M)
    guide = text_of("docs/guide/explain.md")
    (begins,) = re.findall(r"It begins\n\n```\n(.*?)```", guide, re.S)
    with root.installed("python3-iim", "iimwire"), root.folder(ROOM) as folder:
        explain = words.replace("samples", str(SAMPLES))
        text = root.run(f"cd {ROOM} && {explain} || [ $? -eq 1 ]")
        assert text[: len(begins)] == begins
        assert "<mark" in (folder / "page.html").read_text()
        accepted = root.run(f"iim-explain - <{SAMPLES}/story.iim")
        assert accepted.startswith("-: 246 octets, 1 envelope accepted\n")
        text, page = root.run("iim-explain --help"), root.run("man iim-explain | cat")
        assert text.startswith("usage: iim-explain [-h]")
        assert page.startswith("IIM-EXPLAIN(1)")
        assert set(re.findall("--[a-z]+", text)) == set(re.findall("--[a-z]+", page))
        assert [line for line in begins.splitlines()[:4] if line not in page] == []
