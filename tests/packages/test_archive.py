"""The archive: the files of the packages, and its Makefile."""
from __future__ import annotations

import os
from pathlib import Path

from support.packages import ARCHIVE, HERE, PYTHON, RELEASE, TRIPLE, Packages
from support.packages import files_in, files_of_packages, run
from support.running import TOP

SMALLEST = "share/doc/iimwire/samples/smallest.iim"


def as_in_the_archive(path: str) -> str:
    """Return the path in the archive of a file of a package."""
    path = path.removeprefix("usr/").removesuffix(".gz").replace(f"lib/{TRIPLE}/", "lib/")
    path = path.replace("lib/python3/dist-packages/", "python/")
    return path.replace("zsh/vendor-completions/", "zsh/site-functions/")


def test_has_the_same_files_in_the_archive(packages: Packages) -> None:
    folder = packages.of_archive()
    files = {
        as_in_the_archive(path): (packages.unpacked(name) / path, source)
        for name, files in files_of_packages().items()
        for path, source in files.items()
        # (by this file Debian lists the documents of all packages)
        if not path.startswith("usr/share/doc-base/")
    }
    own = ["COPYRIGHT", "Makefile", "PROVENANCE", "README", "iimwire.spdx.json"]
    assert files_in(folder) == sorted([*files, *own])
    for path, (packed, source) in files.items():
        made = folder / path
        assert made.lstat().st_mode == packed.lstat().st_mode, path
        if made.is_symlink():
            assert made.readlink() == packed.readlink(), path
        # (the files for pkg-config name the directories of each)
        elif not path.endswith(".pc"):
            is_same = made.read_bytes() == (TOP / source if source else packed).read_bytes()
            assert is_same, path


def test_archive_has_the_same_documents(packages: Packages) -> None:
    folder = packages.of_archive()
    assert (folder / "PROVENANCE").read_text() == packages.document("iimwire", "PROVENANCE")
    assert (folder / "COPYRIGHT").read_text() == packages.document("iimwire", "copyright")
    assert (folder / "Makefile").read_text() == (HERE / "Makefile").read_text()


def test_installs_from_the_archive(packages: Packages, tmp_path: Path) -> None:
    run(["tar", "-xf", packages.out / ARCHIVE, "-C", tmp_path])
    assert os.listdir(tmp_path) == [f"iimwire-{RELEASE}"]
    made, prefix = tmp_path / f"iimwire-{RELEASE}", tmp_path / "prefix"
    accepted = "1 accepted 114 octets\n"
    assert run([made / "bin/iimwire", "check", made / SMALLEST]) == accepted
    run(["make", "-C", made, "install", f"PREFIX={prefix}"])
    assert run([prefix / "bin/iimwire", "check", prefix / SMALLEST]) == accepted
    env = {**os.environ, "PKG_CONFIG_PATH": f"{prefix}/lib/pkgconfig"}
    env["LD_LIBRARY_PATH"] = f"{prefix}/lib"
    flags = run(["pkg-config", "--cflags", "--libs", "libiim"], env=env).split()
    source = prefix / "share/doc/libiim-dev/examples/headline.c"
    run(["cc", "-o", tmp_path / "headline", source, *flags])
    assert run([tmp_path / "headline", TOP / "samples/story.iim"], env=env) == "Rates held\n"
    env["PYTHONPATH"] = f"{prefix}/lib/python3/dist-packages"
    code = f"import iim; print(iim.check(open('{TOP}/samples/smallest.iim', 'rb').read()))"
    assert run([PYTHON, "-c", code], env=env) == "114\n"
    # The cache of the module is removed with it, and no other.
    other = prefix / "bin/__pycache__/of_another.pyc"
    other.parent.mkdir()
    other.touch()
    run(["make", "-C", made, "uninstall", f"PREFIX={prefix}"])
    assert files_in(prefix) == ["bin/__pycache__/of_another.pyc"]
