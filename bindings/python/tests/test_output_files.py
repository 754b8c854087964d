"""Pages and reports replace only files of this package."""
from __future__ import annotations
from support.bindings.running import NO_ARGUMENTS
from typing import Any, Dict, Optional, Union

import contextlib
import os

import pytest
from envelopes import SMALLEST
from iim import safe_output
from support.bindings.archive import expect_failures, failing, small_disk, stored
from support.bindings.paths import NOW
from support.bindings.running import python_with, files_in, octets_of, write_file


def replaced(path: str, text: str, **more: Any) -> Optional[str]:
    """Write a file by `replace_file`, and return why it was rejected, or `None`."""
    try:
        with safe_output.replace_file(path, **more) as to:
            to.write(text)
    except safe_output.OutputRefused as fault:
        return str(fault)
    return None


def test_replaces_only_its_own_pages(folder: str) -> None:
    page = safe_output.PAGE_HEAD + "<title>a</title>\n"
    out, other = f"{folder}/out.html", write_file(
        folder, "other.html", b"<!doctype html>\n<title>of somebody</title>\n"
    )
    assert (replaced(out, page), octets_of(out)) == (None, page.encode())
    assert (replaced(out, page * 2), octets_of(out)) == (None, page.encode() * 2)
    why = f"{other}: exists and was not written by this program; --force replaces it"
    assert (replaced(other, page), octets_of(other)[:10]) == (why, b"<!doctype ")
    assert (replaced(other, page, force=True), octets_of(other)) == (None, page.encode())
    for at in folder, f"{folder}/":
        assert (at, replaced(at, page, force=True)) == (at, f"{at}: is a directory")
    # (a device or a FIFO would be replaced by a file)
    os.mkfifo(f"{folder}/fifo")
    assert replaced(f"{folder}/fifo", page, force=True) == f"{folder}/fifo: is not a regular file"
    assert sorted(os.listdir(folder)) == ["fifo", "other.html", "out.html"]


def test_replaces_no_input_by_any_name(folder: str) -> None:
    page = (safe_output.PAGE_HEAD + "\n").encode()
    # (an input may be a page of this package, too)
    path = write_file(folder, "a.iim", page)
    os.symlink("a.iim", f"{folder}/link")
    os.link(path, f"{folder}/hard")
    os.mkdir(f"{folder}/b")
    with open(path, "rb") as descriptor:
        for out in path, f"{folder}/link", f"{folder}/hard", f"{folder}/b/../a.iim":
            for given in path, os.fsencode(path), f"{folder}/link", descriptor.fileno():
                for force in False, True:
                    assert (out, given, replaced(out, "", inputs=[given], force=force)) == (
                        out,
                        given,
                        f"{out}: is an input",
                    )
    assert (octets_of(path), replaced(path, "", inputs=[f"{folder}/absent"])) == (page, None)


def test_never_writes_through_a_link(folder: str) -> None:
    target, link = write_file(folder, "target", b"of the user"), f"{folder}/link"
    for points_to in "target", "absent":
        os.symlink(points_to, link)
        assert replaced(link, "new") == f"{link}: is a symbolic link; --force replaces it"
        assert (replaced(link, "new", force=True), os.path.islink(link), octets_of(link)) == (
            None,
            False,
            b"new",
        )
        os.remove(link)
    assert (octets_of(target), os.listdir(folder)) == (b"of the user", ["target"])


def test_keeps_the_old_file_if_writing_fails(folder: str) -> None:
    page = safe_output.PAGE_HEAD + "\n"
    out = f"{folder}/out.html"
    assert replaced(out, page) is None
    os.chmod(out, 0o604)
    for kind in ZeroDivisionError, KeyboardInterrupt:
        with contextlib.suppress(kind), safe_output.replace_file(out) as to:
            to.write("half of it")
            to.flush()
            raise kind
        assert (octets_of(out), os.listdir(folder)) == (page.encode(), ["out.html"])
    # (a file that the user writes meanwhile is not replaced)
    with contextlib.suppress(safe_output.OutputRefused), safe_output.replace_file(
        f"{folder}/new.html"
    ) as to:
        write_file(folder, "new.html", b"of the user")
    assert (octets_of(f"{folder}/new.html"), sorted(os.listdir(folder))) == (
        b"of the user",
        ["new.html", "out.html"],
    )
    assert (replaced(out, page * 2), os.stat(out).st_mode & 0o777) == (None, 0o604)
    umask = os.umask(0o027)
    try:
        assert (
            replaced(f"{folder}/other.html", page),
            os.stat(f"{folder}/other.html").st_mode & 0o777,
        ) == (None, 0o640)
    finally:
        os.umask(umask)
    assert isinstance(
        pytest.raises(OSError, replaced, f"{folder}/absent/out.html", page).value, FileNotFoundError
    ), "no such folder"


def files_and_octets(folder: str) -> Dict[str, Union[str, bytes]]:
    """Return the content of each file of a directory, and the target of each link."""
    return {
        path: os.readlink(path) if os.path.islink(path) else octets_of(path)
        for path in files_in(folder)
    }


def test_overwrites_only_its_own_pages(folder: str) -> None:
    report = ["report", "--now", NOW, "--html"]
    tree = f"{folder}/tree"
    bad = write_file(tree, "bad.iim", SMALLEST[:50])
    good = write_file(tree, "good.iim", SMALLEST)
    changed = write_file(tree, "changed.iim", SMALLEST)
    index, page = f"{folder}/index", f"{folder}/page.html"
    stored(index, [tree])
    # (this one is recognized only by its name)
    write_file(tree, "changed.iim", SMALLEST * 2)
    other = write_file(folder, "other.html", b"<!doctype html>\n<title>of somebody</title>\n")
    os.symlink("index", f"{folder}/link.html")
    os.link(good, f"{folder}/hard.html")
    os.symlink("other.html", f"{folder}/to_other.html")
    os.mkdir(f"{folder}/folder.html")
    write_file(folder, "taken.files", b"of somebody")
    write_file(folder, "pages.files/1.html", b"of somebody")
    os.symlink("tree", f"{folder}/led.files")
    was = files_and_octets(folder)
    by = {"python": python_with("jinja2", "matplotlib")}
    inputs = (
        index,
        f"{folder}/link.html",
        good,
        bad,
        changed,
        f"{folder}/hard.html",
        f"{folder}/tree/../index",
    )
    provoked = [
        ([*report, out, *force, index], f"{out}: is an input", by)
        for out in inputs
        for force in (NO_ARGUMENTS, ["--force"])
    ]
    provoked += [
        ([*report, f"{folder}/folder.html", index], "folder.html: is a directory", by),
        ([*report, f"{folder}/folder.html", "--force", index], "folder.html: is a directory", by),
        (
            [*report, other, index],
            "other.html: exists and was not written by this program; --force replaces it",
            by,
        ),
        (
            [*report, f"{folder}/to_other.html", index],
            "to_other.html: is a symbolic link; --force replaces it",
            by,
        ),
        ([*report, f"{folder}/absent/page.html", index], "No such file or directory", by),
        ([*report, f"{folder}/taken.html", index], "taken.files: File exists", by),
        (
            [*report, f"{folder}/pages.html", index],
            "pages.files/1.html: exists and was not written by this program",
            by,
        ),
        ([*report, f"{folder}/led.html", index], "led.files: is a symbolic link", by),
    ]
    expect_failures(provoked)
    assert files_and_octets(folder) == was
    # (its own page is replaced, and with --force another file)
    for words in [page], [page], [other, "--force"], [f"{folder}/pages.html", "--force"]:
        assert (words, failing([*report, *words, index], **by)) == (words, (0, "", ""))
        assert octets_of(words[0]).startswith(safe_output.PAGE_HEAD.encode()), words[0]
    # (all but the time at which each was made)
    one, other_page = (
        octets_of(f"{folder}/{name}.files/1.html").partition(b"<p>iim-explain, release")[0]
        for name in ("pages", "page")
    )
    assert (len(one) > 1_000, one == other_page) == (True, True)
    assert {name: octets for name, octets in files_and_octets(tree).items()} == {
        bad: SMALLEST[:50],
        changed: SMALLEST * 2,
        good: SMALLEST,
    }


def test_keeps_the_old_report_if_the_new_one_fails(folder: str) -> None:
    with small_disk(folder, 1 << 20) as disk:
        index, page, by = (
            f"{folder}/index",
            f"{disk}/page.html",
            {"python": python_with("jinja2", "matplotlib")},
        )
        stored(index, [write_file(folder, "good.iim", SMALLEST)])
        assert failing(["report", "--html", page, index], **by) == (0, "", "")
        was = octets_of(page)
        with contextlib.suppress(OSError), open(f"{disk}/rest", "wb", buffering=0) as rest:
            while True:
                rest.write(bytes(4096))
        expect_failures(
            [(["report", "--html", page, index], f"{page}: No space left on device", by)]
        )
        assert (octets_of(page) == was, sorted(os.listdir(disk))) == (True, ["page.html", "rest"])
