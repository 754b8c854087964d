"""Envelopes inside other files, and other files."""
from __future__ import annotations

import base64
import binascii
import bz2
import gzip
import io
import lzma
import tarfile
import zipfile

from damages.damage import Damage, Made
from newsroom import COPIES, FRENCH, NORWEGIAN


def mail_of(octets: bytes) -> bytes:
    """Return a mail with a file as its attachment."""
    body = base64.encodebytes(octets).replace(b"\n", b"\r\n")
    lines = [
        b"From: wire@example.org",
        b"To: desk@example.org",
        b"Subject: Statsbudsjett",
        b"MIME-Version: 1.0",
        b"Content-Type: multipart/mixed; boundary=sep",
        b"",
        b"--sep",
        b"Content-Type: text/plain",
        b"",
        b"See the file.",
        b"--sep",
        b"Content-Type: application/octet-stream",
        b"Content-Transfer-Encoding: base64",
        b'Content-Disposition: attachment; filename="ntb.iim"',
        b"",
        body + b"--sep--",
        b"",
    ]
    return b"\r\n".join(lines)


def zip_of(name: str, octets: bytes) -> bytes:
    """Return a zip archive with one member."""
    to = io.BytesIO()
    with zipfile.ZipFile(to, "w", zipfile.ZIP_DEFLATED) as archive:
        archive.writestr(zipfile.ZipInfo(name), octets)
    return to.getvalue()


def tar_of(name: str, octets: bytes) -> bytes:
    """Return a tar archive with one member."""
    to = io.BytesIO()
    with tarfile.open(fileobj=to, mode="w") as archive:
        member = tarfile.TarInfo(name)
        member.size = len(octets)
        archive.addfile(member, io.BytesIO(octets))
    return to.getvalue()


def wrapped() -> Made:
    """Yield envelopes inside other files."""
    one = "it is accepted: 1 envelope."
    octets = NORWEGIAN.octets
    http = (
        b"HTTP/1.1 200 OK\r\nContent-Type: application/octet-stream\r\nContent-Length: %d\r\n\r\n"
    )
    chunked = b"HTTP/1.1 200 OK\r\nTransfer-Encoding: chunked\r\n\r\n%x\r\n" % len(octets)
    plain = b"From: wire@example.org\nTo: desk@example.org\nSubject: copy\n"
    text = (
        plain
        + b"Content-Transfer-Encoding: quoted-printable\n\n"
        + binascii.b2a_qp(octets, istext=False)
    )
    for name, made, kind, sentence in [
        (
            "UTF-8 BOM",
            b"\xef\xbb\xbf" + octets,
            "a byte order mark (EF BB BF)",
            "Without the byte order mark in front",
        ),
        ("gzip", gzip.compress(octets, mtime=0), "a gzip file", "Decompressed"),
        ("bzip2", bz2.compress(octets), "a bzip2 file", "Decompressed"),
        ("xz", lzma.compress(octets), "an xz file", "Decompressed"),
        ("zip", zip_of("ntb.iim", octets), "a zip archive", "Its member 'ntb.iim'"),
        ("tar", tar_of("ntb.iim", octets), "a tar archive", "Its member 'ntb.iim'"),
        ("base64", base64.encodebytes(octets), "base64 text", "Decoded"),
        (
            "quoted-printable",
            binascii.b2a_qp(octets, istext=False),
            "quoted-printable text",
            "Decoded",
        ),
        (
            "UTF-16",
            octets.decode("latin-1").encode("utf-16"),
            "UTF-16 text",
            "Converted from UTF-16 to Latin-1",
        ),
        ("mail", mail_of(octets), "a mail", "Its attachment 'ntb.iim'"),
        ("mail of quoted-printable", text, "a mail", "Its text"),
        ("HTTP", http % len(octets) + octets, "a response of a web server", "Its body"),
        (
            "HTTP in chunks",
            chunked + octets + b"\r\n0\r\n\r\n",
            "a response of a web server",
            "The body of its chunks",
        ),
        ("hexadecimal", octets.hex().encode(), "a hexadecimal dump", "As bytes"),
    ]:
        yield Damage(
            f"norwegian: {name}",
            made,
            [
                f"The file is {kind}" if "byte order" not in kind else kind,
                f"{sentence}, {one}",
                "Nothing has to be sent again.",
            ],
        )
    twice = gzip.compress(zip_of("afp.iim", FRENCH.octets), mtime=0)
    yield Damage(
        "french: gzip of zip",
        twice,
        [f"Decompressed, its member 'afp.iim', {one}", "a zip archive in a gzip file"],
    )
    cut = gzip.compress(octets, mtime=0)
    yield Damage(
        "norwegian: gzip cut off", cut[: len(cut) // 2], ["a gzip file", "valid up to octet"]
    )


def foreign() -> Made:
    """Yield files that are no IIM at all."""
    jpeg = b"\xff\xd8\xff\xe0\0\x10JFIF\0\1\1\0\0\1\0\1\0\0" + bytes(range(256)) * 8
    page = (
        b"<!DOCTYPE html>\n<html><head><title>404 Not Found</title></head><body>no</body></html>\n"
    )
    newsml = b'<?xml version="1.0"?>\n<newsItem guid="urn:newsml:ntb.no:1">x</newsItem>\n'
    nitf = b'<?xml version="1.0" encoding="utf-8"?><nitf><head/><body/></nitf>'
    for name, octets, kind in [
        ("JPEG", jpeg, "a JPEG picture"),
        ("HTML error page", page, "an HTML page, '404 Not Found'"),
        ("NewsML-G2", newsml, "a NewsML-G2 document (XML)"),
        ("NITF", nitf, "an NITF document (XML)"),
        ("JSON", b'{"headline": "Budsjett"}', "a JSON document"),
        ("PDF", b"%PDF-1.4\n%\xe2\xe3\xcf\xd3\n" + b"x" * 100, "a PDF document"),
        ("Word", zip_of("word/document.xml", b"<w:document/>"), "a Word document"),
        (
            "plain text",
            b"Oslo (NTB): Regjeringen\nlegger fram\n",
            "plain text, which begins 'Oslo (NTB): Regjeringen'",
        ),
    ]:
        yield Damage(f"foreign: {name}", octets, [f"The file is {kind}", "It is no IIM."])
    for called, copy in COPIES.items():
        yield Damage(
            f"{called}: the message alone",
            copy.message,
            [
                "the file is a bare IPTC 7901 message, without an envelope.",
                "With an envelope put around it, it is accepted: an envelope needs 1:00,",
            ],
        )
