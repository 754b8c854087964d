"""Recognize what a file is that is no IIM, and try what is inside it."""
from __future__ import annotations

import base64
import binascii
import bz2
import email
import email.message
import importlib
import io
import json
import lzma
import quopri
import re
import tarfile
import urllib.parse
import zipfile
import zlib
from typing import Callable, Dict, Iterator, List, NamedTuple, Optional, Tuple

import iim
from iim.explain.charsets import safe
from iim.explain.trying import Outcome, judge
from iim.explain.words import plain

# The most bytes that are read, or that a compressed file may have; the members of an archive that
# are tried; and the layers of packing that are opened.
MOST, MEMBERS, DEPTH = 1 << 25, 20, 3
# The fewest valid bytes by which something looks like an envelope: a tag, and more.
LEAST = 8
# The bytes at the beginning of a file that name it.
HEAD = 4_096


class Kind(NamedTuple):
    """What a file is.

    Attributes:
        name: The name, with its article.
        advice: What to do with it, or an empty text.
    """

    name: str
    advice: str = ""


# The kinds that are known by their first bytes.
SIGNATURES: List[Tuple[bytes, Kind]] = [
    (b"\xff\xd8\xff", Kind("a JPEG picture", "use a reader for pictures, such as exiftool")),
    (b"\x89PNG\r\n\x1a\n", Kind("a PNG picture", "use a reader for pictures")),
    (b"GIF8", Kind("a GIF picture", "use a reader for pictures")),
    (b"II*\0", Kind("a TIFF picture", "use a reader for pictures, such as exiftool")),
    (b"MM\0*", Kind("a TIFF picture", "use a reader for pictures, such as exiftool")),
    (b"8BPS", Kind("a Photoshop picture", "use a reader for pictures, such as exiftool")),
    (b"%PDF-", Kind("a PDF document", "ask for the wire copy itself")),
    (b"%!PS", Kind("a PostScript document", "ask for the wire copy itself")),
    (b"{\\rtf", Kind("an RTF document", "ask for the wire copy itself")),
    (b"\xd0\xcf\x11\xe0", Kind("an old Word or Excel document", "ask for the wire copy itself")),
    (b"\x1f\x8b", Kind("a gzip file", "decompress it with `gzip -d`")),
    (b"BZh", Kind("a bzip2 file", "decompress it with `bzip2 -d`")),
    (b"\xfd7zXZ\0", Kind("an xz file", "decompress it with `xz -d`")),
    (b"\x1f\x9d", Kind("a file of compress (.Z)", "decompress it with `gzip -d`")),
    (b"\x28\xb5\x2f\xfd", Kind("a Zstandard file", "decompress it with `zstd -d`")),
    (b"\x04\x22\x4d\x18", Kind("an LZ4 file", "decompress it with `lz4 -d`")),
    (b"7z\xbc\xaf\x27\x1c", Kind("a 7-Zip archive", "unpack it with `7z x`")),
    (b"Rar!\x1a\x07", Kind("a RAR archive", "unpack it with `unrar x`")),
    (b"PK\x03\x04", Kind("a zip archive", "unpack it with `unzip`")),
    (b"PK\x05\x06", Kind("an empty zip archive", "ask for the file itself")),
    (b"\x7fELF", Kind("a program for Linux")),
    (b"MZ", Kind("a program for Windows")),
    (b"ID3", Kind("an MP3 sound")),
    (b"RIFF", Kind("a RIFF file, such as a WAV sound or a WebP picture")),
    (b"OggS", Kind("an Ogg sound")),
    (b"fLaC", Kind("a FLAC sound")),
    (b"SQLite format 3\0", Kind("an SQLite database")),
    (b"\xd4\xc3\xb2\xa1", Kind("a capture of network packets (pcap)")),
    (b"\xa1\xb2\xc3\xd4", Kind("a capture of network packets (pcap)")),
    (b"\x0a\x0d\x0d\x0a", Kind("a capture of network packets (pcapng)")),
    (b"\0\x05\x16\x07", Kind("the resource part of a Macintosh file (AppleDouble)")),
    (b"\0\x05\x16\0", Kind("a Macintosh file (AppleSingle)")),
]
TAR = Kind("a tar archive", "unpack it with `tar -x`")
MAIL = Kind("a mail", "save the attachment or the text of the mail as a file of its own")
HTTP = Kind("a response of a web server", "save the body alone, without the header")
FORM = Kind("a form that a browser sent", "save the part with the file alone")
UTF_8_BOM = Kind("text that begins with a byte order mark (EF BB BF)", "save it without that mark")
UTF_16 = Kind("UTF-16 text", "transfer the file in binary mode: an editor saved it as text")
UTF_32 = Kind("UTF-32 text", "transfer the file in binary mode: an editor saved it as text")
BASE64 = Kind("base64 text", "decode it with `base64 -d`")
QUOTED = Kind("quoted-printable text", "decode it, as mail programs do")
UU = Kind("uuencoded text", "decode it with `uudecode`")
HEXADECIMAL = Kind("a hexadecimal dump", "make the bytes of it with `xxd -r`")
ESCAPED = Kind("text with escapes for bytes", "make the bytes of it")
PERCENT = Kind("text with percent escapes", "make the bytes of it")
SCRIPT = Kind("a text as `iimwire show` prints it", "pack it with `iimwire pack`")
# The roots of XML documents that newsrooms have.
ROOTS = {
    "newsml": "a NewsML document (XML)",
    "newsitem": "a NewsML-G2 document (XML)",
    "newsmessage": "a NewsML-G2 message (XML)",
    "packageitem": "a NewsML-G2 package (XML)",
    "nitf": "an NITF document (XML)",
    "html": "an HTML page",
    "rss": "an RSS feed (XML)",
    "feed": "an Atom feed (XML)",
    "svg": "an SVG picture (XML)",
}
ASK_COPY = "ask for the wire copy itself, or use a reader for this format"


class Layer(NamedTuple):
    """What a file has inside.

    Attributes:
        kind: What the file is.
        how: How the bytes were made of it, such as "Decompressed".
        octets: The bytes.
    """

    kind: Kind
    how: str
    octets: bytes


class Tried(NamedTuple):
    """What came out of a file.

    Attributes:
        layers: The layers that were opened, the outermost first.
        outcome: How far the bytes are accepted.
        octets: The bytes.
    """

    layers: List[Layer]
    outcome: Outcome
    octets: bytes


# --- What the file is


def kind_of(octets: bytes) -> Optional[Kind]:
    """Return what a file is by its first bytes, or `None` if that is not known."""
    for signature, kind in SIGNATURES:
        if octets.startswith(signature):
            return office_of(octets) if kind.name == "a zip archive" else kind
    if octets[257:262] == b"ustar":
        return TAR
    if octets[4:8] == b"ftyp":
        return Kind("a film or a picture (ISO base media, such as MP4 or HEIC)")
    return kind_of_text(octets)


def office_of(octets: bytes) -> Kind:
    """Return what a zip archive is."""
    for part, name in ((b"word/", "Word"), (b"xl/", "Excel"), (b"ppt/", "PowerPoint")):
        if part in octets[:HEAD]:
            return Kind(f"a {name} document", "ask for the wire copy itself")
    if b"mimetypeapplication/vnd.oasis" in octets[:200]:
        return Kind("an OpenDocument file", "ask for the wire copy itself")
    return Kind("a zip archive", "unpack it with `unzip`")


def kind_of_text(octets: bytes) -> Optional[Kind]:
    """Return what a text is, or `None`."""
    for mark, kind in (
        (b"\xff\xfe\0\0", UTF_32),
        (b"\0\0\xfe\xff", UTF_32),
        (b"\xff\xfe", UTF_16),
        (b"\xfe\xff", UTF_16),
    ):
        if octets.startswith(mark):
            return kind
    text = octets[3:] if octets.startswith(b"\xef\xbb\xbf") else octets
    return (
        markup_of(text)
        or headed_of(text)
        or coded_of(text)
        or (UTF_8_BOM if text is not octets else None)
        or plain_text_of(text)
    )


def markup_of(octets: bytes) -> Optional[Kind]:
    """Return what an XML, HTML or JSON document is, or `None`."""
    text = octets[:HEAD].lstrip().decode("latin-1")
    if text[:1] == "<":
        text = re.sub(r"<\?.*?\?>|<!--.*?-->", "", text, flags=re.S).lstrip()
        found = re.match(r"<(?:!doctype\s+)?(?:\w+:)?([A-Za-z][\w.-]*)", text, re.I)
        if found is None:
            return None
        root = found[1]
        name = ROOTS.get(root.lower(), f"an XML document, {root}")
        title = re.search(r"<title[^>]*>\s*([^<]{1,80})", text, re.I)
        if title and root.lower() == "html":
            name += f", '{safe(title[1].strip())}'"
        return Kind(name, ASK_COPY)
    if text[:1] in ("{", "["):
        try:
            json.loads(octets.decode("utf-8"))
            return Kind("a JSON document", ASK_COPY)
        except ValueError:
            return None
    return None


HEADER = re.compile(rb"(?:[A-Za-z][A-Za-z0-9-]*: ?[^\r\n]*\r?\n(?:[ \t]+[^\r\n]*\r?\n)*){2,}\r?\n")
IN_MAILS = re.compile(rb"^(from|to|subject|date|received|return-path|mime-version):", re.I | re.M)


def headed_of(octets: bytes) -> Optional[Kind]:
    """Return what a text with a header is, or `None`."""
    if re.match(rb"HTTP/\d(\.\d)? \d{3}\b", octets):
        return HTTP
    if re.match(rb"--[\x21-\x7e]{4,70}\r?\nContent-Disposition:", octets, re.I):
        return FORM
    start = re.match(rb"From [^\n]*\n", octets)
    found = HEADER.match(octets, start.end() if start else 0)
    return MAIL if found and IN_MAILS.search(found[0]) else None


def coded_of(octets: bytes) -> Optional[Kind]:
    """Return by which code text has bytes, or `None`."""
    head = octets[:HEAD]
    if re.match(rb"(envelope \d+\r?\n)?\d:\d\d+ [^\n]*\n(\d:\d\d+[^\n]*\n)+message ", octets):
        return SCRIPT
    if re.match(rb"begin [0-7]{3,4} [^\r\n]+\r?\n", head):
        return UU
    if hexadecimal(head[:512]):
        return HEXADECIMAL
    if re.match(rb"\s*(?:b?['\"])?(\\x1c|\\u001c|\\034)", head, re.I):
        return ESCAPED
    if re.match(rb"%1c%01", head, re.I):
        return PERCENT
    if re.match(rb"=1C=01", head, re.I):
        return QUOTED
    body = re.sub(rb"\s", b"", re.sub(rb"^data:[^,]*,|^-----BEGIN[^\n]*\n", b"", head))
    if len(body) > 16 and re.fullmatch(rb"[A-Za-z0-9+/_-]+={0,2}(-----END.*)?", body, re.S):
        return BASE64
    return None


def plain_text_of(octets: bytes) -> Optional[Kind]:
    """Return the kind of plain text, which has its first line, or `None`."""
    head = octets[:HEAD]
    if not head or any(octet < 32 and octet not in b"\t\n\r\x0c" for octet in head):
        return utf_16_of(head)
    line = head.lstrip().splitlines()[0][:60] if head.strip() else b""
    return Kind(f"plain text, which begins '{plain(line)}'", ASK_COPY)


def utf_16_of(head: bytes) -> Optional[Kind]:
    """Return the kind of UTF-16 text without a byte order mark, or `None`."""
    even, odd = head[::2], head[1::2]
    if head[:4] in (b"\x1c\0\x01\0", b"\0\x1c\0\x01") and 0 in (sum(even[:64]), sum(odd[:64])):
        return UTF_16
    return None


def described(octets: bytes) -> str:
    """Return what libmagic calls a file, or an empty text if python3-magic is not installed."""
    try:
        magic = importlib.import_module("magic")
        if hasattr(magic, "from_buffer"):
            found = str(magic.from_buffer(octets[:HEAD]))
        else:
            found = str(magic.detect_from_content(octets[:HEAD]).name)
    except Exception:
        # (an optional library of another project, which fails in ways of its own)
        return ""
    return "" if found in ("data", "") else safe(found[:100])


# --- What is inside


def layers_of(octets: bytes) -> Iterator[Layer]:
    """Yield what is inside a file."""
    kind = kind_of(octets)
    if kind is None:
        return
    open_it = OPENERS.get(kind.name)
    if open_it is None and octets.startswith(b"PK\x03\x04"):
        open_it = of_zip
    if open_it is None:
        if octets.startswith(b"\xef\xbb\xbf"):
            yield Layer(UTF_8_BOM, "Without the byte order mark in front", octets[3:])
        return
    try:
        for how, inside in open_it(octets):
            yield Layer(kind, how, inside)
    except (ValueError, EOFError, OSError, zlib.error, lzma.LZMAError, LookupError):
        return
    except (zipfile.BadZipFile, tarfile.TarError, binascii.Error, RuntimeError):
        return


Opened = Iterator[Tuple[str, bytes]]


def of_bom(octets: bytes) -> Opened:
    """Yield a text without its byte order mark, as it is and as Latin-1."""
    yield "Without the byte order mark in front", octets[3:]
    yield from as_bytes(octets[3:].decode("utf-8"), "Without the byte order mark, and as")


def as_bytes(text: str, how: str) -> Opened:
    """Yield a text as bytes, in each encoding that has its characters."""
    for name, title in (("latin-1", "Latin-1"), ("cp1252", "Windows-1252"), ("utf-8", "UTF-8")):
        try:
            yield f"{how} {title}", text.encode(name)
        except UnicodeEncodeError:
            continue


def of_utf_16(octets: bytes) -> Opened:
    """Yield UTF-16 text as bytes."""
    name = "utf-16" if octets[:2] in (b"\xff\xfe", b"\xfe\xff") else "utf-16-le"
    name = "utf-16-be" if octets[:1] == b"\0" else name
    yield from as_bytes(octets[: len(octets) // 2 * 2].decode(name), "Converted from UTF-16 to")


def of_utf_32(octets: bytes) -> Opened:
    """Yield UTF-32 text as bytes."""
    yield from as_bytes(octets.decode("utf-32"), "Converted from UTF-32 to")


def of_gzip(octets: bytes) -> Opened:
    """Yield a gzip file decompressed, also if it ends early."""
    made, rest = b"", octets
    while rest.startswith(b"\x1f\x8b") and len(made) < MOST:
        machine = zlib.decompressobj(31)
        made += machine.decompress(rest, MOST - len(made))
        rest = machine.unused_data
    yield "Decompressed", made


def of_bzip2(octets: bytes) -> Opened:
    """Yield a bzip2 file decompressed."""
    yield "Decompressed", bz2.BZ2Decompressor().decompress(octets, MOST)


def of_xz(octets: bytes) -> Opened:
    """Yield an xz file decompressed."""
    yield "Decompressed", lzma.LZMADecompressor().decompress(octets, MOST)


def of_zip(octets: bytes) -> Opened:
    """Yield the members of a zip archive."""
    with zipfile.ZipFile(io.BytesIO(octets)) as archive:
        files = [each for each in archive.infolist() if not each.is_dir()]
        for each in files[:MEMBERS]:
            with archive.open(each) as member:
                yield f"Its member '{safe(each.filename)}'", member.read(MOST)


def of_tar(octets: bytes) -> Opened:
    """Yield the members of a tar archive."""
    with tarfile.open(fileobj=io.BytesIO(octets), mode="r:") as archive:
        files = [each for each in archive if each.isfile()]
        for each in files[:MEMBERS]:
            member = archive.extractfile(each)
            if member is not None:
                yield f"Its member '{safe(each.name)}'", member.read(MOST)


def of_base64(octets: bytes) -> Opened:
    """Yield base64 text decoded."""
    body = re.sub(rb"^data:[^,]*,|-----[A-Z ]+-----", b"", octets)
    body = re.sub(rb"\s", b"", body).replace(b"-", b"+").replace(b"_", b"/")
    yield "Decoded", base64.b64decode(body + b"=" * (-len(body) % 4), validate=True)


def of_quoted(octets: bytes) -> Opened:
    """Yield quoted-printable text decoded."""
    yield "Decoded", quopri.decodestring(octets)


def of_uu(octets: bytes) -> Opened:
    """Yield uuencoded text decoded."""
    lines = octets.splitlines()[1:]
    body = [line for line in lines if line and line != b"end"]
    yield "Decoded", b"".join(
        binascii.a2b_uu(line[: (line[0] - 32 & 63) * 4 // 3 + 5]) for line in body
    )


def of_escapes(octets: bytes) -> Opened:
    """Yield text with backslash escapes as bytes."""
    text = re.sub(rb"\A\s*b?(['\"])(.*)\1\s*\Z", rb"\2", octets, flags=re.S)
    made = text.decode("latin-1").encode("ascii", "backslashreplace").decode("unicode_escape")
    yield "With each escape made the byte", made.encode("latin-1")


def of_percent(octets: bytes) -> Opened:
    """Yield text with percent escapes as bytes."""
    yield "With each escape made the byte", urllib.parse.unquote_to_bytes(octets)


def of_script(octets: bytes) -> Opened:
    """Yield the envelope of a script."""
    lines = [
        line for line in octets.splitlines(True) if not line.startswith((b"envelope ", b"object "))
    ]
    text = b"".join(lines)
    yield "Packed", iim.pack(text if b"\ntext\n" in text else text + b"text\n")


# The offset in front of a line of a dump, and the text after its bytes.
OFFSET = re.compile(rb"\s*([0-9A-Fa-f]{6,16})(:|\s|\Z)")
TEXT_COLUMN = re.compile(rb"\s[|>].*|(?<=[0-9A-Fa-f])  +\S{1,32}\s*\Z")


def hexadecimal(octets: bytes) -> Optional[bytes]:
    """Return the bytes of a hexadecimal dump, or `None`. An incomplete last line is left out."""
    made = bytearray()
    for line in octets.splitlines():
        offset = OFFSET.match(line)
        if offset is not None and is_offset(offset[1], offset[2], len(made)):
            line = b" " + line[offset.end() :]
        if line.strip() in (b"", b"*"):
            continue
        digits = re.sub(rb"0x|\\x|[\s,:;]", b"", TEXT_COLUMN.sub(b"", line))
        if not re.fullmatch(rb"(?:[0-9A-Fa-f]{2})+", digits):
            return bytes(made) if made[:2] == b"\x1c\x01" else None
        made += bytes.fromhex(digits.decode("ascii"))
    return bytes(made) if made[:2] == b"\x1c\x01" else None


def is_offset(digits: bytes, mark: bytes, size: int) -> bool:
    """Check whether a number in front of a line is its offset, also if it is written in octal."""
    is_octal = re.fullmatch(rb"[0-7]+", digits) is not None
    return mark == b":" or int(digits, 16) == size or is_octal and int(digits, 8) == size


def of_hexadecimal(octets: bytes) -> Opened:
    """Yield the bytes of a hexadecimal dump."""
    yield "As bytes", hexadecimal(octets) or b""


def of_http(octets: bytes) -> Opened:
    """Yield the body of a response of a web server."""
    head, _, body = re.sub(rb"\A(.*?)\r?\n\r?\n", rb"\1\0\0", octets, 1, re.S).partition(b"\0\0")
    if re.search(rb"^transfer-encoding:.*chunked", head, re.I | re.M):
        yield "The body of its chunks", unchunked(body)
    yield "Its body", body


def unchunked(body: bytes) -> bytes:
    """Return the data of the chunks of a body."""
    parts, at = [], 0
    while found := re.compile(rb"([0-9A-Fa-f]+)[^\r\n]*\r?\n").match(body, at):
        size = int(found[1], 16)
        if not size:
            break
        parts.append(body[found.end() : found.end() + size])
        at = found.end() + size
        at += 2 if body[at : at + 2] == b"\r\n" else 1
    return b"".join(parts)


def of_mail(octets: bytes) -> Opened:
    """Yield the parts of a mail or of a form."""
    data = octets
    if octets.startswith(b"--"):
        boundary = octets[2 : re.search(rb"\r?\n", octets).start()]  # type: ignore[union-attr]
        data = b'Content-Type: multipart/form-data; boundary="' + boundary + b'"\n\n' + octets
    message = email.message_from_bytes(re.sub(rb"\AFrom [^\n]*\n", b"", data))
    parts = [part for part in message.walk() if not part.is_multipart()]
    for nth, part in enumerate(parts[:MEMBERS]):
        payload = part.get_payload(decode=True)
        name = part.get_filename()
        how = f"Its attachment '{safe(name)}'" if name else "Its text"
        yield (how if len(parts) < 2 or name else f"Its part {nth + 1}"), bytes(payload or b"")


OPENERS: Dict[str, Callable[[bytes], Opened]] = {
    UTF_8_BOM.name: of_bom,
    UTF_16.name: of_utf_16,
    UTF_32.name: of_utf_32,
    "a gzip file": of_gzip,
    "a bzip2 file": of_bzip2,
    "an xz file": of_xz,
    TAR.name: of_tar,
    BASE64.name: of_base64,
    QUOTED.name: of_quoted,
    UU.name: of_uu,
    HEXADECIMAL.name: of_hexadecimal,
    ESCAPED.name: of_escapes,
    PERCENT.name: of_percent,
    SCRIPT.name: of_script,
    HTTP.name: of_http,
    MAIL.name: of_mail,
    FORM.name: of_mail,
}


def opened(octets: bytes, limits: iim.Limits, depth: int = DEPTH) -> Iterator[Tried]:
    """Yield what comes out of a file, through several layers."""
    for layer in layers_of(octets) if depth else ():
        outcome = judge(layer.octets, limits)
        yield Tried([layer], outcome, layer.octets)
        if not outcome.envelopes:
            for inside in opened(layer.octets, limits, depth - 1):
                yield inside._replace(layers=[layer, *inside.layers])


def best(octets: bytes, limits: iim.Limits) -> Optional[Tried]:
    """Return what comes out of a file and is accepted the furthest, or `None`."""
    found = [each for each in opened(octets, limits) if each.outcome.reach > LEAST]
    return max(found, key=lambda each: merit(each.outcome)) if found else None


def merit(outcome: Outcome) -> Tuple[bool, int, int]:
    """Return a key by which the outcomes are sorted: more is better."""
    return outcome.is_all, outcome.envelopes, outcome.reach
