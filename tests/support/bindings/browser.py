"""Pages in Chromium: their console, their requests, their pictures and their times.

    PYTHONPATH=bindings/python/src:tests python3 -m support.bindings.browser OUT

writes the picture of README.md, the page of a damaged sample, to OUT.
"""
from __future__ import annotations

import contextlib
import hashlib
import json
import os
import re
import select
import shutil
import signal
import socket
import subprocess
import sys
import tempfile
import threading
import time
import zlib
from pathlib import Path
from typing import Any, Dict, Iterator, List, Optional, Sequence, Tuple

import pytest
from iim.explain.page import page as page_of
from support.bindings.explaining import case_of
from support.bindings.paths import SECONDS, TOP
from support.bindings.running import Name, python_with, run_text, write_file

# The colour of the marked byte, which nothing else on a page has.
MARK = (0xC6, 0x28, 0x28)
Colour = Tuple[int, int, int]
# The lines of the console, the requests, and the path of the picture.
Opened = Tuple[List[str], List[str], str]
# The hosts that the browser itself may connect to, for any page.
ITS_OWN = re.compile(r"(google|googleapis|gvt1|gstatic|chromium)\.(com|org)\b")


def browser() -> str:
    """Return the path of the browser, or skip the test."""
    found = shutil.which("chromium")
    if not found:
        pytest.skip("chromium is not installed")
    return found


class Listener:
    """A proxy that does not reply, and stores the first line of each request."""

    def __enter__(self) -> Listener:
        self._socket = socket.create_server(("127.0.0.1", 0))
        self.port = self._socket.getsockname()[1]
        self.asked: List[str] = []
        threading.Thread(target=self._serve, daemon=True).start()
        return self

    def _serve(self) -> None:
        with contextlib.suppress(OSError):
            while True:
                asking, _ = self._socket.accept()
                asking.settimeout(5)
                with asking, contextlib.suppress(OSError):
                    line = asking.recv(4_096).partition(b"\r\n")[0]
                    self.asked.append(line.decode("latin-1"))

    def __exit__(self, *_: object) -> None:
        self._socket.close()


def browsing(folder: Name, size: Tuple[int, int] = (1400, 1000)) -> List[str]:
    """Return the arguments that start a browser with a new profile."""
    options = "headless disable-gpu disable-dev-shm-usage no-first-run disable-extensions"
    options += " disable-sync disable-background-networking disable-component-update"
    options += " disable-default-apps" + " no-sandbox" * (os.getuid() == 0)
    window = [f"--user-data-dir={folder}/profile", f"--window-size={size[0]},{size[1]}"]
    return [browser(), *(f"--{option}" for option in options.split()), *window]


def opened(
    folder: Name,
    page: str,
    size: Tuple[int, int] = (1400, 1000),
    picture: Optional[str] = None,
    more: Sequence[str] = (),
) -> Opened:
    """Open a page in a browser, and return its console's lines, its requests and a screenshot.

    The page is opened again if the browser ended with a connection that had no request yet.
    """
    for _ in range(3):
        console, asked, shown = opened_once(folder, page, size, picture, more)
        if "" not in asked:
            break
    return console, asked, shown


def opened_once(
    folder: Name, page: str, size: Tuple[int, int], picture: Optional[str], more: Sequence[str]
) -> Opened:
    """Open a page in a browser once."""
    path = write_file(folder, "opened.html", page.encode("utf-8"))
    picture = picture or f"{folder}/picture.png"
    with Listener() as proxy:
        words = [
            *browsing(folder, size),
            "--hide-scrollbars",
            "--enable-logging=stderr",
            "--v=0",
            f"--proxy-server=127.0.0.1:{proxy.port}",
            "--proxy-bypass-list=<-loopback>",
            f"--screenshot={picture}",
            *more,
            f"file://{path}",
        ]
        errors = run_text(words)[2]
        asked = [each for each in proxy.asked if not ITS_OWN.search(each)]
    assert Path(picture).exists(), f"no picture: {errors[-1000:]}"
    return [line for line in errors.splitlines() if "CONSOLE" in line], asked, picture


COUNT = """
import sys
from PIL import Image
picture = Image.open(sys.argv[1]).convert("RGB")
for colour in sys.argv[2:]:
    wanted = tuple(bytes.fromhex(colour))
    at = [nth % picture.width for nth, each in enumerate(picture.getdata()) if each == wanted]
    print(len(at), min(at, default=0), max(at, default=0))
"""


def pixels(picture: str, *colours: Colour) -> List[Tuple[int, int, int]]:
    """Return the number of pixels of each colour in a picture, and their first and last column."""
    wanted = [bytes(colour).hex() for colour in colours]
    status, output, errors = run_text([python_with("PIL"), "-c", COUNT, picture, *wanted])
    assert (status, errors) == (0, "")
    lines = (map(int, line.split()) for line in output.splitlines())
    return [(count, first, last) for count, first, last in lines]


class Controlled:
    """A browser that is controlled by messages, and reports events by messages."""

    def __init__(self, folder: Name) -> None:
        (theirs, to), (come, ours) = os.pipe(), os.pipe()
        start = f'exec "$0" "$@" 3</dev/fd/{theirs} 4>/dev/fd/{ours}'
        words = ["sh", "-c", start, *browsing(folder), "--remote-debugging-pipe"]
        options: Any = {"stdin": subprocess.DEVNULL, "stderr": subprocess.DEVNULL}
        options.update(pass_fds=(theirs, ours), start_new_session=True)
        self._browser = subprocess.Popen(words, **options)
        os.close(theirs)
        os.close(ours)
        self._to, self._from = open(to, "wb", buffering=0), open(come, "rb", buffering=0)
        self._count, self._unread = 0, b""
        self._session: Optional[str] = None
        self._events: List[Dict[str, Any]] = []

    def __enter__(self) -> Controlled:
        target = self.ask("Target.createTarget", url="about:blank")["targetId"]
        self._session = self.ask("Target.attachToTarget", targetId=target, flatten=True)[
            "sessionId"
        ]
        self.ask("Page.enable")
        self.ask("Page.setLifecycleEventsEnabled", enabled=True)
        return self

    def __exit__(self, *_: object) -> None:
        with contextlib.suppress(ProcessLookupError):
            os.killpg(self._browser.pid, signal.SIGKILL)
        self._browser.wait()
        self._to.close()
        self._from.close()

    def _message(self) -> Dict[str, Any]:
        while b"\0" not in self._unread:
            ready = select.select([self._from], [], [], SECONDS)[0]
            part = self._from.read(1 << 16) if ready else b""
            if not part:
                raise OSError("the browser sends no more messages")
            self._unread += part
        message, _, self._unread = self._unread.partition(b"\0")
        read: Dict[str, Any] = json.loads(message)
        return read

    def ask(self, method: str, **words: object) -> Dict[str, Any]:
        """Send a request, and return the reply. Events that arrive before it are stored."""
        self._count += 1
        message = {"id": self._count, "method": method, "params": words}
        session = {"sessionId": self._session} if self._session else {}
        self._to.write(json.dumps({**message, **session}).encode() + b"\0")
        while (answer := self._message()).get("id") != self._count:
            self._events.append(answer)
        result: Dict[str, Any] = answer["result"]
        return result

    def events(self) -> List[Dict[str, Any]]:
        """Return the events that have arrived, and forget them."""
        found, self._events = self._events, []
        return found

    def seconds(self, path: str) -> float:
        """Return the seconds until a page has shown something and is complete.

        Nothing determines which of the two happens first: the browser may report the load before
        it has painted.
        """
        self._events.clear()
        begun = time.monotonic()
        seen: Dict[str, float] = {}
        self.ask("Page.navigate", url=f"file://{path}")
        while not {"firstContentfulPaint", "load"} <= seen.keys():
            event = self._events.pop(0) if self._events else self._message()
            if event.get("method") == "Page.lifecycleEvent":
                params = event["params"]
                seen.setdefault(params["name"], params["timestamp"] - begun)
        return max(seen["firstContentfulPaint"], seen["load"])


# The sample of the picture, and the size of its window, as the guide has them.
PICTURED, WINDOW = "samples/damaged/bad_value.iim", (1180, 1360)


def pictured_page() -> str:
    """Return the page of the picture, without what differs each time: the instant."""
    octets = Path(TOP, PICTURED).read_bytes()
    page = page_of(case_of(octets, name=PICTURED))
    return re.sub(r", at [0-9-]+T[0-9:]+Z</p>", "</p>", page)


def digest_of(page: str) -> bytes:
    """Return the digest of a page that its picture has. The links differ with the directory."""
    return hashlib.sha256(re.sub(r'href="[^"]*"', "", page).encode()).hexdigest().encode()


def chunks_of(picture: bytes) -> Iterator[Tuple[bytes, bytes]]:
    """Yield the type and the data of each chunk of a PNG picture."""
    at = 8
    while at < len(picture):
        size = int.from_bytes(picture[at : at + 4], "big")
        yield picture[at + 4 : at + 8], picture[at + 8 : at + 8 + size]
        at += 12 + size


def make_picture(out: str) -> None:
    """Write the picture, with the digest of its page in a chunk of text."""
    page = pictured_page()
    # (a process of a browser may write in its profile for a moment after the browser has ended)
    with tempfile.TemporaryDirectory(ignore_cleanup_errors=True) as folder:
        opened(folder, page, WINDOW, f"{folder}/page.png")
        made = Path(folder, "page.png").read_bytes()
    text = b"tEXtPage\0" + digest_of(page)
    chunk = (len(text) - 4).to_bytes(4, "big") + text + zlib.crc32(text).to_bytes(4, "big")
    # (the first chunk, of 13 bytes, must stay the first)
    Path(out).write_bytes(made[:33] + chunk + made[33:])


if __name__ == "__main__":
    make_picture(sys.argv[1])
