"""The web page in Chromium: samples, large files, a real drop, requests, and accessibility."""
from __future__ import annotations

import base64
import json
import time
from pathlib import Path
from typing import Any, Dict, Iterator, List, Tuple

import pytest
from support.bindings.browser import Controlled
from support.bindings.explaining import explained_samples
from support.bindings.javascript import WASM
from support.bindings.paths import SAMPLES, SECONDS

LARGE, MOST_HEAP = 200_000_000, 64_000_000
WIDTHS = 360, 1_280


class Page:
    """The page, opened in a browser that reports its console and its requests."""

    def __init__(self, browser: Controlled, built: Path) -> None:
        """Open the page, and wait until its worker is ready."""
        self._browser = browser
        for domain in ("Runtime", "Log", "Network", "DOM"):
            browser.ask(f"{domain}.enable")
        browser.ask("Page.navigate", url=f"file://{built / 'iim.html'}")
        self.wait("document.body?.dataset.state === 'ready'")

    def run(self, expression: str) -> Any:
        """Return the value of an expression in the page."""
        words = {"returnByValue": True, "awaitPromise": True}
        found = self._browser.ask("Runtime.evaluate", expression=expression, **words)
        assert "exceptionDetails" not in found, found["exceptionDetails"]
        return found["result"].get("value")

    def wait(self, expression: str) -> None:
        """Wait until an expression is true."""
        end = time.monotonic() + SECONDS
        while not self.run(f"Boolean({expression})"):
            assert time.monotonic() < end, f"never true: {expression}"
            time.sleep(0.02)

    def choose(self, *paths: Path) -> None:
        """Choose files, and wait until the first is shown."""
        self.run("delete document.body.dataset.shown")
        document = self._browser.ask("DOM.getDocument")["root"]["nodeId"]
        found = self._browser.ask("DOM.querySelector", nodeId=document, selector="#files")
        self._browser.ask("DOM.setFileInputFiles", files=[*map(str, paths)], nodeId=found["nodeId"])
        self.wait("document.body.dataset.shown")

    def drop(self, *paths: Path) -> None:
        """Drop files on the page by events of the mouse."""
        self.run("delete document.body.dataset.shown")
        data = {"items": [], "files": [*map(str, paths)], "dragOperationsMask": 1}
        for kind in ("dragEnter", "dragOver", "drop"):
            self._browser.ask("Input.dispatchDragEvent", type=kind, x=200, y=200, data=data)
        self.wait("document.body.dataset.shown")

    def resize(self, width: int) -> None:
        """Give the page a width."""
        size = {"width": width, "height": 900, "deviceScaleFactor": 1, "mobile": width < 700}
        self._browser.ask("Emulation.setDeviceMetricsOverride", **size)

    def media(self, scheme: str) -> None:
        """Let the page see a colour scheme."""
        features = [{"name": "prefers-color-scheme", "value": scheme}]
        self._browser.ask("Emulation.setEmulatedMedia", features=features)

    def picture(self, path: Path) -> None:
        """Write a picture of the page."""
        found = self._browser.ask("Page.captureScreenshot", format="png")
        path.write_bytes(base64.b64decode(found["data"]))

    def heap(self) -> int:
        """Return the bytes of the heap of the page."""
        used: int = self._browser.ask("Runtime.getHeapUsage")["usedSize"]
        return used

    def text(self) -> str:
        """Return all text that is shown."""
        text: str = self.run("document.getElementById('result').innerText")
        return text

    def events(self) -> Tuple[List[str], List[str]]:
        """Return the lines of the console, and the requests that are not for the page's parts."""
        console, asked = [], []
        for event in self._browser.events():
            method, params = event.get("method"), event.get("params", {})
            if method in ("Runtime.consoleAPICalled", "Runtime.exceptionThrown", "Log.entryAdded"):
                console.append(json.dumps(params)[:500])
            elif method == "Network.requestWillBeSent":
                asked.append(params["request"]["url"].partition(":")[0])
        return console, asked


@pytest.fixture()
def page(built: Path, folder: str) -> Iterator[Page]:
    """Return the page in a browser."""
    with Controlled(folder) as browser:
        yield Page(browser, built)


def test_explains_each_sample(page: Page) -> None:
    for name, (octets, lines) in explained_samples().items():
        page.choose(SAMPLES / name)
        status = page.run("document.getElementById('status').textContent")
        accepted = sum(" accepted " in line for line in lines)
        verdict = f"{accepted} envelope{'s' * (accepted != 1)} accepted"
        assert verdict in status and f"{len(octets):,} octets" in status, name
        refused = [line for line in lines if " refused " in line]
        assert (", envelope " in status) == bool(refused), name
        text = page.text()
        for line in refused:
            cause = line.rpartition("cause ")[2]
            octet = int(line.split(" octet ")[1].split()[0])
            assert f"Cause {cause} on " in text and f"{octet:,} of envelope" in text, name
    console, asked = page.events()
    assert console == [] and set(asked) <= {"file", "blob"}, (console, asked)


def test_opens_dropped_files(page: Page) -> None:
    page.drop(SAMPLES / "damaged" / "bad_value.iim")
    assert "20230229" in page.text()
    page.drop(SAMPLES / "story.iim", SAMPLES / "damaged" / "marker.iim")
    rows = page.run("[...document.querySelectorAll('#rows tbody tr')].map((row) => row.innerText)")
    assert [row.split("\t")[0].strip() for row in rows] == ["bad_value.iim", "story.iim"] + [
        "marker.iim"
    ]
    assert page.events()[0] == []


def test_opens_pasted_bytes(page: Page) -> None:
    page.run("document.querySelector('details').open = true")
    page.run("document.getElementById('hex').value = '1C 01'")
    page.run("document.getElementById('paste').click()")
    page.wait("document.body.dataset.shown")
    assert "The file ends after octet 2 of envelope 1" in page.text()


def test_shows_a_long_file_in_little_memory(page: Page, tmp_path: Path) -> None:
    octets = (SAMPLES / "stream.iim").read_bytes()
    path = tmp_path / "large.iim"
    with path.open("wb") as file:
        block = octets * 10_000
        for _ in range(LARGE // len(block) + 1):
            file.write(block)
    page.run("window.ticks = 0; setInterval(() => window.ticks++, 20)")
    page.choose(path)
    count = path.stat().st_size // len(octets) * 2
    assert f"{count:,} envelopes accepted" in page.run("document.title + document.body.innerText")
    # (the page ran its own tasks while the worker was reading)
    assert page.run("window.ticks") > 20
    assert page.heap() < MOST_HEAP
    assert page.events()[0] == []


CHECKS = (WASM / "tests" / "accessibility.js").read_text(encoding="utf-8")


@pytest.mark.parametrize("width", WIDTHS)
@pytest.mark.parametrize("scheme", ["light", "dark"])
def test_meets_the_rules_of_accessibility(
    page: Page, width: int, scheme: str, tmp_path: Path
) -> None:
    page.resize(width)
    page.media(scheme)
    page.choose(SAMPLES / "damaged" / "bad_value.iim", SAMPLES / "stream.iim")
    found: Dict[str, Any] = json.loads(page.run(CHECKS))
    assert found["faults"] == []
    assert found["controls"] > 8 and found["texts"] > 60
    page.picture(tmp_path / "picture.png")
    assert (tmp_path / "picture.png").stat().st_size > 10_000


FAULTS = {
    "no name": "document.getElementById('cancel').parentElement.hidden = false;"
    "document.getElementById('cancel').textContent = ''",
    "contrast": "document.getElementById('status').style.color = '#999'",
    "target": "document.getElementById('paste').parentElement.open = true;"
    "document.getElementById('paste').style.cssText = 'min-height: 0; height: 12px'",
    "order": "document.getElementById('files').tabIndex = 5",
    "wide": "document.body.append(Object.assign(document.createElement('p'),"
    " { textContent: 'x'.repeat(9000), style: 'white-space: pre; overflow-wrap: normal' }))",
}


def test_finds_faults_of_accessibility(page: Page) -> None:
    page.choose(SAMPLES / "damaged" / "bad_value.iim")
    assert json.loads(page.run(CHECKS))["faults"] == []
    for name, fault in FAULTS.items():
        page.run(f"{fault}; 0")
        found = json.loads(page.run(CHECKS))["faults"]
        assert any(name in each for each in found), (name, found)
