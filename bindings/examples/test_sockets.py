"""A receiver and a sender over a socket, of which the receiver is killed again and again."""
from __future__ import annotations

import json
import random
import re
import signal
import socket
import subprocess
import sys
import time
from pathlib import Path
from typing import List, Tuple

import pytest
import rules
from envelopes import SMALLEST, STORY
from support.bindings.paths import SECONDS, TOP, environment

HERE = TOP / "bindings" / "examples"
# A story of 300 KB: several chunks of input.
LINES = [b"line %d of a long story" % number for number in range(12_000)]
FIELDS = [(1, 0, b"\0\4"), (1, 20, b"\0\2"), (1, 22, b"\0\1"), (1, 30, b"TST")]
FIELDS += [(1, 40, b"00000003"), (1, 70, b"20240301"), (2, 0, b"\0\4")]
HEAD = [b"X", b"1", b"4", b"N", b"0", b""]
LONG = rules.packed(FIELDS, rules.object_of(HEAD, LINES, b""), 1_000)
STREAM = (SMALLEST * 40 + STORY + LONG) * 4
# More than the buffers of two sockets have room for.
MUCH = SMALLEST * 200_000


class Receiving:
    """A receiver that runs, and is started again after it was killed."""

    def __init__(self, folder: Path) -> None:
        """Start it on a free port."""
        self.folder, self.port, self.errors = folder, 0, ""
        self.start()

    def start(self) -> None:
        """Start it, on the same port if it had one."""
        self.process = subprocess.Popen(
            [sys.executable, str(HERE / "receive.py"), str(self.port), str(self.folder)],
            stdout=subprocess.PIPE,
            stderr=subprocess.PIPE,
            text=True,
            env=environment(),
        )
        assert self.process.stdout is not None
        found = re.fullmatch(r"listening on port (\d+)\n", self.process.stdout.readline())
        assert found, self.process.communicate()
        self.port = int(found[1])

    def kill(self) -> str:
        """Kill it, and return what it has printed on standard error since its first start."""
        self.process.send_signal(signal.SIGKILL)
        self.errors += self.process.communicate(timeout=SECONDS)[1]
        return self.errors


def sending(port: int, path: Path) -> "subprocess.Popen[str]":
    """Start to send a file."""
    words = [sys.executable, str(HERE / "send.py"), str(port), str(path)]
    return subprocess.Popen(words, stderr=subprocess.PIPE, text=True)


def accepted(port: int, octets: bytes) -> Tuple[int, int]:
    """Send bytes to the receiver, and return the offsets that it sends before and after them."""
    with socket.create_connection(("127.0.0.1", port), timeout=SECONDS) as connection:
        with connection.makefile("rb") as replies:
            first = int.from_bytes(replies.read(8), "big")
            connection.sendall(octets)
            connection.shutdown(socket.SHUT_WR)
            return first, int.from_bytes(replies.read(8), "big")


def stored(folder: Path) -> List[Tuple[int, int, int, int]]:
    """Return the number, offset, length and number of lines of each envelope that was stored."""
    found = [json.loads(path.read_text()) for path in sorted(folder.glob("*.json"))]
    return [(it["envelope"], it["at"], it["length"], len(it["lines"])) for it in found]


def expected() -> List[Tuple[int, int, int, int]]:
    """Return the same for the envelopes that are sent."""
    found: List[Tuple[int, int, int, int]] = []
    at = 0
    for octets, lines in ([(SMALLEST, 1)] * 40 + [(STORY, 2), (LONG, len(LINES))]) * 4:
        found.append((len(found) + 1, at, len(octets), lines))
        at += len(octets)
    return found


@pytest.mark.parametrize("seed", range(3))
def test_loses_nothing_when_it_is_killed(library: Path, tmp_path: Path, seed: int) -> None:
    path, kills = tmp_path / "stream.iim", 0
    path.write_bytes(STREAM)
    receiver, moments = Receiving(tmp_path / "stored"), random.Random(seed)
    sender = sending(receiver.port, path)
    while sender.poll() is None and kills < 20:
        time.sleep(moments.uniform(0.0, 0.15))
        if sender.poll() is None:
            receiver.kill()
            receiver.start()
            kills += 1
    errors = sender.communicate(timeout=SECONDS)[1] + receiver.kill()
    assert (sender.returncode, kills > 0) == (0, True), errors
    assert stored(receiver.folder) == expected()


@pytest.mark.parametrize("offset", [1, 59_393, 256_001, 321_537, len(STREAM) - 1])
def test_continues_at_the_byte_of_the_receiver(library: Path, tmp_path: Path, offset: int) -> None:
    path = tmp_path / "stream.iim"
    path.write_bytes(STREAM)
    receiver = Receiving(tmp_path / "stored")
    assert accepted(receiver.port, STREAM[:offset]) == (0, offset)
    receiver.kill()
    receiver.start()
    sender = sending(receiver.port, path)
    errors = sender.communicate(timeout=SECONDS)[1] + receiver.kill()
    assert (sender.returncode, errors) == (0, ""), errors
    assert stored(receiver.folder) == expected()


@pytest.mark.parametrize("offset", [0, 1, 65_536, len(STREAM) - 1, len(STREAM)])
def test_sends_from_the_offset(tmp_path: Path, offset: int) -> None:
    path = tmp_path / "stream.iim"
    path.write_bytes(STREAM)
    with socket.create_server(("127.0.0.1", 0)) as server:
        server.settimeout(SECONDS)
        sender = sending(server.getsockname()[1], path)
        connection, _ = server.accept()
        with connection, connection.makefile("rb") as received:
            # (an offset may be received in parts)
            for octet in offset.to_bytes(8, "big"):
                connection.sendall(bytes([octet]))
                time.sleep(0.01)
            assert received.read() == STREAM[offset:]
            connection.sendall(len(STREAM).to_bytes(8, "big"))
        assert sender.communicate(timeout=SECONDS)[1] == ""
    assert sender.returncode == 0


def test_connects_again_if_the_receiver_is_lost(tmp_path: Path) -> None:
    path = tmp_path / "stream.iim"
    path.write_bytes(STORY)
    start, end = bytes(8), len(STORY).to_bytes(8, "big")
    # It is lost before the first offset, within it, before the last one, and within that.
    replies = [(b"", b""), (start[:7], b""), (start, b""), (start, end[:7]), (start, end)]
    with socket.create_server(("127.0.0.1", 0)) as server:
        server.settimeout(SECONDS)
        sender = sending(server.getsockname()[1], path)
        for first, last in replies:
            connection, _ = server.accept()
            with connection, connection.makefile("rb") as received:
                connection.sendall(first)
                if first == start:
                    assert received.read() == STORY
                connection.sendall(last)
        errors = sender.communicate(timeout=SECONDS)[1]
    assert errors == "the receiver is lost: connecting again\n" * 4
    assert sender.returncode == 0


def test_says_what_it_rejects(library: Path, tmp_path: Path) -> None:
    path = tmp_path / "stream.iim"
    path.write_bytes(SMALLEST + STORY[:100] + b"\xff" + STORY[101:])
    receiver = Receiving(tmp_path / "stored")
    sender = sending(receiver.port, path)
    assert sender.communicate(timeout=SECONDS)[1] == (
        "the receiver rejected byte 214 of the file\n"
    )
    assert receiver.kill() == "2 refused at octet 100 by layer dataset on 0:00, cause 1 Marker\n"
    assert stored(receiver.folder) == [(1, 0, 114, 1)]


def test_says_what_it_rejects_before_much_else(library: Path, tmp_path: Path) -> None:
    path = tmp_path / "stream.iim"
    path.write_bytes(STORY + b"\xff" + MUCH)
    receiver = Receiving(tmp_path / "stored")
    sender = sending(receiver.port, path)
    try:
        errors = sender.communicate(timeout=60)[1]
    finally:
        sender.kill()
    assert errors == f"the receiver rejected byte {len(STORY)} of the file\n"
    assert receiver.kill() == "2 refused at octet 0 by layer dataset on 0:00, cause 1 Marker\n"
