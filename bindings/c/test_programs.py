"""Send envelopes by c/sender.c to c/receiver.c, and kill the receiver at random moments."""
from __future__ import annotations

import random
import shutil
import socket
import subprocess
import threading
import time
from contextlib import contextmanager
from pathlib import Path
from typing import Callable, Iterator, List, Optional

import pytest
from support.bindings.paths import BUILT, SAMPLES
from support.bindings.running import Name

# The stories of these samples, as samples/README.md describes them: the receiver ends each with LF.
STORY = b"Rates stay.\nNo change.\n"
Compiled = Callable[..., Path]


@pytest.fixture
def receiver(compiled: Compiled, compiler: str) -> Path:
    """Return the path of the receiver."""
    return compiled(compiler, "receiver", "receiver.c", [str(BUILT / "libiim.a")])


@pytest.fixture
def sender(compiled: Compiled, compiler: str) -> Path:
    """Return the path of the sender."""
    return compiled(compiler, "sender", "sender.c", [str(BUILT / "libiim.a")])


@contextmanager
def slow_sender(stream: bytes, chance: random.Random) -> Iterator[int]:
    """Send the stream in small chunks from the offset that each receiver asks for."""
    door = socket.create_server(("127.0.0.1", 0))

    def serve() -> None:
        while True:
            try:
                receiver, _ = door.accept()
            except OSError:
                return
            with receiver, receiver.makefile("rb") as words:
                at = int(words.readline())
                try:
                    while at < len(stream):
                        count = chance.randrange(1, 40)
                        receiver.sendall(stream[at : at + count])
                        at += count
                        time.sleep(0.001)
                except OSError:
                    pass

    thread = threading.Thread(target=serve, daemon=True)
    thread.start()
    try:
        yield door.getsockname()[1]
    finally:
        door.shutdown(socket.SHUT_RDWR)
        door.close()
        thread.join(10)


def words_of(program: Path, port: int, room: Path) -> List[Name]:
    """Return the arguments that run the receiver on the files in this directory."""
    return [program, "127.0.0.1", str(port), room / "output", room / "state"]


def run_receiver(program: Path, port: int, room: Path, kill: Optional[float]) -> int:
    """Run the receiver, kill it after this many seconds, and return its status."""
    started = subprocess.Popen(words_of(program, port, room), stderr=subprocess.PIPE)
    try:
        started.communicate(timeout=kill)
    except subprocess.TimeoutExpired:
        started.kill()
        started.communicate()
    return started.returncode


@pytest.mark.parametrize("seed", range(3))
def test_receiver_survives_kills(receiver: Path, tmp_path: Path, seed: int) -> None:
    chance = random.Random(seed)
    stream = (SAMPLES / "story.iim").read_bytes() * 40
    kills, until = 0, chance.uniform(0.02, 0.2)
    with slow_sender(stream, chance) as port:
        # (each run is longer, so that a slow machine, too, receives all of it)
        while (status := run_receiver(receiver, port, tmp_path, until)) < 0:
            kills += 1
            assert kills < 200
            until = chance.uniform(0.02, 0.2) * (1 + kills / 20)
    assert status == 0
    assert kills >= 3
    assert (tmp_path / "output").read_bytes() == STORY * 40


def test_receiver_reports_a_refusal(receiver: Path, tmp_path: Path) -> None:
    stream = (SAMPLES / "story.iim").read_bytes() + b"x"
    with slow_sender(stream, random.Random(0)) as port:
        ran = subprocess.run(
            words_of(receiver, port, tmp_path), capture_output=True, text=True, timeout=60
        )
    line = "2 refused at octet 0 by layer dataset on 0:00, cause 1 Marker\n"
    assert (ran.returncode, ran.stderr) == (1, line)
    assert (tmp_path / "output").read_bytes() == STORY


def test_receiver_reports_a_truncation(receiver: Path, tmp_path: Path) -> None:
    stream = (SAMPLES / "story.iim").read_bytes()[:-1]
    with slow_sender(stream, random.Random(0)) as port:
        assert run_receiver(receiver, port, tmp_path, None) == 1


def test_receiver_rejects_a_damaged_state(receiver: Path, tmp_path: Path) -> None:
    (tmp_path / "state").write_bytes(b"x" * 40)
    assert run_receiver(receiver, 1, tmp_path, None) == 3
    assert not (tmp_path / "output").exists()


@contextmanager
def running_sender(program: Path, scripts: List[Path]) -> Iterator[int]:
    """Run the sender, and yield its port."""
    with subprocess.Popen([program, "0", *scripts], stdout=subprocess.PIPE) as started:
        assert started.stdout
        try:
            yield int(started.stdout.readline())
        finally:
            started.kill()


def test_sender_sends_from_the_offset(sender: Path) -> None:
    scripts = [SAMPLES / "story.script", SAMPLES / "smallest.script"]
    stream = b"".join(script.with_suffix(".iim").read_bytes() for script in scripts)
    with running_sender(sender, scripts) as port:
        for offset in (0, 1, len(stream) - 1, len(stream)):
            with socket.create_connection(("127.0.0.1", port)) as line, line.makefile("rb") as all_:
                line.sendall(b"%d\n" % offset)
                assert all_.read() == stream[offset:]


def test_sender_names_the_line_of_a_bad_script(sender: Path, tmp_path: Path) -> None:
    script = tmp_path / "bad.script"
    script.write_text((SAMPLES / "story.script").read_text().replace("1:70", "1:71"))
    ran = subprocess.run([sender, "0", script], capture_output=True, text=True, timeout=60)
    # (record 2 begins in line 7, and 1:70 is missing)
    assert (ran.returncode, ran.stderr) == (1, f"{script}:7: cause 14 Missing\n")


def test_receiver_gets_what_the_sender_packs(sender: Path, receiver: Path, tmp_path: Path) -> None:
    with running_sender(sender, [SAMPLES / "story.script"] * 3) as port:
        assert run_receiver(receiver, port, tmp_path, None) == 0
    assert (tmp_path / "output").read_bytes() == STORY * 3


def test_programs_are_clean_under_valgrind(sender: Path, receiver: Path, tmp_path: Path) -> None:
    if shutil.which("valgrind") is None:
        pytest.skip("valgrind is not installed")
    with running_sender(sender, [SAMPLES / "story.script"]) as port:
        words = words_of(receiver, port, tmp_path)
        check: List[Name] = ["valgrind", "-q", "--leak-check=full", "--error-exitcode=9"]
        ran = subprocess.run([*check, *words], capture_output=True, text=True, timeout=120)
    assert (ran.returncode, ran.stderr) == (0, "")
