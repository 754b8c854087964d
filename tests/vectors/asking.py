"""Ask the built program `vectors`, and compare its replies with those of the rules.

docs/VECTORS.md describes the form of a question. The program replies line by line, so one process
serves many examples (`Vectors`). Cases that are known in advance are asked in batches (`Batch`).
"""
from __future__ import annotations

import os
import select
import subprocess
import tempfile
from pathlib import Path
from typing import Iterable, Iterator, List, Optional, Sequence, Tuple

import rules
from envelopes import SMALLEST, STORY, VARIED
from rules import LIMITS
from tickets import ticket

SECONDS = 300
# The number of questions in one run of the program; how many failures are shown, and how wide.
BATCH, SHOWN, WIDE = 20000, 20, 4000
# The octets that questions name.
NAMED = {"smallest": SMALLEST, "story": STORY, "varied": VARIED}
# The line after which the replies to a question are complete.
END = b"# end\n"
Asked = Tuple[str, List[str]]


def digits(octets: bytes) -> str:
    """Return octets in the form of a question."""
    return bytes(octets).hex().upper() or "-"


def shown(octets: bytes) -> str:
    """Return octets in the form of a reply."""
    if octets and all(0x20 <= octet <= 0x7E and octet != 0x22 for octet in octets):
        return f'"{bytes(octets).decode()}"'
    return digits(octets)


def named(record: int, dataset: int) -> str:
    """Return the name of a dataset."""
    return f"{record}:{dataset:02}"


def truth(holds: bool) -> str:
    """Return a Boolean in the form of a reply."""
    return "true" if holds else "false"


def yes(holds: bool) -> str:
    """Return the reply to a question whose answer is a Boolean."""
    return "yes" if holds else "no"


def lines_of(envelope: rules.Envelope) -> List[str]:
    """Return the reply to `lines`."""
    return [f"line {shown(line)}" for line in envelope.message.lines]


def value_of(envelope: rules.Envelope) -> List[str]:
    """Return the reply to `value` after a complete envelope."""
    numbers = {each: envelope.numbers.get(each, "-") for each in (20, 90, 95)}
    return [
        *(f"field {named(*field[:2])} {shown(field[2])}" for field in envelope.fields),
        "message " + " ".join(map(shown, envelope.message.head())),
        f"trailer {shown(envelope.message.texts[rules.Message.TAIL])}",
        f"sizes known {truth(bool(envelope.numbers[10]))} subfile {numbers[20]} "
        f"announced {numbers[90]} maximum {numbers[95]} "
        f"subfiles {envelope.subfiles} total {envelope.total}",
    ]


class Case:
    """Questions that belong together, each with the expected replies."""

    def __init__(self, limits: Tuple[int, int] = LIMITS, is_new: bool = True) -> None:
        """Begin with a new unpacker, unless the questions need no unpacker."""
        self.asked: List[Asked] = []
        self.limits = "/".join(map(str, limits))
        if is_new:
            self.ask(f"new {self.limits}")

    def ask(self, question: str, *replies: str) -> Case:
        """Add a question."""
        self.asked.append((question, list(replies)))
        return self

    def ends(self, envelope: rules.Envelope) -> Case:
        """Add the questions that follow the last octets of an envelope."""
        self.ask("lines", *lines_of(envelope))
        end = envelope.end()
        self.ask("end", end or "none")
        if envelope.refusal:
            self.ask("feed 1C", end or "").ask("save", "61 Failed")
            return self.ask("lines", *lines_of(envelope))
        self.ask("save", digits(ticket(envelope) or b""))
        self.ask("state", f"octets {envelope.at} done {truth(envelope.is_done)} failed false")
        if envelope.is_done:
            return self.ask("feed 1C", "done 0").ask("value", *value_of(envelope))
        return self.ask("value", "none")

    def failure(self, replies: Sequence[List[str]], why: str) -> Optional[str]:
        """Return the first question with wrong replies, and a command that repeats the question."""
        for at, (question, want) in enumerate(self.asked):
            got = replies[at] if at < len(replies) else [f"no reply: {why}"]
            if got != want:
                questions = [each for each, _ in self.asked[: at + 1]]
                return f"{question}\n  got  {got}\n  want {want}\n  {command(questions)}"
        return None


def lets(questions: Iterable[str] = ("$smallest$story$varied",)) -> List[str]:
    """Return the lines that name the octets that questions use."""
    text = " ".join(questions)
    return [f"let {name} {digits(octets)}" for name, octets in NAMED.items() if f"${name}" in text]


def command(questions: Sequence[str]) -> str:
    """Return a command that asks questions, to be run at the top of the repository."""
    lines = "".join(f"{each}\\n" for each in [*lets(questions), *questions])
    return f"printf '{lines}' | crates/vectors/out/vectors"


class Vectors:
    """A process of the program, which is started again after it has ended."""

    def __init__(self, program: Path) -> None:
        """Start no process before the first question."""
        self.program = program
        self.process: Optional[subprocess.Popen[bytes]] = None
        self.errors = tempfile.TemporaryFile()
        self.rest = b""

    def start(self) -> subprocess.Popen[bytes]:
        """Start the process, and name octets."""
        self.errors = tempfile.TemporaryFile()
        self.process = subprocess.Popen(
            [self.program], stdin=subprocess.PIPE, stdout=subprocess.PIPE, stderr=self.errors
        )
        self.rest = b""
        for each in lets():
            self.reply(self.process, each)
        return self.process

    def stop(self) -> str:
        """End the process, and return how it ended."""
        if self.process is None:
            return "not started"
        self.process.kill()
        self.process.communicate()
        self.errors.seek(0)
        ended = f"status {self.process.returncode}, {self.errors.read().decode(errors='replace')}"
        self.process = None
        return ended.strip()

    def reply(self, process: subprocess.Popen[bytes], question: str) -> Optional[List[str]]:
        """Ask a question, and return its replies, or None if the program ended or hangs."""
        assert process.stdin and process.stdout
        try:
            process.stdin.write(question.encode() + b"\n" + END)
            process.stdin.flush()
        except BrokenPipeError:
            return None
        found = self.rest
        while not found.endswith(b"\n" + END):
            ready, _, _ = select.select([process.stdout], [], [], SECONDS)
            octets = os.read(process.stdout.fileno(), 65536) if ready else b""
            if not octets:
                return None
            found += octets
        lines = found.decode(errors="replace").split("\n")[:-2]
        return [line[2:] for line in lines[1:]] if lines[0] == question else [f"not asked: {lines}"]

    def check(self, *cases: Case) -> None:
        """Ask the questions of cases, up to the first question with wrong replies."""
        for case in cases:
            process, replies, why = self.process or self.start(), [], ""
            for question, _ in case.asked:
                reply = self.reply(process, question)
                if reply is None:
                    why = self.stop()
                    break
                replies.append(reply)
            failure = case.failure(replies, why)
            if failure:
                raise AssertionError(failure[:WIDE])


def replies_of(program: Path, questions: Sequence[str]) -> Tuple[List[List[str]], str]:
    """Return the replies to each question up to the end of the program, and its status."""
    names = lets()
    octets = "\n".join([*names, *questions, ""]).encode()
    try:
        ran = subprocess.run([program], input=octets, capture_output=True, timeout=SECONDS)
    except subprocess.TimeoutExpired:
        return [], f"not ended after {SECONDS} seconds"
    lines, at = ran.stdout.decode(errors="replace").split("\n")[:-1], len(names)
    replies: List[List[str]] = []
    for question in questions:
        if at >= len(lines) or lines[at] != question:
            break
        end = at + 1
        while end < len(lines) and lines[end].startswith("  "):
            end += 1
        replies.append([line[2:] for line in lines[at + 1 : end]])
        at = end
    return replies, f"status {ran.returncode}, {ran.stderr.decode(errors='replace').strip()}"


def batches(cases: Iterable[Case]) -> Iterator[List[Case]]:
    """Yield cases in batches of many questions."""
    batch: List[Case] = []
    size = 0
    for case in cases:
        batch.append(case)
        size += len(case.asked)
        if size >= BATCH:
            yield batch
            batch, size = [], 0
    if batch:
        yield batch


def failures(program: Path, batch: Sequence[Case]) -> Iterator[str]:
    """Ask a batch in one run, and yield each failure."""
    replies, why = replies_of(program, [question for case in batch for question, _ in case.asked])
    at = 0
    for case in batch:
        failure = case.failure(replies[at : at + len(case.asked)], why)
        at += len(case.asked)
        if failure:
            yield failure[:WIDE]


def check_all(program: Path, cases: Iterable[Case]) -> int:
    """Ask all cases, in as few runs as possible, and return how many cases there are."""
    count = 0
    found: List[str] = []
    for batch in batches(cases):
        count += len(batch)
        found += failures(program, batch)
    if found:
        raise AssertionError("\n".join([f"{len(found)} of {count} cases fail", *found[:SHOWN]]))
    assert count, "there is no case"
    return count
