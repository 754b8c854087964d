"""Judges mutants and the right ones in their copies: rounds of many side by side, and again
alone what does not plainly pass in one.
"""
from __future__ import annotations

import math
import os
import time
from collections import Counter
from concurrent.futures import FIRST_COMPLETED, Future, ThreadPoolExecutor, wait
from typing import Dict, List, Optional, Sequence, Tuple

from wrong import prover, rounds, sources, store, verdicts
from wrong.proofs import AllProved

# A round of this many mutants is never parted: what each round takes besides them would be more
# than theirs.
LEAST = 16
# No more mutants than these are in one check, but those of one round: it holds all of them
# in memory.
TOGETHER = 80

# A verdict, and what the prover named; those of the mutants of a round.
Verdict = Tuple[str, str]
Verdicts = List[Tuple[sources.Body, Verdict]]
# What a check of rounds came to, and the seconds that it took.
Result = Tuple[List[Optional[Verdicts]], float]


class Crate:
    """A crate's mutants while they are judged: what each came to, and what that took."""

    def __init__(self, name: str, bodies: List[sources.Body], anew: bool, most: int) -> None:
        self.name, self.bodies = name, bodies
        earlier = {} if anew else {body.name: store.known(body) for body in bodies}
        self.verdicts: Dict[str, Verdict] = {
            name: verdict for name, verdict in earlier.items() if verdict
        }
        self.kept = len(self.verdicts)
        self.planned = rounds.plan(
            name, [body for body in bodies if body.name not in self.verdicts], most
        )
        self.seconds, self.checks, self.open = 0.0, 0, len(self.planned)

    def size(self) -> int:
        """How much the prover has to read of it."""
        walked = os.walk(f"{sources.TOP}/crates/{self.name}")
        return sum(
            os.path.getsize(f"{at}/{file}")
            for at, _, files in walked
            if "/out" not in at
            for file in files
        )

    def sums(self) -> str:
        """A line that states how its mutants were judged, and what it took."""
        kept = f" ({self.kept} of them in an earlier run)" if self.kept else ""
        sums = "; ".join(
            self.sums_of(word, of_right) for word, of_right in (("wrong", False), ("right", True))
        )
        cost = f"{self.checks} checks, {self.seconds:.0f} seconds of a processor"
        return f"{self.name}: {sums}{kept}; {cost}"

    def sums_of(self, word: str, of_right: bool) -> str:
        """How many of its mutants, or of its right ones, came to each verdict."""
        names = [body.name for body in self.bodies if body.is_right == of_right]
        counts = Counter(self.verdicts[name][0] for name in names)
        return f"{len(names)} {word} bodies" + "".join(
            f"{',' if at else ':'} {count} {verdict}"
            for at, (verdict, count) in enumerate(counts.items())
        )


def first_error(text: str) -> str:
    """The first line that states why a check came to nothing."""
    lines = (
        [line for line in text.splitlines() if "error" in line]
        or text.splitlines()[-1:]
        or ["it said nothing"]
    )
    return lines[0][:160]


def log(these: rounds.Round, text: str) -> None:
    """Writes what the prover said of a round, where a folder is named for that."""
    if folder := os.environ.get("WRONG_LOGS"):
        with open(
            f"{folder}/{these.crate}.{these.bodies[0].word}.{len(these.bodies)}",
            "w",
            encoding="utf-8",
        ) as file:
            file.write(text)


def judged(these: rounds.Round, text: str) -> Verdicts:
    """Of each of the mutants of a round what it comes to by what the prover said."""
    found = verdicts.hear(text)
    return [
        (body, verdicts.judge(body, these.functions[body.name], found)) for body in these.bodies
    ]


def tried(task: Sequence[rounds.Round]) -> Result:
    """Checks rounds, all in one check: of each its verdicts, or None where the check came to
    nothing; and the seconds that it took.
    """
    texts, said = prover.check(task)
    for these, text in zip(task, texts):
        log(these, said.text if text is None else text)
    found = [None if text is None else judged(these, text) for these, text in zip(task, texts)]
    if found == [None] and len(task[0].bodies) == 1:
        found = [[(task[0].bodies[0], (verdicts.UNHEARD, first_error(said.text)))]]
    return found, said.seconds


Task = Tuple[Crate, rounds.Round]


class Judging:
    """All of it: the tasks that wait, those that run, and the crates."""

    def __init__(self, crates: List[Crate], jobs: int, proofs: AllProved) -> None:
        self.pool, self.crates = ThreadPoolExecutor(jobs), crates
        self.running: Dict[Future[Result], List[Task]] = {}
        self.waiting: List[Task] = []
        self.apart: List[rounds.Round] = []
        self.jobs, self.proofs, self.has_begun = jobs, proofs, False
        # (what takes longest begins first)
        for crate in sorted(crates, key=lambda crate: -crate.size()):
            self.waiting += [(crate, these) for these in crate.planned]
            if not crate.planned:
                print(crate.sums(), flush=True)

    def next(self) -> List[Task]:
        """What waits and can be checked together, the first of it first: rounds of crates that are
        proved. None while these are few and more crates are still to be proved: what a check reads
        first, it would read for few. But the first check begins with those of the first crate:
        until more are proved `rt ci` leaves processors idle.
        """
        most = min(
            TOGETHER, math.ceil(sum(len(these.bodies) for _, these in self.waiting) / self.jobs)
        )
        found: List[Task] = []
        count = 0
        for crate, these in self.waiting:
            apart = these in self.apart or found and found[0][1] in self.apart
            if self.proofs.has(crate.name) and (
                not found or count + len(these.bodies) <= most and not apart
            ):
                found.append((crate, these))
                count += len(these.bodies)
        least = most - LEAST if self.has_begun else LEAST
        if (
            count < least
            and not self.proofs.ended
            and not any(these in self.apart for _, these in found)
        ):
            return []
        self.waiting = [task for task in self.waiting if task not in found]
        self.has_begun = True
        return found

    def begin(self) -> None:
        """Begins what waits, as long as there is a processor."""
        self.proofs.look()
        while len(self.running) < self.proofs.share(self.jobs) and (tasks := self.next()):
            self.running[self.pool.submit(tried, [these for _, these in tasks])] = tasks

    def again(self, crate: Crate, these: Sequence[rounds.Round]) -> None:
        """Adds rounds of a crate, before those of other crates."""
        crate.open += len(these)
        self.waiting[:0] = [(crate, each) for each in these]

    def end(self, future: Future[Result]) -> None:
        """Takes what rounds came to.

        Where their check came to nothing, each is tried apart from the others.
        """
        tasks = self.running.pop(future)
        found, seconds = future.result()
        bodies = sum(len(these.bodies) for _, these in tasks)
        for (crate, these), verdicts_of in zip(tasks, found):
            crate.seconds, crate.checks, crate.open = (
                crate.seconds + seconds * len(these.bodies) / bodies,
                crate.checks + 1,
                crate.open - 1,
            )
            if verdicts_of is None and len(tasks) > 1:
                self.apart.append(these)
                self.again(crate, [these])
            else:
                self.take(crate, these, verdicts_of)
            if crate.open == 0:
                print(crate.sums(), flush=True)

    def take(self, crate: Crate, these: rounds.Round, found: Optional[Verdicts]) -> None:
        """Takes what a round came to: what is not plainly refused beside others is tried again
        alone.
        """
        if found is None:
            half = len(these.bodies) // 2
            self.again(
                crate,
                [
                    each
                    for part in (these.bodies[:half], these.bodies[half:])
                    for each in rounds.plan(crate.name, part)
                ],
            )
        for body, verdict in found or []:
            if verdict[0] in verdicts.passing(body) or these.is_plain():
                self.decide(crate, body, verdict)
            else:
                self.again(crate, [rounds.alone(body)])

    def decide(self, crate: Crate, body: sources.Body, verdict: Verdict) -> None:
        """Notes what a mutant comes to, and prints it unless it plainly passes."""
        crate.verdicts[body.name] = verdict
        if verdict[0] in verdicts.passing(body) and not sources.CHANGED:
            store.keep(body, verdict)
        if verdict[0] != verdicts.passing(body)[0]:
            print(
                f"{crate.name}: {body.name} ({body.function}, {body.clause}): "
                + ": ".join(filter(None, verdict[:2])),
                flush=True,
            )

    def leave(self) -> None:
        """Ends what waits for crates that were not proved."""
        for crate, these in self.waiting:
            for body in these.bodies:
                self.decide(crate, body, (verdicts.UNTRIED, "its crate is not proved"))
        self.waiting = []

    def run(self) -> None:
        """Judges all."""
        with self.pool:
            self.begin()
            while self.running or self.waiting:
                for future in wait(
                    self.running, timeout=self.proofs.SECONDS, return_when=FIRST_COMPLETED
                ).done:
                    self.end(future)
                self.begin()
                if not self.running and self.proofs.ended:
                    self.leave()
                elif not self.running:
                    time.sleep(self.proofs.SECONDS or 0)


def judge(
    chosen: Dict[str, List[sources.Body]], jobs: int, anew: bool, proofs: AllProved
) -> List[Tuple[sources.Body, str]]:
    """Judges bodies of crates, and returns each with what it came to: what an earlier run on this
    machine said of the same stands, unless they are judged anew. One crate's share of a run that is
    long for the checks side by side goes in several rounds. Of what does not come to a verdict that
    passes each is tried again alone.
    """
    most = max(LEAST, math.ceil(sum(map(len, chosen.values())) / jobs))
    crates = [
        Crate(name, bodies, anew or bool(sources.CHANGED), most) for name, bodies in chosen.items()
    ]
    if proofs.ended:
        for crate in crates:
            prover.below([crate.name])
    Judging(crates, jobs, proofs).run()
    return [(body, crate.verdicts[body.name][0]) for crate in crates for body in crate.bodies]
