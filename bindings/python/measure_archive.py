#!/usr/bin/env python3
"""Index, verify and query many files in several ways, kill some of it, and compare the results.

  bindings/python/measure_archive.py [--files N] [--kills N] [--folder DIR]

The files [default: 100,000] have three sizes: one small envelope, one of 1 KB, and one of 4.7 KB.
One in 100 is damaged, one in 1,000 is empty, and a third of the ids are drawn again. `sha256sum`
writes a manifest for each size. The tree is indexed without workers, with 1 and 4 workers, and on
Dask with 2 workers of 4 threads each. Each index is compared with the manifests, and so are the
rows and the outcomes of verifications. Then runs that index and verify are killed N times
[default: 20] at random moments while they read, and continued. Last, one byte of one file is
damaged, which `verify` alone must find. What each step takes is printed, in elapsed time and in
processor time of all its processes. A million files take 4 GB and a million inodes.

The status is 0 if all are equal. The gate does not run this.
"""
from __future__ import annotations

import argparse
import contextlib
import hashlib
import json
import os
import random
import resource
import signal
import sqlite3
import subprocess
import sys
import tempfile
import time
from pathlib import Path
from typing import Any, Iterator, List, Sequence, Tuple

sys.path.insert(0, os.path.dirname(os.path.realpath(__file__)))

# (a script beside this one, which the tools do not find)
from measure import (  # type: ignore[import]  # noqa: E402
    ARCHIVE,
    ENVIRONMENT,
    HEAD,
    NOW,
    SMALL,
    TOP,
    envelope,
    remove,
    rules,
)

sys.path.append(f"{TOP}/tests")
ENVIRONMENT["PYTHONPATH"] += os.pathsep + f"{TOP}/tests"

SIZES = "small", "middle", "large"


def bodies() -> List[bytes]:
    """Return an envelope of each size."""
    empty = rules.packed(SMALL, rules.object_of(HEAD, [b""], b""), 1024)
    lines = rules.packed(SMALL, rules.object_of(HEAD, [b"a line of wire copy"] * 44, b""), 1024)
    return [empty, lines, envelope(1)]


def make(folder: Path, files: int) -> None:
    """Write the files, a thousand in each directory, and a manifest for each size."""
    chance, made = random.Random(1), bodies()
    for at in range(files):
        size = chance.choices((0, 1, 2), (60, 30, 10))[0]
        number = chance.randrange(files) if at % 3 == 0 else at
        octets = made[size].replace(b"00000001", b"%08d" % number)
        octets = b"" if at % 1_000 == 7 else octets[:-3] + b"\0" if at % 100 == 9 else octets
        place = folder / SIZES[size] / f"{at // 1_000:04}"
        place.mkdir(parents=True, exist_ok=True)
        (place / f"{at % 1_000:03}.iim").write_bytes(octets)
    for name in SIZES:
        listed = f"cd {folder} && find {name} -type f -print0 | xargs -0 sha256sum > {name}.sha256"
        subprocess.run(["sh", "-c", listed], check=True)


def run(words: Sequence[str], statuses: Sequence[int] = (0, 1)) -> Tuple[str, List[str]]:
    """Run iim-archive, print what it took, and return its last line and the others."""
    before, began = resource.getrusage(resource.RUSAGE_CHILDREN), time.monotonic()
    ran = subprocess.run([*ARCHIVE, *words], stdout=subprocess.PIPE, env=ENVIRONMENT)
    after = resource.getrusage(resource.RUSAGE_CHILDREN)
    used = sum(getattr(after, of) - getattr(before, of) for of in ("ru_utime", "ru_stime"))
    elapsed, shown = time.monotonic() - began, " ".join(words[:-1])
    print(f"{elapsed:8.1f} s, {used:7.1f} of processors: {shown}", flush=True)
    if ran.returncode not in statuses:
        sys.exit(f"{words}: status {ran.returncode}")
    *lines, last = ran.stdout.decode().splitlines() or [""]
    return last, lines


@contextlib.contextmanager
def schedulers() -> Iterator[str]:
    """Start a scheduler of Dask and two workers of four threads, and yield its address."""
    from support.bindings.cluster import cluster

    with cluster(2, threads="4", env=ENVIRONMENT) as (address, _):
        yield address


def digest_of(index: str, text: str) -> str:
    """Return a checksum of the rows of a statement."""
    digest = hashlib.sha256()
    with contextlib.closing(sqlite3.connect(index)) as database:
        for row in database.execute(text):
            digest.update(repr(row).encode())
    return digest.hexdigest()[:16]


# What must be equal in all indexes, whatever numbers the files have.
STATEMENTS = (
    "SELECT path, size, changed, read, state, reason, gone, sha256, fixity"
    " FROM files ORDER BY path",
    "SELECT path, e.envelope, at, length, service, number, date_sent, priority, e.size, subfiles,"
    " announced, counted, sent, release, expires FROM envelopes AS e JOIN files USING (file)"
    " ORDER BY path, e.envelope",
    "SELECT path, told FROM refusals JOIN files USING (file) ORDER BY path",
)


def results_of(index: str, folder: Path) -> List[Any]:
    """Return what must be equal for all ways: rows, queries, verification and manifests."""
    base = ["--now", NOW]
    found: List[Any] = []
    for words in ["--date", "20240301", "--csv"], ["--repeats"], ["--only", "refused"]:
        last, lines = run(["query", *base, *words, index])
        found.append(hashlib.sha256("\n".join([*lines, last]).encode()).hexdigest()[:16])
    found += [digest_of(index, text) for text in STATEMENTS]
    manifests = (
        json.loads(run(["manifest", "--check", f"{folder}/{size}.sha256", index])[0])
        for size in SIZES
    )
    found += [(sums["equal"], sums["differs"], sums["absent"]) for sums in manifests]
    return found


def index_and_verify(index: str, folder: Path, words: List[str]) -> List[Any]:
    """Index and verify all files in one way, and return the results."""
    tree = [str(folder / size) for size in SIZES]
    sums = json.loads(run(["--now", NOW, *words, "--into", index, *tree])[0])
    again = json.loads(run(["--now", NOW, "--into", index, *tree])[0])
    verified = run(["verify", *words, index])
    if again["unchanged"] != sums["files"]:
        sys.exit(f"of {sums['files']} files {again['unchanged']} are unchanged")
    return [sums, verified, *results_of(index, folder)]


def kill_at_random(words: List[str], chance: random.Random, longest: float) -> bool:
    """Start a run, kill it, and return whether it was still running.

    It is killed at most `longest` seconds after it has begun, which it logs.
    """
    with tempfile.TemporaryFile() as log:
        started = subprocess.Popen(
            [*ARCHIVE, *words, "--verbose"],
            stdout=subprocess.DEVNULL,
            stderr=log,
            env=ENVIRONMENT,
            start_new_session=True,
        )
        while not os.fstat(log.fileno()).st_size and started.poll() is None:
            time.sleep(0.01)
    with contextlib.suppress(subprocess.TimeoutExpired):
        started.wait(chance.uniform(0, longest))
    with contextlib.suppress(ProcessLookupError):
        os.killpg(started.pid, signal.SIGKILL)
    return started.wait() == -signal.SIGKILL


def seconds_of(words: List[str]) -> float:
    """Run a command to its end, and return the seconds that it takes."""
    began = time.monotonic()
    run(words)
    return time.monotonic() - began


def survive(index: str, folder: Path, kills: int) -> List[Any]:
    """Index and verify all files by runs that are killed, and return the results.

    All kills hit a run. A run continues the killed one before it, and if one ends by itself, the
    next one begins anew.
    """
    chance, tree, hits = random.Random(2), [str(folder / size) for size in SIZES], 0
    reading = ["--now", NOW, "--workers", "2", "--into", index, *tree]
    verifying = ["verify", "--workers", "2", "--not-since", "2000-01-01", index]
    anew = ["verify", "--workers", "2", index]
    longest = seconds_of(reading) / 4
    remove(index)
    while hits < kills // 2:
        is_hit = kill_at_random(reading, chance, longest)
        hits += is_hit
        if not is_hit and hits < kills // 2:
            remove(index)
    sums = json.loads(run(reading)[0])
    longest, words = seconds_of(anew) / 4, anew
    while hits < kills:
        is_hit = kill_at_random(words, chance, longest)
        hits, words = hits + is_hit, verifying if is_hit else anew
    run(verifying)
    print(f"{hits} kills hit a run", flush=True)
    return [{**sums, "unchanged": 0}, *results_of(index, folder)]


def damage(index: str, folder: Path) -> bool:
    """Damage a byte of a file, and return whether `verify` alone finds it, and nothing else."""
    paths = sorted((folder / "large").rglob("*.iim"))
    path = paths[len(paths) // 2]
    there, octets = path.stat(), bytearray(path.read_bytes())
    octets[len(octets) // 2] ^= 1
    path.write_bytes(octets)
    os.utime(path, ns=(there.st_atime_ns, there.st_mtime_ns))
    again = json.loads(run(["--now", NOW, "--into", index, str(folder / "large")])[0])
    _, lines = run(["verify", "--workers", "4", index])
    rows = [(row["file"], row["fixity"]) for row in map(json.loads, lines)]
    return again["unchanged"] == len(paths) and rows == [(str(path), "damaged")]


def main() -> int:
    """Run all steps, and return the exit status."""
    parser = argparse.ArgumentParser()
    parser.add_argument("--files", type=int, default=100_000)
    parser.add_argument("--kills", type=int, default=20)
    parser.add_argument("--folder")
    arguments = parser.parse_args()
    with tempfile.TemporaryDirectory(dir=arguments.folder) as made:
        folder = Path(made)
        make(folder, arguments.files)
        print(f"{arguments.files:,} files are made", flush=True)
        options: List[List[str]] = [[], ["--workers", "1"], ["--workers", "4"]]
        results = [
            index_and_verify(f"{made}/{nth}.index", folder, words)
            for nth, words in enumerate(options)
        ]
        with schedulers() as address:
            words = ["--scheduler", address]
            results.append(index_and_verify(f"{made}/dask.index", folder, words))
        size = os.path.getsize(f"{made}/0.index")
        print(f"the index has {size / 1e6:,.0f} MB; {results[0][0]}; {results[0][1][0]}")
        is_same = all(result == results[0] for result in results)
        killed = survive(f"{made}/killed.index", folder, arguments.kills)
        survives = killed[1:] == results[0][2:]
        finds = damage(f"{made}/0.index", folder)
        print(f"equal: {is_same}; after kills: {survives}; damage is found: {finds}")
        return 0 if is_same and survives and finds else 1


if __name__ == "__main__":
    with contextlib.suppress(KeyboardInterrupt):
        sys.exit(main())
