"""Run iim-archive on Dask distributed, and lose workers."""
from __future__ import annotations
from support.bindings.paths import TOP
from typing import Dict, Tuple
from support.bindings.paths import BUILT, SOURCES
from support.bindings.cluster import scheduler_process
from support.bindings.archive import LONG_ENVELOPES

import json
import os
import shutil
import signal
import sys
import time

from support.bindings.archive import (
    archive,
    busy_tree,
    expect_failures,
    expect_one_lost,
    failing,
    KILLER,
    long_tree,
    poisoned_tree,
    query,
    random_tree,
    slow_tree,
    Started,
    stored,
)
from support.bindings.cluster import cluster, python_with_distributed
from support.bindings.paths import NOW
from support.bindings.running import run, write_file


def test_audits_a_tree_on_distributed(folder: str) -> None:
    python = python_with_distributed()
    with cluster(2) as (address, _):
        want = archive([random_tree(folder)])
        for batch in "1", "32":
            got = archive(["--scheduler", address, "--batch", batch, folder], python)
            assert (batch, got[:3]) == (batch, want[:3])


def test_reads_the_same_rows_on_distributed_threads(folder: str) -> None:
    python = python_with_distributed()
    want = archive([busy_tree(folder)])
    # (the default is one thread per processor)
    for threads in "4", None:
        with cluster(1, threads=threads) as (address, _):
            for turn in range(3):
                got = archive(["--scheduler", address, "--batch", "4", folder], python)
                assert (threads, turn, got[2:], got[:2] == want[:2]) == (
                    threads,
                    turn,
                    (want[2], ""),
                    True,
                )


def test_continues_after_a_lost_distributed_worker(folder: str) -> None:
    python = python_with_distributed()
    with cluster(2) as (address, workers):
        want = archive([slow_tree(folder)])
        # A stopped worker accepts tasks and finishes none: no run can end without its loss.
        os.kill(workers[0].pid, signal.SIGSTOP)
        started = Started(["--scheduler", address, "--batch", "1", folder], python)
        time.sleep(6)
        assert started.process.poll() is None
        assert len(started.output) < len(
            want[1]
        ), "the run did not need the worker that was stopped"
        workers[0].kill()
        # (Dask reports the loss on standard error)
        assert started.ended()[:3] == want[:3]


def test_loses_only_the_file_that_kills_workers(folder: str) -> None:
    python = python_with_distributed()
    preload = write_file(folder, "killer.py", KILLER.encode())
    # (each worker has a nanny, which restarts it if it dies)
    with cluster(2, "--nanny", "--preload", preload) as (address, _):
        tree = poisoned_tree(f"{folder}/tree")
        expect_one_lost(archive(["--scheduler", address, "--batch", "8", tree], python), tree)


def test_stores_the_rows_of_distributed(folder: str) -> None:
    python = python_with_distributed()
    with cluster(2) as (address, _):
        tree = random_tree(f"{folder}/tree")
        rows = archive([tree])[1]
        for batch in "1", "32":
            assert (
                stored(
                    f"{folder}/{batch}", ["--scheduler", address, "--batch", batch, tree], python
                )[0]
                == 1
            )
            assert (batch, query([f"{folder}/{batch}"])) == (batch, (0, rows, ""))


def test_fails_with_one_line_without_a_scheduler(folder: str) -> None:
    python = python_with_distributed()
    soon = {"python": python, "DASK_DISTRIBUTED__COMM__TIMEOUTS__CONNECT": "1s"}
    tree = long_tree(f"{folder}/tree")
    expect_failures(
        [
            (["--scheduler", "tcp://127.0.0.1:1", tree], "tcp://127.0.0.1:1: no scheduler: ", soon),
            (
                ["--scheduler", "tcp://127.0.0.1:1", "--into", f"{folder}/index", tree],
                "tcp://127.0.0.1:1: no scheduler: ",
                soon,
            ),
            (["--scheduler", "rubbish", tree], "rubbish: not the address of a scheduler: ", soon),
            (["--scheduler", "", tree], "not the address of a scheduler: ", soon),
            (
                ["--scheduler", "nothing://127.0.0.1:1", tree],
                "nothing://127.0.0.1:1: not the address of a scheduler: ",
                soon,
            ),
        ]
    )
    with cluster(0) as (address, _):
        # (it reports that it waits, and then that it stops waiting)
        wait = "distributed.FIRST_WAIT, distributed.LAST_WAIT = 0.5, 1"
        status, _, errors = failing(["--scheduler", address, tree], wait, python=python)
        reported = [
            f"iim-archive: {address}: the scheduler {words}\n"
            for words in (
                "has no worker yet; waiting 1 seconds at most",
                "had no worker for 1 seconds",
            )
        ]
        assert (status, errors) == (3, "".join(reported))


# Kills the process of this id after some rows are printed.
LOSES_SCHEDULER = """
add = program.Report.add
def added(*words):
    os.kill({}, 9)
    return add(*words)
program.Report.add = added
"""


def installed(folder: str) -> Tuple[Dict[str, str], str]:
    """Install the package as the packages do, and return the environment and the command."""
    shutil.copytree(SOURCES / "iim", f"{folder}/iim", ignore=shutil.ignore_patterns("__pycache__"))
    program = shutil.copy(TOP / "packages" / "python" / "iim-archive", folder)
    library = os.environ.get("IIM_LIBRARY") or str(BUILT / "libiim.so")
    return {**os.environ, "PYTHONPATH": folder, "IIM_LIBRARY": library}, program


def test_runs_on_distributed_when_installed(folder: str) -> None:
    python = python_with_distributed()
    env, program = installed(folder)
    tree = random_tree(f"{folder}/tree")
    want = run([python, program, "--now", NOW, tree], env=env)
    assert (want[0], want[2]) == (1, b"")
    with cluster(1, threads="4", env=env) as (address, _):
        assert run([python, program, "--now", NOW, "--scheduler", address, tree], env=env) == want
    # (workers without the package)
    with cluster(1, env={**os.environ, "PYTHONPATH": ""}) as (address, _):
        status, _, errors = run(
            [python, program, "--now", NOW, "--scheduler", address, tree], env=env
        )
        assert (status, errors.decode()) == (
            3,
            f"iim-archive: {address}: a worker can't import what it runs: No module named 'iim'\n",
        )


# Runs the command with workers that are spawned, not forked.
STARTED_ANEW = """
import multiprocessing, runpy, sys
multiprocessing.set_start_method(sys.argv[1])
del sys.argv[:2]
runpy.run_path(sys.argv[0], run_name="__main__")
"""


def test_runs_on_workers_when_installed(folder: str) -> None:
    env, program = installed(folder)
    tree = random_tree(f"{folder}/tree")
    want = run([sys.executable, program, "--now", NOW, tree], env=env)
    assert (want[0], want[2]) == (1, b"")
    starts = write_file(
        folder,
        "starts.py",
        f"if __name__ == '__main__':{STARTED_ANEW.replace(chr(10), chr(10) + '    ')}".encode(),
    )
    for method in "fork", "forkserver", "spawn":
        assert (
            method,
            run(
                [sys.executable, starts, method, program, "--now", NOW, "--workers", "2", tree],
                env=env,
            ),
        ) == (method, want)


def test_prints_partial_sums_if_scheduler_is_lost(folder: str) -> None:
    python = python_with_distributed()
    with cluster(1) as (address, workers):
        tree = long_tree(f"{folder}/tree")
        scheduler = scheduler_process()
        soon = {"DASK_DISTRIBUTED__COMM__TIMEOUTS__CONNECT": "1s"}
        status, output, errors = failing(
            ["--scheduler", address, "--batch", "1", tree],
            LOSES_SCHEDULER.format(scheduler),
            python=python,
            **soon,
        )
        *rows, sums = map(json.loads, output.splitlines())
        assert (
            status,
            errors.count("\n"),
            errors.startswith(f"iim-archive: {address}: the scheduler was lost: "),
        ) == (3, 1, True)
        assert 0 < sums["envelopes"] == len(rows) < LONG_ENVELOPES, str(sums)
