"""Schedulers and workers of Dask distributed."""
from __future__ import annotations

import contextlib
import json
import os
import signal
import subprocess
import tempfile
from pathlib import Path
from typing import Any, Dict, Iterator, List, Mapping, Optional, Tuple

from support.bindings.paths import SECONDS, environment
from support.bindings.running import children, python_with, run, wait_for


def python_with_distributed() -> str:
    """Return a Python that has Dask distributed, or skip the test."""
    return python_with("distributed")


@contextlib.contextmanager
def cluster(
    count: int,
    *more: str,
    threads: Optional[str] = "1",
    env: Optional[Mapping[str, str]] = None,
) -> Iterator[Tuple[str, List["subprocess.Popen[bytes]"]]]:
    """Start a scheduler and workers, and yield the address and the workers' processes.

    Args:
        count: The number of workers.
        more: More arguments of each worker.
        threads: The number of threads of each worker, or `None` for the worker's default.
        env: The environment.
    """
    python, started = python_with_distributed(), []
    with tempfile.TemporaryDirectory() as folder, open(f"{folder}/log", "wb") as log:
        options: Dict[str, Any] = {"stdout": log, "stderr": log, "cwd": folder}
        options["env"] = environment() if env is None else env
        file = f"{folder}/scheduler"
        try:
            words = ["--host", "127.0.0.1", "--port", "0", "--no-dashboard"]
            words = [python, "-m", "distributed.cli.dask_scheduler", *words]
            started.append(subprocess.Popen([*words, "--scheduler-file", file], **options))
            address = wait_for(lambda: address_in(file), "the scheduler")
            words = [python, "-m", "distributed.cli.dask_worker", address]
            words += [] if threads is None else ["--nthreads", threads]
            words += ["--no-dashboard", "--local-directory", folder, *(more or ["--no-nanny"])]
            started += [subprocess.Popen(words, **options) for _ in range(count)]
            wait_for_workers(python, address, count)
            yield address, started[1:]
        finally:
            end_all(started)


def wait_for_workers(python: str, address: str, count: int) -> None:
    """Wait until a scheduler has workers."""
    wait = f"import distributed, sys; distributed.Client(sys.argv[1]).wait_for_workers({count})"
    assert not count or run([python, "-c", wait, address])[0] == 0


def end_all(started: List["subprocess.Popen[bytes]"]) -> None:
    """Kill a scheduler and its workers."""
    for process in started:
        # (nannies first, since a nanny restarts its worker)
        own = children(process.pid)
        process.kill()
        process.wait(SECONDS)
        for child in own:
            with contextlib.suppress(OSError):
                os.kill(child, signal.SIGKILL)


def address_in(path: str) -> Optional[str]:
    """Return the address in the file of a scheduler, or `None` if it is not complete."""
    with contextlib.suppress(OSError, ValueError):
        address: str = json.loads(Path(path).read_text(encoding="utf-8"))["address"]
        return address
    return None


def scheduler_process() -> int:
    """Return the id of the scheduler that this process has started."""
    for child in children(os.getpid()):
        if "dask_scheduler" in Path(f"/proc/{child}/cmdline").read_text(encoding="utf-8"):
            return child
    raise AssertionError("there is no scheduler")
