"""A Dask cluster on this machine, for where there is none. It stands outside what is proved."""
import json
import os
import subprocess
import sys
import tempfile
import time
from pathlib import Path
from types import TracebackType

# Processes that their starter didn't end, since it was killed, end after so many seconds without work or without a scheduler.
ALONE = "30s"

# How long a scheduler may take to start, in seconds.
START = 60


class Cluster:
    """A scheduler and workers of one thread, each a process of its own, on loopback. It is a context manager, which ends them."""

    def __init__(self, workers: int, allowed_failures: int = 3) -> None:
        """Starts the processes. Dask gives up on a job when more than `allowed_failures` workers died with it."""
        self._folder = tempfile.TemporaryDirectory(prefix="dispatch-")
        self._log = Path(self._folder.name) / "log"
        # Workers import what this process can.
        path = os.pathsep.join(filter(None, sys.path))
        self._environment = {"DASK_DISTRIBUTED__SCHEDULER__ALLOWED_FAILURES": str(allowed_failures), "PYTHONPATH": path}
        where = Path(self._folder.name) / "scheduler.json"
        words = ["--host", "127.0.0.1", "--port", "0", "--no-show", "--idle-timeout", ALONE, "--scheduler-file", str(where)]
        self._scheduler = self._start("dask_scheduler", *words)
        self._workers: list[subprocess.Popen[bytes]] = []
        self.address = self._wait_for_address(where)
        """Where the scheduler is."""
        for _ in range(workers):
            self.add_worker()

    def add_worker(self) -> None:
        """Starts a worker."""
        words = ["--nthreads", "1", "--no-nanny", "--memory-limit", "0", "--death-timeout", ALONE, "--local-directory", self._folder.name]
        self._workers.append(self._start("dask_worker", self.address, *words))

    def kill_worker(self) -> int:
        """Kills the oldest worker, which has no time to say so, and returns the number of its process."""
        worker = self._workers.pop(0)
        worker.kill()
        worker.wait()
        return worker.pid

    def kill_scheduler(self) -> None:
        """Kills the scheduler."""
        self._scheduler.kill()
        self._scheduler.wait()

    def _wait_for_address(self, path: Path) -> str:
        """Waits until the scheduler has written where it is. Raises `RuntimeError` if it doesn't."""
        end = time.monotonic() + START
        while self._scheduler.poll() is None and time.monotonic() < end:
            try:
                return str(json.loads(path.read_text())["address"])
            except (OSError, ValueError):  # It isn't there yet, or not the whole of it.
                time.sleep(0.02)
        told = self._log.read_text(errors="replace")
        self.close()
        raise RuntimeError(f"the scheduler doesn't start\n{told}")

    def _start(self, name: str, *words: str) -> "subprocess.Popen[bytes]":
        """Starts a program of Dask's in a session of its own, so that Ctrl-C comes to its starter alone."""
        command = [sys.executable, "-m", f"distributed.cli.{name}", "--no-dashboard", *words]
        environment = {**os.environ, **self._environment}
        with self._log.open("ab") as log:
            return subprocess.Popen(command, stdin=subprocess.DEVNULL, stdout=log, stderr=log, env=environment, start_new_session=True)

    def __enter__(self) -> "Cluster":
        return self

    def __exit__(self, kind: type[BaseException] | None, error: BaseException | None, trace: TracebackType | None) -> None:
        self.close()

    def close(self) -> None:
        """Ends the processes."""
        for it in [self._scheduler, *self._workers]:
            it.kill()
        for it in [self._scheduler, *self._workers]:
            it.wait()
        self._folder.cleanup()
