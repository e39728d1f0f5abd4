"""Watches what a front does with a real cluster. It stands outside what is proved."""
import asyncio
import subprocess
import sys
import time
from collections import Counter
from collections.abc import Callable, Coroutine, Iterator
from concurrent.futures import Future
from contextlib import contextmanager
from pathlib import Path
from typing import IO, Any

import jobs
from distributed import Client
from fair.account import State, Work
from fair.cluster import Cluster
from fair.front import Front, Refused

# How long a test with a cluster may take, in seconds. The machine may be busy.
LONGEST = 120
# How long a client looks for a scheduler that it lost, in seconds.
RECONNECT = 10


class WatchedClient(Client):  # type: ignore[misc]
    """A client that counts, at each job that it is given, how many have no outcome yet."""

    most = 0

    def submit(self, *words: Any, **more: Any) -> Any:
        future = super().submit(*words, **more)
        self.most = max(self.most, sum(it.status == "pending" for it in self.futures.values()))
        return future


class Watch:
    """The jobs that were submitted to a front, by a token of each, with all states that each was seen in and what it came to."""

    def __init__(self, front: Front, folder: Path) -> None:
        self.front, self.folder = front, folder
        self.states: dict[str, list[State | None]] = {}
        self.outcomes: dict[str, Future[str] | Refused] = {}
        self.order: list[tuple[str, int]] = []
        front.account.watch(self._see)

    def _see(self, work: Work) -> None:
        self.states.setdefault(work.arguments[0], []).append(work.state)
        if work.state is State.IN_FLIGHT:
            self.order.append((work.tenant, work.size))

    def submit(self, tenant: str, size: int, seconds: float) -> None:
        """Submits a job that returns its token."""
        token = f"{tenant}-{len(self.outcomes)}"
        try:
            self.outcomes[token] = self.front.submit(tenant, jobs.echo, token, seconds, str(self.folder), size=size)
        except Refused as it:
            self.outcomes[token] = it

    async def until_done(self, count: int) -> None:
        """Waits until so many jobs are done."""
        while sum(it[-1] is State.DONE for it in self.states.values()) < count:
            await asyncio.sleep(0.01)

    def started(self) -> Counter[str]:
        """How often workers started each job."""
        return Counter({it.name: len(it.read_text().splitlines()) for it in self.folder.iterdir()})

    def came_to(self, token: str) -> State:
        """What a job came to, as who submitted it was told."""
        it = self.outcomes[token]
        if isinstance(it, Refused) or isinstance(it.exception(0), Refused):
            return State.REFUSED
        if it.exception(0):
            return State.FAILED
        assert it.result(0) == token
        return State.DONE


@contextmanager
def started(*words: str | Path) -> Iterator[tuple[subprocess.Popen[str], IO[str]]]:
    """Starts a program in Python, and kills it at the end. Yields it with what it prints."""
    with subprocess.Popen([sys.executable, *words], stdout=subprocess.PIPE, text=True) as program:
        assert program.stdout
        try:
            yield program, program.stdout
        finally:
            program.kill()


def with_cluster(workers: int, allowed_failures: int, body: Callable[[Cluster, WatchedClient], Coroutine[Any, Any, None]]) -> None:
    """Runs a body with a cluster of its own, for a limited time."""

    async def connected(cluster: Cluster) -> None:
        async with WatchedClient(cluster.address, asynchronous=True, timeout=RECONNECT) as client:
            await client.wait_for_workers(workers)
            await body(cluster, client)

    with Cluster(workers, allowed_failures) as cluster:
        asyncio.run(asyncio.wait_for(connected(cluster), LONGEST))


def is_running(number: int) -> bool:
    """Whether there is a process of this number, other than one that has ended and waits to be asked for its status."""
    try:
        return Path(f"/proc/{number}/stat").read_text().rpartition(")")[2].split()[0] != "Z"
    except OSError:
        return False


def wait_until(holds: Callable[[], bool], seconds: float) -> bool:
    """Waits until something holds, and returns whether it did in this time."""
    end = time.monotonic() + seconds
    while not holds():
        if time.monotonic() > end:
            return False
        time.sleep(0.05)
    return True
