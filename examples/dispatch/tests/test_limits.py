"""What a front makes of Dask's own limits, over real clusters. These tests stand outside what is proved."""
import asyncio
import time
from collections.abc import Callable
from functools import partial
from pathlib import Path
from threading import Lock

import pytest
from distributed import KilledWorker

import jobs
from fair import cluster
from fair.account import State
from fair.cluster import Cluster
from fair.front import Front, Refused, Stopped
from watched import WatchedClient, is_running, started, wait_until, with_cluster

TREE = "a :: Sender(0); q :: Queue(20); d :: ToDevice(dask); a -> q -> d;"


def states(front: Front) -> dict[State, int]:
    """How many jobs are in which state, without zeros."""
    row, = front.account.rows()
    assert row.adds_up
    return {it: count for it, count in row.states.items() if count}


def test_a_job_that_kills_its_workers_fails() -> None:
    """Dask allows one worker to die with it, and gives up on it at the second. The jobs behind it are done by the third."""

    async def body(_: Cluster, client: WatchedClient) -> None:
        front = Front(client, TREE, in_flight=1)
        killing = front.submit("a", jobs.kill_worker, size=1)
        others = [front.submit("a", abs, -value, size=1) for value in range(5)]
        front.close()
        await front.run()
        assert isinstance(killing.exception(0), KilledWorker)
        assert [it.result(0) for it in others] == list(range(5))
        assert states(front) == {State.FAILED: 1, State.DONE: 5}

    with_cluster(3, 1, body)


def test_a_job_that_raises_runs_again(tmp_path: Path) -> None:
    """As often as its retries say, and not more."""

    async def body(_: Cluster, client: WatchedClient) -> None:
        front = Front(client, TREE, in_flight=2)
        again = front.submit("a", jobs.fail_at_first, str(tmp_path / "again"), size=1, retries=1)
        once = front.submit("a", jobs.fail_at_first, str(tmp_path / "once"), size=1)
        front.close()
        await front.run()
        assert again.result(0) == str(tmp_path / "again")
        assert isinstance(once.exception(0), OSError)
        assert states(front) == {State.FAILED: 1, State.DONE: 1}

    with_cluster(1, 3, body)


def test_a_job_that_cannot_be_done_stops_no_other() -> None:
    """One seems to cancel who waits for it, another can't be sent to a worker, and the result of the third can't be sent back."""

    async def body(_: Cluster, client: WatchedClient) -> None:
        front = Front(client, TREE, in_flight=1)
        calls: list[Callable[[], object]] = [jobs.seem_cancelled, partial(print, Lock()), Lock]
        failing = [front.submit("a", it, size=1) for it in calls]
        after = front.submit("a", abs, -1, size=1)
        front.close()
        await front.run()
        assert [type(it.exception(0)) for it in failing] == [asyncio.CancelledError, TypeError, TypeError]
        assert after.result(0) == 1 and states(front) == {State.FAILED: 3, State.DONE: 1}

    with_cluster(1, 3, body)


def test_equal_jobs_are_two_jobs(tmp_path: Path) -> None:
    """Dask takes two calls of one function with one argument for one job, unless it is told that they are none."""

    async def body(_: Cluster, client: WatchedClient) -> None:
        front = Front(client, TREE, in_flight=2)
        outcomes = [front.submit("a", jobs.echo, "token", 0.1, str(tmp_path), size=1) for _ in range(2)]
        front.close()
        await front.run()
        assert [it.result(0) for it in outcomes] == ["token", "token"]
        assert (tmp_path / "token").read_text() == "started\n" * 2

    with_cluster(1, 3, body)


def test_a_lost_scheduler_settles_all_jobs() -> None:
    async def body(started: Cluster, client: WatchedClient) -> None:
        front = Front(client, TREE, in_flight=2)
        outcomes = [front.submit("a", time.sleep, 60, size=1) for _ in range(10)]
        running = asyncio.create_task(front.run())
        await asyncio.sleep(0.5)
        started.kill_scheduler()
        with pytest.raises(Stopped):
            await running
        assert all(it.exception(0) for it in outcomes) and front.closed
        assert sum(isinstance(it.exception(0), Refused) for it in outcomes) >= 6
        assert not front.account.unsettled() and sum(states(front).values()) == 10

    with_cluster(1, 3, body)


# Starts a cluster, prints the numbers of its processes, and leaves it alone.
STARTER = """
import time
from fair import cluster
cluster.ALONE = "2s"
started = cluster.Cluster(2)
print(*(it.pid for it in [started._scheduler, *started._workers]), flush=True)
time.sleep(600)
"""


def test_processes_end_if_their_starter_is_killed() -> None:
    with started("-c", STARTER) as (_, printing):
        numbers = [int(it) for it in printing.readline().split()]
        assert len(numbers) == 3 and all(map(is_running, numbers))
        time.sleep(2)
    assert wait_until(lambda: not any(map(is_running, numbers)), 60)


def test_a_worker_without_a_scheduler_ends(monkeypatch: pytest.MonkeyPatch) -> None:
    monkeypatch.setattr(cluster, "ALONE", "2s")
    with Cluster(0) as lonely:
        lonely.kill_scheduler()
        lonely.add_worker()
        assert wait_until(lambda: lonely._workers[0].poll() is not None, 60)


def test_a_scheduler_that_does_not_start_is_told(monkeypatch: pytest.MonkeyPatch) -> None:
    monkeypatch.setattr(cluster, "START", 0)
    with pytest.raises(RuntimeError, match="the scheduler doesn't start"):
        Cluster(1)
