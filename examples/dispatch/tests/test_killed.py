"""A worker is killed in the midst of a run over a real cluster. These tests stand outside what is proved.

The jobs are submitted before the first is handed over. So each tenant has a job until the first of them has none left, and up to there the
order has to obey the law of the DRRSched.
"""
import asyncio
import random
from collections import Counter
from dataclasses import dataclass

import pytest

from clickpull import Record, Router
from fair.account import Row, State
from fair.cluster import Cluster
from fair.front import Front
from law import faults, while_all_have_jobs
from watched import Watch, WatchedClient, with_cluster

TREE = """physics :: Sender(0); biology :: Sender(1); guests :: Sender(2); a, b, c :: Queue(100);
shares :: DRRSched(200000, 100000, 100000); cluster :: ToDevice(dask);
physics -> a -> shares; biology -> b -> [1] shares; guests -> c -> [2] shares; shares -> cluster;"""
QUANTA = {"physics": 200_000, "biology": 100_000, "guests": 100_000}
CAPACITY, REFUSED, IN_FLIGHT, WORKERS = 100, 3, 6, 3

# At most 65,535, and so no larger than a quantum.
SIZES = (20_000, 65_535)


@dataclass
class Run:
    """What a run came to."""

    watch: Watch
    rows: list[Row]
    started: Counter[str]
    most_in_flight: int
    script: str


async def kill(cluster: Cluster, watch: Watch) -> None:
    """Kills a worker after a third of the jobs."""
    await watch.until_done(CAPACITY)
    cluster.kill_worker()


@pytest.fixture(scope="module")
def run(tmp_path_factory: pytest.TempPathFactory) -> Run:
    """A run of more jobs than queues can hold, over three workers, one of which is killed."""
    found: list[Run] = []

    async def body(cluster: Cluster, client: WatchedClient) -> None:
        record = Record()
        front = Front(client, TREE, IN_FLIGHT, record=record)
        watch = Watch(front, tmp_path_factory.mktemp("notes"))
        chance = random.Random(8)
        for _ in range(CAPACITY + REFUSED):
            for tenant in QUANTA:
                watch.submit(tenant, chance.randint(*SIZES), seconds=0.02)
        front.close()
        await asyncio.gather(front.run(), kill(cluster, watch))
        found.append(Run(watch, front.account.rows(), watch.started(), client.most, record.text().decode()))

    with_cluster(WORKERS, 3, body)
    return found[0]


def test_each_job_is_settled_once(run: Run) -> None:
    assert len(run.watch.outcomes) == len(QUANTA) * (CAPACITY + REFUSED)
    assert run.watch.states.keys() == run.watch.outcomes.keys()
    for token, states in run.watch.states.items():
        came_to = run.watch.came_to(token)
        assert states == {
            State.DONE: [State.WAITING, State.IN_FLIGHT, State.DONE],
            State.REFUSED: [State.WAITING, State.REFUSED],
            State.FAILED: [State.WAITING, State.IN_FLIGHT, State.FAILED],
        }[came_to]


def test_no_job_is_lost(run: Run) -> None:
    """All that were accepted are done, those of the worker that was killed too."""
    for row in run.rows:
        assert row.adds_up and row.submitted == CAPACITY + REFUSED
        assert {it: count for it, count in row.states.items() if count} == {State.DONE: CAPACITY, State.REFUSED: REFUSED}
    told = Counter(run.watch.came_to(it) for it in run.watch.outcomes)
    assert told == {State.DONE: len(QUANTA) * CAPACITY, State.REFUSED: len(QUANTA) * REFUSED}


def test_jobs_of_the_killed_worker_ran_again(run: Run) -> None:
    """Otherwise this run would show nothing."""
    again = {it for it, count in run.started.items() if count > 1}
    assert again and all(run.watch.came_to(it) is State.DONE for it in again)
    refused = {it for it in run.watch.outcomes if run.watch.came_to(it) is State.REFUSED}
    assert refused and not refused & run.started.keys()


def test_no_more_are_in_flight_than_said(run: Run) -> None:
    assert run.most_in_flight == IN_FLIGHT


def test_shares_are_within_the_proved_bound(run: Run) -> None:
    backlogged = while_all_have_jobs(run.watch.order, dict.fromkeys(QUANTA, CAPACITY))
    assert len(backlogged) > 2 * CAPACITY / max(QUANTA.values()) * min(QUANTA.values())
    assert list(faults(backlogged, QUANTA)) == []


def test_the_record_repeats_the_order(run: Run) -> None:
    """A router that is asked what the record has hands over the same jobs in the same order."""
    order: list[tuple[str, int]] = []
    names = dict(enumerate(QUANTA))
    with Router(TREE) as router:
        for line in run.script.splitlines():
            word, *numbers = line.split()
            if word == "send":
                router.offer(*map(int, numbers))
            elif packet := router.pull(*map(int, numbers)):
                order.append((names[packet.sender], packet.length))
    assert order == run.watch.order
