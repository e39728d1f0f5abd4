"""Tests of a front before a cluster that does what the test says. They stand outside what is proved."""
import asyncio
from collections.abc import Callable, Coroutine
from typing import Any

import pytest

from clickpull import BadLength, TextFault, UnknownSender
from fair.account import State
from fair.front import LOOK, Front, Refused, Stopped
from fakes import FakeClient, settle

PRIO = """first :: Sender(0); last :: Sender(1); p, q :: Queue(3); s :: PrioSched; d :: ToDevice(x);
first -> p -> s -> d; last -> q -> [1] s;"""
FRONT_DROP = "news :: Sender(0); q :: FrontDropQueue(2); d :: ToDevice(x); news -> q -> d;"


def same(value: int) -> int:
    return value


def fail() -> None:
    raise OSError("it fails")


def states(front: Front) -> dict[str, dict[State, int]]:
    """How many jobs of each tenant are in which state, without zeros."""
    assert all(it.adds_up for it in front.account.rows())
    return {it.tenant: {state: count for state, count in it.states.items() if count} for it in front.account.rows()}


def in_loop(body: Callable[[FakeClient], Coroutine[Any, Any, None]]) -> Callable[[], None]:
    """A test that runs in an event loop, with a client, for a limited time."""

    def test() -> None:
        asyncio.run(asyncio.wait_for(body(FakeClient()), 20))

    return test


@in_loop
async def test_the_tree_says_which_job_is_next(client: FakeClient) -> None:
    front = Front(client, PRIO, 1)
    outcomes = [front.submit(tenant, same, value, size=1) for tenant, value in (("last", 1), ("last", 2), ("first", 3), ("first", 4))]
    front.close()
    running = asyncio.create_task(front.run())
    await settle()
    for _ in outcomes:
        client.given[-1].finish()
        await settle()
    await running
    assert [it.arguments for it in client.given] == [(3,), (4,), (1,), (2,)]
    assert [it.result(0) for it in outcomes] == [1, 2, 3, 4]
    assert states(front) == {"first": {State.DONE: 2}, "last": {State.DONE: 2}} and not client.in_flight()


@in_loop
async def test_no_more_jobs_are_in_flight_than_said(client: FakeClient) -> None:
    front = Front(client, PRIO, 2)
    running = asyncio.create_task(front.run())
    for value in range(3):
        front.submit("last", same, value, size=1)
    await settle()
    assert len(client.in_flight()) == 2
    front.submit("first", same, 9, size=1)
    client.given[1].finish()
    await settle()
    assert len(client.in_flight()) == 2 and client.given[-1].arguments == (9,)
    front.close()
    while client.in_flight():
        assert len(client.in_flight()) <= 2
        client.in_flight()[0].finish()
        await settle()
    await running


@in_loop
async def test_a_full_queue_refuses_with_a_reason(client: FakeClient) -> None:
    front = Front(client, PRIO, 1)
    for _ in range(3):
        front.submit("last", same, 0, size=1)
    with pytest.raises(Refused, match="the queue of last is full: it has 3 jobs"):
        front.submit("last", same, 0, size=1)
    front.submit("first", same, 0, size=1)
    front.close()
    with pytest.raises(Refused, match="the front is closed"):
        front.submit("first", same, 0, size=1)
    assert states(front) == {"first": {State.WAITING: 1, State.REFUSED: 1}, "last": {State.WAITING: 3, State.REFUSED: 1}}


@in_loop
async def test_an_evicted_job_is_refused(client: FakeClient) -> None:
    front = Front(client, FRONT_DROP, 1)
    old, *others = [front.submit("news", same, value, size=1) for value in range(3)]
    with pytest.raises(Refused, match="the queue of news was full, and evicted it for a later job"):
        old.result(0)
    assert not any(it.done() for it in others) and states(front) == {"news": {State.WAITING: 2, State.REFUSED: 1}}


@in_loop
async def test_what_cannot_be_submitted_is_not_counted(client: FakeClient) -> None:
    front = Front(client, PRIO, 1)
    with pytest.raises(UnknownSender):
        front.submit("nobody", same, 0, size=1)
    for size in (0, 65_536):
        with pytest.raises(BadLength):
            front.submit("first", same, 0, size=size)
    assert states(front) == {"first": {}, "last": {}}


@in_loop
async def test_what_makes_no_front(client: FakeClient) -> None:
    for tree, in_flight in ((PRIO, 0), (PRIO + "t :: Sender(2); r :: Queue; e :: ToDevice(y); t -> r -> e;", 1)):
        with pytest.raises(ValueError):
            Front(client, tree, in_flight)
    with pytest.raises(TextFault):
        Front(client, "q :: Heap;", 1)


@in_loop
async def test_a_job_that_raises_fails(client: FakeClient) -> None:
    front = Front(client, PRIO, 1)
    outcome = front.submit("first", fail, size=1, retries=3)
    front.close()
    running = asyncio.create_task(front.run())
    await settle()
    assert client.given[0].retries == 3
    client.given[0].finish()
    await running
    with pytest.raises(OSError, match="it fails"):
        outcome.result(0)
    assert states(front)["first"] == {State.FAILED: 1} and client.given[0].released


@in_loop
async def test_a_run_that_is_cancelled_settles_all(client: FakeClient) -> None:
    front = Front(client, PRIO, 1)
    running = asyncio.create_task(front.run())
    outcomes = [front.submit("last", same, value, size=1) for value in range(2)]
    await settle()
    running.cancel()
    with pytest.raises(asyncio.CancelledError):
        await running
    assert [type(it.exception(0)) for it in outcomes] == [Stopped, Refused]
    assert states(front)["last"] == {State.FAILED: 1, State.REFUSED: 1} and front.closed and client.given[0].released


@in_loop
async def test_jobs_wait_while_the_scheduler_is_away(client: FakeClient) -> None:
    front = Front(client, PRIO, 1)
    running = asyncio.create_task(front.run())
    outcomes = [front.submit("last", same, value, size=1) for value in range(2)]
    await settle()
    client.status = "connecting"
    client.given[0].finish()
    await asyncio.sleep(3 * LOOK)
    assert len(client.given) == 1
    client.status = "running"
    await asyncio.sleep(3 * LOOK)
    client.given[1].finish()
    front.close()
    await running
    assert [it.result(0) for it in outcomes] == [0, 1]


@in_loop
async def test_a_lost_cluster_ends_the_run(client: FakeClient) -> None:
    front = Front(client, PRIO, 1)
    running = asyncio.create_task(front.run())
    outcomes = [front.submit("last", fail, size=1) for _ in range(2)]
    await settle()
    client.status = "closed"
    client.given[0].finish()
    with pytest.raises(Stopped, match="the connection to the cluster is lost"):
        await running
    assert [type(it.exception(0)) for it in outcomes] == [OSError, Refused] and len(client.given) == 1


@in_loop
async def test_a_client_that_closes_gets_no_job(client: FakeClient) -> None:
    front = Front(client, PRIO, 1)
    running = asyncio.create_task(front.run())
    await settle()
    client.status = "closing"
    outcome = front.submit("last", same, 0, size=1)
    with pytest.raises(Stopped, match="the connection to the cluster is lost"):
        await running
    assert isinstance(outcome.exception(0), Stopped) and not client.given and states(front)["last"] == {State.FAILED: 1}


@in_loop
async def test_a_job_cannot_be_withdrawn(client: FakeClient) -> None:
    outcome = Front(client, PRIO, 1).submit("first", same, 0, size=1)
    assert not outcome.cancel()
