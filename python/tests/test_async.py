"""Tests of `clickpull.Dispatcher` with asyncio: tasks wait, are cancelled, and lose nothing. They stand outside what is proved."""
import asyncio
import random
from collections.abc import Coroutine, Iterator
from concurrent.futures import ThreadPoolExecutor
from contextlib import suppress
from queue import SimpleQueue
from threading import Lock, Thread
from typing import Any

import pytest

from clickpull import Clock, Dispatcher, Ended, Job, UnknownDevice
from clickpull.clock import SECOND
from clocks import ManualClock

ONE = "a :: Sender(0); q :: Queue(100000); d :: ToDevice(x); a -> q -> d;"
SHAPED = "a :: Sender(0); q :: Queue(9); s :: Shaper(1); d :: ToDevice(x); a -> q -> s -> d;"
LONG = "a :: Sender(0); q :: Queue(9); s :: DRRSched(10); d :: ToDevice(x); a -> q -> s -> d;"
TWO = "a :: Sender(0); b :: Sender(1); p, q :: Queue(9); c, d :: ToDevice(x); a -> p -> c; b -> q -> d;"

# How many seconds a test waits before it says that a task sleeps through a job.
PATIENCE = 60


def run(test: Coroutine[Any, Any, None]) -> None:
    """Runs a test in a loop, for a limited time."""
    asyncio.run(asyncio.wait_for(test, PATIENCE))


def test_a_job_comes_while_a_task_waits() -> None:
    async def test() -> None:
        clock = ManualClock()
        dispatcher = Dispatcher[str](ONE, clock=clock)
        clock.meanwhile.append(lambda: dispatcher.submit(0, "job"))
        assert await dispatcher.next_async() == Job(0, 0, 1, "job")
        assert clock.waits == [None]
        with pytest.raises(UnknownDevice):
            await dispatcher.next_async(1)

    run(test())


def test_a_task_waits_for_another_device() -> None:
    async def test() -> None:
        clock = ManualClock()
        dispatcher = Dispatcher[str](TWO, clock=clock)
        clock.meanwhile.append(lambda: dispatcher.submit(1, "job"))
        assert await dispatcher.next_async(1) == Job(1, 0, 1, "job")
        clock.meanwhile.append(dispatcher.close)
        with pytest.raises(Ended):
            await dispatcher.next_async(1)
        assert clock.waits == [None, None]

    run(test())


def test_a_task_takes_the_jobs_of_another_device() -> None:
    async def test() -> None:
        dispatcher = Dispatcher[str](TWO, clock=ManualClock())
        for sender, value in [(0, "other"), (1, "first"), (1, "second")]:
            dispatcher.submit(sender, value)
        dispatcher.close()
        assert [it.value async for it in dispatcher.jobs_async(1)] == ["first", "second"]
        assert dispatcher.left(0) == 1 and dispatcher.left(1) == 0

    run(test())


def test_a_task_sleeps_until_a_shaper_lets_one_pass() -> None:
    async def test() -> None:
        clock = ManualClock()
        dispatcher = Dispatcher[int](SHAPED, tick=1, clock=clock)
        for value in range(3):
            dispatcher.submit(0, value)
        dispatcher.close()
        assert [(it.value, clock.time) async for it in dispatcher] == [(0, 0), (1, SECOND), (2, 2 * SECOND)]
        with pytest.raises(Ended):
            await dispatcher.next_async()

    run(test())


def test_a_task_sleeps_by_the_real_clock() -> None:
    async def test() -> None:
        dispatcher = Dispatcher[int](SHAPED, tick=0.001)
        for value in range(5):
            dispatcher.submit(0, value)
        dispatcher.close()
        assert [it.value async for it in dispatcher] == list(range(5))

    run(test())


def test_a_long_job_waits_for_its_quanta() -> None:
    async def test() -> None:
        clock = ManualClock()
        dispatcher = Dispatcher[str](LONG, clock=clock)
        dispatcher.submit(0, "long", 45)
        assert (await dispatcher.next_async()).value == "long"
        assert set(clock.waits) == {0}

    run(test())


def test_a_wait_for_a_limited_time() -> None:
    async def test() -> None:
        dispatcher = Dispatcher[int](ONE)
        with pytest.raises(asyncio.TimeoutError):
            await asyncio.wait_for(dispatcher.next_async(), 0.001)
        dispatcher.submit(0, 1)
        assert (await asyncio.wait_for(dispatcher.next_async(), 1)).value == 1

    run(test())


def test_a_thread_wakes_a_loop_that_sleeps() -> None:
    """Nothing but the job of another thread wakes the loop, again and again."""
    rounds = 500
    dispatcher = Dispatcher[int](ONE)
    taken: SimpleQueue[int] = SimpleQueue()

    def submit() -> None:
        for value in range(rounds):
            dispatcher.submit(0, value)
            assert taken.get(timeout=PATIENCE) == value
        dispatcher.close()

    async def test() -> None:
        thread = Thread(target=submit)
        thread.start()
        async for job in dispatcher:
            taken.put(job.value)
        thread.join()

    run(test())


def test_tasks_and_threads_take_from_one_dispatcher() -> None:
    """Threads submit, and tasks and threads take. Each job is taken once."""
    count = 8000
    dispatcher = Dispatcher[int](ONE)

    def submit(first: int) -> None:
        for value in range(first, count, 4):
            assert dispatcher.submit(0, value).accepted

    def take() -> list[int]:
        return [it.value for it in dispatcher]

    async def take_async() -> list[int]:
        return [it.value async for it in dispatcher]

    async def test() -> None:
        loop = asyncio.get_running_loop()
        with ThreadPoolExecutor(5) as pool:
            takers = [asyncio.create_task(take_async()) for _ in range(3)]
            thread = loop.run_in_executor(pool, take)
            await asyncio.gather(*(loop.run_in_executor(pool, submit, it) for it in range(4)))
            dispatcher.close()
            taken = [*await asyncio.gather(*takers), await thread]
        assert sorted(it for some in taken for it in some) == list(range(count))

    run(test())


def test_cancelled_waits_lose_nothing() -> None:
    """Tasks are cancelled while they wait, just after they were woken, and at any time between. Each job is taken once, and none is left."""
    chance = random.Random(1)
    count = 5000
    dispatcher = Dispatcher[int](ONE)
    given: list[int] = []

    async def take() -> None:
        given.append((await dispatcher.next_async()).value)

    async def test() -> None:
        tasks: list[asyncio.Task[None]] = []
        for value in range(count):
            tasks += [asyncio.create_task(take()) for _ in range(chance.randrange(3))]
            if chance.random() < 0.5:
                await asyncio.sleep(0)
            dispatcher.submit(0, value)
            if chance.random() < 0.5:
                await asyncio.sleep(0)
            if tasks and chance.random() < 0.5:
                tasks.pop(chance.randrange(len(tasks))).cancel()
        dispatcher.close()
        given.extend([it.value async for it in dispatcher])
        for it in tasks:
            with suppress(Ended):
                await it

    run(test())
    assert sorted(given) == list(range(count))


class VirtualClock(Clock):
    """Its time passes when a test says, and tasks sleep until then."""

    def __init__(self) -> None:
        self.time = 0
        self.sleepers: dict[asyncio.Event, int] = {}
        """When each event is set by the clock."""

    def now(self) -> int:
        return self.time

    async def wait_async(self, woken: asyncio.Event, nanoseconds: int | None) -> None:
        if nanoseconds == 0:
            return await asyncio.sleep(0)
        if nanoseconds is not None:
            self.sleepers[woken] = self.time + nanoseconds
        try:
            await woken.wait()
        finally:
            self.sleepers.pop(woken, None)

    def pass_time(self, nanoseconds: int) -> None:
        self.time += nanoseconds
        for woken in [it for it, ends in self.sleepers.items() if ends <= self.time]:
            woken.set()


class Crowd:
    """Tasks that take from a device of one dispatcher, and come and go. Whenever all are quiet, one of them watches for the next job."""

    def __init__(self, tree: str, device: int, chance: random.Random) -> None:
        self.device, self.chance, self.clock = device, chance, VirtualClock()
        self.dispatcher = Dispatcher[int](tree, tick=1, clock=self.clock)
        queues = self.dispatcher.router.queues()
        self.senders = [it.sender for it in self.dispatcher.router.accounts() if queues[it.queue].device == device]
        self.tasks: list[asyncio.Task[None]] = []
        self.given: list[int] = []
        self.accepted = 0

    async def take(self) -> None:
        with suppress(Ended):
            self.given.append((await self.dispatcher.next_async(self.device)).value)

    def act(self) -> None:
        """Does something by chance."""
        chance, kind = self.chance, self.chance.random()
        if kind < 0.4 and len(self.tasks) < 12:
            self.tasks.append(asyncio.create_task(self.take()))
        elif kind < 0.8:
            self.accepted += self.dispatcher.submit(chance.choice(self.senders), self.accepted, chance.choice([1, 40, 1500])).accepted
        elif self.tasks and kind < 0.9:
            chance.choice(self.tasks).cancel()
        else:
            self.clock.pass_time(chance.choice([SECOND // 2, SECOND, 3 * SECOND]))

    async def settle(self) -> None:
        """Lets tasks run until they are quiet, and looks whether one sleeps through a job."""
        for _ in range(20 + 8 * len(self.tasks)):
            await asyncio.sleep(0)
        self.tasks = [it for it in self.tasks if not it.done()]
        due = self.dispatcher.router.due(self.device)
        if due is not None and self.tasks:
            assert min(self.clock.sleepers.values(), default=None) == due * SECOND > self.clock.time
        assert sum(map(len, self.dispatcher._lines[self.device].values())) == len(self.tasks)

    async def end(self) -> None:
        """Closes the dispatcher while more tasks wait than jobs are left. Each job is given once, and all tasks end."""
        self.tasks += [asyncio.create_task(self.take()) for _ in range(self.dispatcher.left(self.device) + 3)]
        await self.settle()
        self.dispatcher.close()
        await self.settle()
        while self.dispatcher.left(self.device):
            self.clock.pass_time(SECOND)
            await self.settle()
        assert not self.tasks and sorted(self.given) == list(range(self.accepted))


SEVERAL = """a :: Sender(0); b :: Sender(1); c :: Sender(2); p, q, r :: Queue(1000); s :: Shaper(1); t :: Shaper(2, 3); top :: DRRSched(500);
d :: ToDevice(x); a -> p -> s -> top -> d; b -> q -> [1] top; c -> r -> t -> [2] top;"""


# Before it another device is declared, so that its own device is 1.
OTHER = "z :: Sender(9); o :: Queue(9); e :: ToDevice(y); z -> o -> e; "


@pytest.mark.parametrize("tree, device", [(SHAPED.replace("9", "1000"), 0), (SEVERAL, 0), (OTHER + SEVERAL, 1)], ids=["shaped", "several", "two"])
def test_somebody_always_watches(tree: str, device: int) -> None:
    """Tasks come, go, and are cancelled. Whenever all are quiet, no job is due, and one sleeps just until the next job is."""

    async def test() -> None:
        for seed in range(30):
            chance = random.Random(seed)
            crowd = Crowd(tree, device, chance)
            for _ in range(60):
                for _ in range(chance.choice([1, 1, 2, 5])):
                    crowd.act()
                await crowd.settle()
            await crowd.end()

    run(test())


def test_a_cancelled_wait_wakes_the_next() -> None:
    """A task that was woken is cancelled before it runs. So the other one has to be woken."""

    async def test() -> None:
        dispatcher = Dispatcher[str](ONE)
        first, second = (asyncio.create_task(dispatcher.next_async()) for _ in range(2))
        await asyncio.sleep(0)
        dispatcher.submit(0, "job")
        first.cancel()
        assert (await second).value == "job"
        with pytest.raises(asyncio.CancelledError):
            await first

    run(test())


class Submitting(ManualClock):
    """Submits a job when a thread waits, unless one is left. Tasks sleep until they are woken."""

    dispatcher: Dispatcher[str]

    def wait(self, woken: Lock, nanoseconds: int | None) -> None:
        if not self.dispatcher.left():
            self.dispatcher.submit(0, "job")
        super().wait(woken, nanoseconds)

    async def wait_async(self, woken: asyncio.Event, nanoseconds: int | None) -> None:
        await woken.wait()


def submitting(tree: str) -> Dispatcher[str]:
    """A dispatcher with such a clock, whose ticks take a second."""
    clock = Submitting()
    clock.dispatcher = Dispatcher[str](tree, tick=1, clock=clock)
    return clock.dispatcher


def test_a_task_whose_loop_is_closed_is_passed_over() -> None:
    """A loop is closed while a task of it waits. A job then wakes the thread that came after it."""
    dispatcher = submitting(ONE)
    loop = asyncio.new_event_loop()
    waiting = dispatcher.next_async()
    loop.create_task(waiting)._log_destroy_pending = False  # type: ignore[attr-defined]
    loop.run_until_complete(asyncio.sleep(0))
    loop.close()
    assert dispatcher.next().value == "job"
    assert loop not in dispatcher._lines[0]
    waiting.close()


@pytest.fixture
def stopped() -> Iterator[asyncio.AbstractEventLoop]:
    """A loop that runs only where a test says."""
    loop = asyncio.new_event_loop()
    yield loop
    loop.close()


def test_a_task_whose_loop_is_stopped_keeps_no_thread_waiting(stopped: asyncio.AbstractEventLoop) -> None:
    """A loop is stopped while a task of it waits. A job then wakes the thread that came after it, and the task looks when its loop runs."""
    dispatcher = submitting(ONE)
    waiting = stopped.create_task(dispatcher.next_async())
    stopped.run_until_complete(asyncio.sleep(0))
    assert dispatcher.next().value == "job"
    dispatcher.submit(0, "next")
    assert stopped.run_until_complete(waiting).value == "next"


def test_a_task_whose_loop_is_stopped_keeps_no_other_loop_waiting(stopped: asyncio.AbstractEventLoop) -> None:
    dispatcher = submitting(ONE)
    waiting = stopped.create_task(dispatcher.next_async())
    stopped.run_until_complete(asyncio.sleep(0))

    async def test() -> None:
        other = asyncio.create_task(dispatcher.next_async())
        await asyncio.sleep(0)
        dispatcher.submit(0, "job")
        assert (await other).value == "job"

    run(test())
    dispatcher.close()
    with pytest.raises(Ended):
        stopped.run_until_complete(waiting)


def test_a_thread_watches_though_a_task_came_first(stopped: asyncio.AbstractEventLoop) -> None:
    """A task waits for the next tick of a Shaper, and its loop is stopped. The thread that came after it wakes at that tick by itself."""
    dispatcher = submitting(SHAPED)
    for value in ("first", "second", "third"):
        dispatcher.submit(0, value)
    assert dispatcher.next(0).value == "first"
    waiting = stopped.create_task(dispatcher.next_async())
    stopped.run_until_complete(asyncio.sleep(0))
    assert dispatcher.next().value == "second"
    dispatcher.close()
    assert dispatcher.next().value == "third"
    with pytest.raises(Ended):
        stopped.run_until_complete(waiting)


def test_a_task_whose_loop_is_blocked_keeps_no_thread_waiting() -> None:
    async def test() -> None:
        dispatcher = submitting(ONE)
        waiting = asyncio.create_task(dispatcher.next_async())
        await asyncio.sleep(0)
        with ThreadPoolExecutor(1) as pool:
            assert pool.submit(dispatcher.next).result(PATIENCE).value == "job"
        dispatcher.submit(0, "next")
        assert (await waiting).value == "next"

    run(test())
