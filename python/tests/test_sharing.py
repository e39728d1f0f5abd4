"""Tests of `clickpull.Dispatcher` with threads and interrupts: nobody sleeps through a job, and none is lost. They stand outside what is proved."""
import random
import sys
from collections.abc import Callable, Iterator
from concurrent.futures import Future, ThreadPoolExecutor
from contextlib import contextmanager, suppress
from functools import partial
from queue import Empty, SimpleQueue
from threading import Lock
from time import sleep

import pytest

import interrupts
from clickpull import Clock, Dispatcher, Ended, Job, Record
from clocks import ManualClock
from replay import emitted

SENDERS = 4
ROOM_1 = """a :: Sender(0); b :: Sender(1); c :: Sender(2); e :: Sender(3); p, q, r, t :: Queue(1); s :: RoundRobinSched; d :: ToDevice(x);
a -> p -> s -> d; b -> q -> [1] s; c -> r -> [2] s; e -> t -> [3] s;"""
SHARED = """a :: Sender(0); b :: Sender(1); c :: Sender(2); e :: Sender(3); p :: Queue(1); q :: FrontDropQueue(1); s :: PrioSched; d :: ToDevice(x);
a -> p -> s -> d; b -> p; c -> q -> [1] s; e -> q;"""
SHAPED = "a :: Sender(0); q :: Queue(1000); s :: Shaper(1); d :: ToDevice(x); a -> q -> s -> d;"
ONE = "a :: Sender(0); q :: Queue(100000); d :: ToDevice(x); a -> q -> d;"
SECOND_OF_TWO = "a :: Sender(0); b :: Sender(1); p, q :: Queue(9); c, d :: ToDevice(x); b -> p -> c; a -> q -> d;"

# How many seconds a test waits for threads before it says that one sleeps through a job.
PATIENCE = 60


@contextmanager
def switching() -> Iterator[None]:
    """Has threads switch as often as they can."""
    before = sys.getswitchinterval()
    sys.setswitchinterval(1e-6)
    try:
        yield
    finally:
        sys.setswitchinterval(before)


def results(futures: list[Future[list[int]]]) -> list[int]:
    """What the threads return, all together."""
    return [it for future in futures for it in future.result(PATIENCE)]


def test_each_job_wakes_a_taker() -> None:
    """Each sender submits its next job once the one before was taken. So the takers sleep again and again, and no wake-up may be lost."""
    rounds = 2000
    dispatcher = Dispatcher[tuple[int, int]](ROOM_1)
    taken: list[SimpleQueue[int]] = [SimpleQueue() for _ in range(SENDERS)]

    def submit(sender: int) -> list[int]:
        for value in range(rounds):
            assert dispatcher.submit(sender, (sender, value)).accepted
            assert taken[sender].get(timeout=PATIENCE) == value
        return []

    def take() -> list[int]:
        done = 0
        for it in dispatcher:
            done += 1
            taken[it.sender].put(it.value[1])
        return [done]

    with switching(), ThreadPoolExecutor(SENDERS + 2) as pool:
        takers = [pool.submit(take) for _ in range(2)]
        results([pool.submit(submit, it) for it in range(SENDERS)])
        dispatcher.close()
        assert sum(results(takers)) == SENDERS * rounds


@pytest.mark.parametrize("tree", [ROOM_1, SHARED])
def test_each_job_has_one_end(tree: str) -> None:
    """Senders submit as fast as they can. Each value is taken, refused or evicted, once, and those of a sender are taken in order."""
    count = 3000
    dispatcher = Dispatcher[int](tree)

    def submit(sender: int) -> list[int]:
        submissions = [dispatcher.submit(sender, value) for value in range(sender, SENDERS * count, SENDERS)]
        return [it.lost.value for it in submissions if it.lost]

    def take() -> list[int]:
        values = [it.value for it in dispatcher]
        for sender in range(SENDERS):
            own = [it for it in values if it % SENDERS == sender]
            assert own == sorted(own)
        return values

    with switching(), ThreadPoolExecutor(SENDERS + 2) as pool:
        takers = [pool.submit(take) for _ in range(2)]
        lost = results([pool.submit(submit, it) for it in range(SENDERS)])
        dispatcher.close()
        assert sorted(lost + results(takers)) == list(range(SENDERS * count))


def test_takers_share_a_shaper() -> None:
    """Three takers wait for the ticks of one Shaper, by the real clock, and each job is taken, also those that wait when it is closed."""
    dispatcher = Dispatcher[int](SHAPED, tick=0.0001)

    def take() -> list[int]:
        return [it.value for it in dispatcher]

    with ThreadPoolExecutor(3) as pool:
        takers = [pool.submit(take) for _ in range(3)]
        for value in range(500):
            assert dispatcher.submit(0, value).accepted
        dispatcher.close()
        assert sorted(results(takers)) == list(range(500))


def test_closing_wakes_all() -> None:
    dispatcher = Dispatcher[int](ONE)

    def take() -> list[int]:
        with pytest.raises(Ended):
            dispatcher.next()
        return [1]

    with ThreadPoolExecutor(8) as pool:
        takers = [pool.submit(take) for _ in range(8)]
        dispatcher.close()
        assert results(takers) == [1] * 8


def test_who_is_interrupted_while_it_waits_leaves_the_line() -> None:
    clock = ManualClock()
    dispatcher = Dispatcher[str](ONE, clock=clock)
    clock.meanwhile.append(interrupts.interrupt)
    with pytest.raises(KeyboardInterrupt):
        dispatcher.next()
    assert not dispatcher._lines[0]


class GivingUp(Clock):
    """The first wait that is woken ends with an interrupt."""

    has_ended = False

    def wait(self, woken: Lock, nanoseconds: int | None) -> None:
        super().wait(woken, nanoseconds)
        if not self.has_ended:
            self.has_ended = True
            raise KeyboardInterrupt


@pytest.mark.parametrize("tree, device", [(ONE, 0), (SECOND_OF_TWO, 1)], ids=["one", "two"])
def test_who_gives_up_wakes_the_next(tree: str, device: int) -> None:
    """The first in line is woken for a job, and its wait ends with an error. So the second in line is woken."""
    dispatcher = Dispatcher[str](tree, clock=GivingUp())

    def waiting(count: int) -> Future[Job[str]]:
        """Has a thread wait, after which so many stand in line."""
        future = pool.submit(dispatcher.next, None, device)
        while sum(map(len, dispatcher._lines[device].values())) < count:
            sleep(0.001)
        return future

    # Closing lets those go that still sleep if the test fails.
    with ThreadPoolExecutor(2) as pool, dispatcher:
        first, second = waiting(1), waiting(2)
        dispatcher.submit(0, "job")
        with pytest.raises(KeyboardInterrupt):
            first.result(PATIENCE)
        assert second.result(PATIENCE).value == "job"


def test_an_interrupted_submit_wakes_a_taker() -> None:
    """While one waits, a submit is interrupted at any bytecode. If the job was submitted, the one that waits is woken for it."""
    for at in interrupts.each(interrupts.interrupt):
        clock = ManualClock()
        dispatcher = Dispatcher[str](ONE, clock=clock)

        def submit() -> None:
            with suppress(KeyboardInterrupt), at:
                dispatcher.submit(0, "job")
            if not dispatcher.left():
                dispatcher.submit(0, "job")

        clock.meanwhile.append(submit)
        assert dispatcher.next().value == "job" and clock.waits == [None]


def test_a_job_that_an_interrupted_next_pulled_is_left() -> None:
    """Wherever a signal comes, the job is left, and comes next."""
    for at in interrupts.each(interrupts.interrupt, interrupts.where_signals_come):
        dispatcher = Dispatcher[str](ONE)
        dispatcher.submit(0, "job")
        try:
            with at:
                job = dispatcher.next(0)
        except KeyboardInterrupt:
            assert dispatcher.left() == 1
            job = dispatcher.next(0)
        assert job.value == "job" and dispatcher.left() == 0


class Tried:
    """A dispatcher whose calls may be interrupted. In the end each job that was accepted was given once, or evicted."""

    def __init__(self) -> None:
        self.clock = ManualClock()
        self.dispatcher = Dispatcher[int](SHARED, clock=self.clock)
        self.given: list[tuple[int, int]] = []
        self.values: dict[tuple[int, int], int] = {}
        self.value = 0

    def submit(self, sender: int) -> None:
        self.value += 1
        # By its size a test knows whether a job has its own value.
        self.dispatcher.submit(sender, self.value, self.value)

    def take(self) -> None:
        self.note(self.dispatcher.next(0))

    def wait(self) -> None:
        """Waits for a job that comes meanwhile."""
        self.clock.meanwhile.append(partial(self.submit, 0))
        job = self.dispatcher.next(1)
        self.clock.meanwhile.clear()
        self.note(job)

    def note(self, job: Job[int]) -> None:
        assert job.value == job.size
        self.given.append((job.sender, job.number))

    def end(self) -> None:
        with suppress(Empty):
            while True:
                self.take()
        assert len(set(self.given)) == len(self.given)
        accounts = self.dispatcher.router.accounts()
        assert len(self.given) == sum(it.accepted.packets - it.evicted.packets for it in accounts)
        assert self.dispatcher.left() == 0 and not any(self.dispatcher._lines)
        # It goes on, and a taker is woken.
        self.clock.meanwhile.clear()
        self.wait()
        self.dispatcher.close()
        with pytest.raises(Ended):
            self.dispatcher.next()


def test_an_interrupt_wherever_signals_come() -> None:
    """Each call is interrupted at each place at which Python lets a signal's handler run. No job is lost, and none comes twice."""
    for at in interrupts.each(interrupts.interrupt, interrupts.where_signals_come):
        tried = Tried()
        calls: list[Callable[[], None]] = [partial(tried.submit, it) for it in (0, 1, 2, 3, 3)]
        calls += [tried.take, tried.take, tried.wait, partial(tried.submit, 2), tried.take]
        with at:
            for call in calls:
                with suppress(KeyboardInterrupt, Empty):
                    call()
        tried.end()


def test_an_interrupted_close_wakes_a_taker() -> None:
    """While one waits, closing is interrupted at any bytecode. If it closed the dispatcher, the one that waits is woken to end."""
    for at in interrupts.each(interrupts.interrupt):
        clock = ManualClock()
        dispatcher = Dispatcher[str](ONE, clock=clock)

        def close() -> None:
            with suppress(KeyboardInterrupt), at:
                dispatcher.close()
            if not dispatcher.closed:
                dispatcher.close()

        clock.meanwhile.append(close)
        with pytest.raises(Ended):
            dispatcher.next()
        assert list(dispatcher) == []


def test_many_interrupts_by_a_timer() -> None:
    """One thread is interrupted again and again while it submits and takes. Two others take as well, and wait for what it submits. The record
    has it all."""
    record = Record()
    dispatcher = Dispatcher[int](ONE, record=record)
    given: list[int] = []
    chance = random.Random(1)
    interrupted = 0

    def take() -> list[int]:
        return [it.value for it in dispatcher]

    def submit_and_take(after: Callable[[float], None]) -> None:
        nonlocal interrupted
        for value in range(50_000):
            after(chance.uniform(1e-6, 60e-6))
            try:
                dispatcher.submit(0, value)
                with suppress(Empty):
                    given.append(dispatcher.next(chance.choice([0, 0, 1e-5])).value)
            except KeyboardInterrupt:
                interrupted += 1

    with ThreadPoolExecutor(2) as pool, interrupts.timer(in_module=True) as after:
        takers = [pool.submit(take) for _ in range(2)]
        submit_and_take(after)
        after(0)
        dispatcher.close()
        given += results(takers)
    accounts = dispatcher.router.accounts()
    accepted = sum(it.accepted.packets for it in accounts)
    assert len(given) == len(set(given)) == accepted and interrupted > 100
    assert len(list(emitted(ONE, record.text().decode()))) == accepted
    assert record.text().count(b"send") == accepted + sum(it.refused.packets for it in accounts)
