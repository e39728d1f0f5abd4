"""Tests of `clickpull.Dispatcher` on one thread, by a clock that never sleeps. They stand outside what is proved."""
import asyncio
from queue import Empty
from threading import Lock

import pytest

from clickpull import (
    END_OF_MOMENTS,
    AtEnd,
    BadLength,
    Clock,
    Dispatcher,
    Ended,
    Error,
    Job,
    Shut,
    Submission,
    TextFault,
    UnknownDevice,
    UnknownSender,
)
from clickpull.clock import SECOND
from clocks import ManualClock

PRIO = """voice :: Sender(0); bulk :: Sender(1); p :: Queue(2); q :: FrontDropQueue(1); s :: PrioSched; d :: ToDevice(link);
voice -> p -> s -> d; bulk -> q -> [1] s;"""
SHAPED = "a :: Sender(0); q :: Queue(9); s :: Shaper(1); d :: ToDevice(link); a -> q -> s -> d;"
TWO = "a :: Sender(0); b :: Sender(1); p, q :: Queue(9); c, d :: ToDevice(link); a -> p -> c; b -> q -> d;"


def test_the_tree_says_which_job_is_next() -> None:
    with Dispatcher[str](PRIO) as dispatcher:
        dispatcher.submit(1, "page", 1500)
        dispatcher.submit(0, "word")
        assert dispatcher.left() == 2
        assert dispatcher.next() == Job(0, 0, 1, "word")
        assert dispatcher.next() == Job(1, 0, 1500, "page")


def test_what_becomes_of_a_job() -> None:
    dispatcher = Dispatcher[str](PRIO)
    first = dispatcher.submit(0, "first")
    assert first == Submission(Job(0, 0, 1, "first"), True, None) and first.lost is None
    dispatcher.submit(0, "second")
    third = dispatcher.submit(0, "third", 7)
    assert third == Submission(Job(0, 2, 7, "third"), False, None) and third.lost == third.job
    dispatcher.submit(1, "old", 20)
    new = dispatcher.submit(1, "new", 21)
    assert new == Submission(Job(1, 1, 21, "new"), True, Job(1, 0, 20, "old")) and new.lost == Job(1, 0, 20, "old")
    dispatcher.close()
    assert [it.value for it in dispatcher] == ["first", "second", "new"]


def test_what_cannot_be_submitted() -> None:
    dispatcher = Dispatcher[int](PRIO)
    with pytest.raises(UnknownSender):
        dispatcher.submit(2, 0)
    for size in (0, 65536, -1):
        with pytest.raises(BadLength):
            dispatcher.submit(0, 0, size)
    dispatcher.close()
    with pytest.raises(Shut):
        dispatcher.submit(0, 0)
    assert dispatcher.left() == 0 and not any(it.accepted.packets for it in dispatcher.router.accounts())


def test_what_cannot_be_made() -> None:
    with pytest.raises(TextFault):
        Dispatcher("q :: Heap;")
    for tick in (0, -1, 1e-10):
        with pytest.raises(ValueError):
            Dispatcher(PRIO, tick=tick)


def test_what_cannot_be_taken() -> None:
    dispatcher = Dispatcher[int](PRIO)
    with pytest.raises(ValueError):
        dispatcher.next(-1)
    for device in (-1, 1):
        with pytest.raises(UnknownDevice):
            dispatcher.next(0, device)


def test_a_timeout_raises_what_queues_raise() -> None:
    clock = ManualClock()
    dispatcher = Dispatcher[int](PRIO, clock=clock)
    with pytest.raises(Empty):
        dispatcher.next(0)
    assert clock.waits == []
    with pytest.raises(Empty):
        dispatcher.next(2.5)
    assert clock.waits == [2.5 * SECOND]


def test_a_job_comes_while_one_waits() -> None:
    clock = ManualClock()
    dispatcher = Dispatcher[str](PRIO, clock=clock)
    clock.meanwhile.append(lambda: dispatcher.submit(1, "job"))
    assert dispatcher.next().value == "job"
    assert clock.waits == [None]


def test_a_job_of_another_device_comes_while_one_waits() -> None:
    clock = ManualClock()
    dispatcher = Dispatcher[str](TWO, clock=clock)
    clock.meanwhile.append(lambda: dispatcher.submit(1, "job"))
    assert dispatcher.next(device=1).value == "job"
    assert clock.waits == [None]


def test_it_sleeps_until_a_shaper_lets_one_pass() -> None:
    clock = ManualClock()
    clock.time = 12345
    dispatcher = Dispatcher[int](SHAPED, tick=0.25, clock=clock)
    for value in range(3):
        dispatcher.submit(0, value)
    given = [(dispatcher.next().value, clock.time - 12345) for _ in range(3)]
    assert given == [(0, 0), (1, SECOND // 4), (2, SECOND // 2)]
    assert clock.waits == [SECOND // 4, SECOND // 4]
    dispatcher.submit(0, 3)
    with pytest.raises(Empty):
        dispatcher.next(0.1)
    assert dispatcher.next(0.15).value == 3


def test_a_long_job_waits_for_its_quanta_without_sleeping() -> None:
    clock = ManualClock()
    dispatcher = Dispatcher[str]("a :: Sender(0); q :: Queue(9); s :: DRRSched(10); d :: ToDevice(x); a -> q -> s -> d;", clock=clock)
    dispatcher.submit(0, "long", 45)
    assert dispatcher.next(0).value == "long"
    assert set(clock.waits) == {0} and clock.time == 0


def test_looking_for_a_job_changes_no_turn() -> None:
    """A pull that found nothing would take the deficit of the first input away, and then the second one would have its turn."""
    tree = """a :: Sender(0); b :: Sender(1); p, q :: Queue(9); s :: DRRSched(10); d :: ToDevice(x); a -> p -> s -> d; b -> q -> [1] s;"""
    dispatcher = Dispatcher[str](tree, clock=ManualClock())
    dispatcher.submit(0, "first", 5)
    assert dispatcher.next(0).value == "first"
    with pytest.raises(Empty):
        dispatcher.next(0)
    dispatcher.submit(1, "other", 5)
    dispatcher.submit(0, "second", 5)
    assert dispatcher.next(0).value == "second"


def test_each_device_has_jobs_of_its_own() -> None:
    dispatcher = Dispatcher[str](TWO)
    dispatcher.submit(0, "one")
    dispatcher.submit(1, "other")
    assert (dispatcher.left(0), dispatcher.left(1)) == (1, 1)
    assert dispatcher.next(device=1).value == "other"
    with pytest.raises(Empty):
        dispatcher.next(0, 1)
    dispatcher.close()
    assert [it.value for it in dispatcher.jobs(0)] == ["one"]
    assert [it.value for it in dispatcher.jobs(1)] == []


def test_a_closed_dispatcher_gives_what_is_inside() -> None:
    clock = ManualClock()
    with Dispatcher[int](SHAPED, tick=1, clock=clock) as dispatcher:
        dispatcher.submit(0, 1)
        dispatcher.submit(0, 2)
        assert not dispatcher.closed
    assert dispatcher.closed
    dispatcher.close()
    assert [it.value for it in dispatcher] == [1, 2]
    assert clock.waits == [SECOND]
    with pytest.raises(Ended) as raised:
        dispatcher.next()
    assert isinstance(raised.value, Shut) and isinstance(raised.value, Error)


def test_closing_ends_a_wait() -> None:
    clock = ManualClock()
    dispatcher = Dispatcher[int](PRIO, clock=clock)
    clock.meanwhile.append(dispatcher.close)
    with pytest.raises(Ended):
        dispatcher.next()
    assert list(dispatcher) == []


def test_closing_ends_a_wait_for_another_device() -> None:
    clock = ManualClock()
    dispatcher = Dispatcher[int](TWO, clock=clock)
    clock.meanwhile.append(dispatcher.close)
    with pytest.raises(Ended):
        dispatcher.next(device=1)
    assert clock.waits == [None] and list(dispatcher.jobs(1)) == []


@pytest.mark.parametrize("tick", [1e-9, 1e-6, 1e-3])
def test_moments_end(tick: float) -> None:
    """After the last one no job is accepted, since none could be taken. An empty dispatcher still ends."""
    clock = ManualClock()
    left, empty = (Dispatcher[int](SHAPED, tick=tick, clock=clock) for _ in range(2))
    clock.time = (END_OF_MOMENTS - 1) * round(tick * SECOND)
    assert left.submit(0, 1).accepted and left.submit(0, 2).accepted
    assert left.next(0).value == 1
    clock.time += round(tick * SECOND)
    for dispatcher in (left, empty):
        with pytest.raises(AtEnd):
            dispatcher.submit(0, 3)
        dispatcher.close()
    with pytest.raises(AtEnd):
        left.next(0)
    assert left.left() == 1 and list(empty) == []


def test_a_very_long_wait_ends_when_it_is_woken() -> None:
    """Longer than the machine can wait."""
    woken = Lock()
    Clock().wait(woken, 1 << 100)
    assert woken.locked()

    async def wait() -> None:
        event = asyncio.Event()
        asyncio.get_running_loop().call_soon(event.set)
        await Clock().wait_async(event, 1 << 100)

    asyncio.run(wait())


def test_a_wait_by_the_real_clock_ends() -> None:
    with pytest.raises(Empty):
        Dispatcher[int](PRIO).next(0.001)
