"""Tests of `clickpull.Record`, and of dispatchers that have one. They stand outside what is proved."""
import copy
import pickle
import random
import re
from collections.abc import Callable
from concurrent.futures import ThreadPoolExecutor
from contextlib import suppress
from functools import partial
from operator import methodcaller
from pathlib import Path
from queue import Empty
from typing import Any

import pytest

import interrupts
from clickpull import AtEnd, BadLength, Dispatcher, Packet, Record, Router, UnknownDevice, UnknownSender
from clickpull import record as module
from clickpull.clock import SECOND
from clocks import ManualClock
from replay import emitted

TREE = """a :: Sender(0); b :: Sender(1); p :: Queue(2); q :: FrontDropQueue(1); s :: DRRSched(500); d :: ToDevice(link);
a -> p -> s -> d; b -> q -> [1] s;"""
ONE = "a :: Sender(0); q :: Queue(99); d :: ToDevice(link); a -> q -> d;"


def test_lines_are_added_in_order() -> None:
    record = Record()
    assert (record.text(), record.lines) == (b"", 0)
    record.send(Packet(3, 7, 1500))
    record.pulls(0, 5)
    record.pulls(2, 9, 2)
    record.pulls(2, 9, 0)
    record.drain()
    assert (record.text(), record.lines) == (b"send 3 1500\npull 5\npull 9 2\npull 9 2\ndrain 0\n", 5)
    record.clear()
    assert (record.text(), record.lines) == (b"", 5)
    record.drain(8)
    assert (record.text(), record.lines) == (b"drain 8\n", 6)


def test_a_long_record_grows() -> None:
    record, lines = Record(), 3000
    for number in range(lines):
        record.send(Packet(number, number, 65_535))
    assert record.text() == b"".join(b"send %d 65535\n" % it for it in range(lines))
    record.pulls(65_535, module.END_OF_RECORDED_MOMENTS - 1, 100_000)
    assert record.text().endswith(b"65535\n" + 100_000 * b"pull 1099511627775 65535\n") and record.lines == lines + 100_000


def pickled(record: Record) -> Record:
    """A copy that went through `pickle`."""
    it = pickle.loads(pickle.dumps(record))
    assert isinstance(it, Record)
    return it


@pytest.mark.parametrize("copied", [copy.copy, copy.deepcopy, pickled])
@pytest.mark.parametrize("lines", [0, 3, 3000])
def test_a_copy_is_a_record_of_its_own(copied: Callable[[Record], Record], lines: int) -> None:
    record = Record()
    record.drain(8)
    record.clear()
    record.pulls(7, 7, lines)
    it, text = copied(record), lines * b"pull 7 7\n"
    record.pulls(0, 9, 3000)
    assert (it.text(), it.lines) == (text, lines + 1)
    it.drain()
    assert (it.text(), it.lines) == (text + b"drain 0\n", lines + 2)
    assert (record.text(), record.lines) == (text + 3000 * b"pull 9\n", lines + 3001)


WRONG: list[tuple[type[Exception], methodcaller]] = [
    *((UnknownSender, methodcaller("send", Packet(it, 0, 1))) for it in (-1, 65_536)),
    *((BadLength, methodcaller("send", Packet(0, 0, it))) for it in (-1, 0, 65_536)),
    *((UnknownDevice, methodcaller("pulls", it, 0)) for it in (-1, 65_536)),
    *((ValueError, methodcaller("pulls", 0, 0, it)) for it in (-1, 1 << 64)),
    *((AtEnd, methodcaller("pulls", 0, 0, it)) for it in (1_000_000, (1 << 64) - 1)),
    *((AtEnd, methodcaller("pulls", 0, it)) for it in (-1, 1 << 40, 1 << 44, 1 << 64)),
    *((AtEnd, methodcaller("drain", it)) for it in (-1, 1 << 40, 1 << 44, 1 << 64)),
]


@pytest.mark.parametrize("error, call", WRONG)
def test_what_cannot_be_added(error: type[Exception], call: methodcaller) -> None:
    record = Record()
    record.drain((1 << 40) - 1)
    with pytest.raises(error):
        call(record)
    assert (record.text(), record.lines) == (b"drain 1099511627775\n", 1)


def test_lines_have_an_end() -> None:
    record = Record()
    for _ in range(4):
        record.pulls(0, 7, module.MOST_LINES // 4)
        record.clear()
    calls: list[Callable[[], None]] = [partial(record.send, Packet(0, 0, 1)), partial(record.pulls, 0, 0), record.drain]
    for call in calls:
        with pytest.raises(AtEnd):
            call()
    assert (record.text(), record.lines) == (b"", 1_000_000)


def test_limits_are_those_of_the_header() -> None:
    header = (Path(__file__).resolve().parents[2] / "include" / "clickpull.h").read_text()
    numbers = dict(re.findall(r"#define CLK_(\w+) \(?(?:UINT64_C\(1\) << )?(\d+)\)?", header))
    assert module.MOST_LINE == int(numbers["MOST_LINE"]) and module.MOST_LINES == int(numbers["MOST_LINES"])
    assert module.END_OF_RECORDED_MOMENTS == 1 << int(numbers["END_OF_RECORDED_MOMENTS"])


def test_threads_may_share_a_record() -> None:
    """Each line is whole, and none is lost, also where the text grows."""
    record, threads, lines = Record(), 4, 5000

    def add_all(device: int) -> None:
        for moment in range(lines):
            record.pulls(device, moment)

    with ThreadPoolExecutor(threads) as pool:
        list(pool.map(add_all, range(1, threads + 1)))
    found = record.text().decode().splitlines()
    assert record.lines == len(found) == threads * lines
    for device in range(1, threads + 1):
        assert [it for it in found if it.endswith(f" {device}")] == [f"pull {it} {device}" for it in range(lines)]


def test_an_interrupted_call_adds_all_of_its_lines_or_none() -> None:
    for at in interrupts.each(interrupts.interrupt):
        record = Record()
        record.pulls(0, 0, 40)
        with suppress(KeyboardInterrupt), at:
            record.pulls(7, 7, 1000)
        text = 40 * b"pull 0\n" + 1000 * b"pull 7 7\n"
        assert record.lines in (40, 1040) and record.text() == text[: 40 * 7 + (record.lines - 40) * 9]
        record.drain()
        assert record.text().endswith(b"\ndrain 0\n")


# Dispatchers.


def replayed(tree: str, record: Record) -> list[tuple[int, int]]:
    """The sender and the number of each packet that a repetition of a record emits."""
    return [it[:2] for it in emitted(tree, record.text().decode())]


def test_a_dispatcher_records_what_it_does() -> None:
    record, clock = Record(), ManualClock()
    with Dispatcher[str](TREE, tick=1, clock=clock, record=record) as dispatcher:
        assert dispatcher.recording
        dispatcher.submit(0, "long", 1200)
        clock.time = 3 * SECOND
        assert dispatcher.next().value == "long"
        for size in (40, 41, 42):
            dispatcher.submit(0, "short", size)
        for size in (50, 51):
            dispatcher.submit(1, "new", size)
        with pytest.raises(BadLength):
            dispatcher.submit(0, "", 0)
        with pytest.raises(UnknownSender):
            dispatcher.submit(2, "")
        clock.time = 5 * SECOND
        assert dispatcher.next().size == 40
    # The first pulls save up for the long job.
    sends = "send 0 40\nsend 0 41\nsend 0 42\nsend 1 50\nsend 1 51\n"
    assert record.text().decode() == f"send 0 1200\npull 3\npull 3\npull 3\n{sends}pull 5\n"


def test_a_dispatcher_without_a_record_records_nothing() -> None:
    assert not Dispatcher[str](ONE).recording


def test_a_full_record_stops_and_the_dispatcher_goes_on() -> None:
    record = Record()
    record.pulls(0, 0, module.MOST_LINES - 2)
    record.clear()
    dispatcher = Dispatcher[int](ONE, record=record)
    for value in range(3):
        dispatcher.submit(0, value)
    assert record.text() == b"send 0 1\nsend 0 1\n" and not dispatcher.recording
    assert [dispatcher.next().value for _ in range(3)] == [0, 1, 2]
    assert record.text() == b"send 0 1\nsend 0 1\n" and record.lines == module.MOST_LINES


def test_a_record_stops_before_its_moments_end() -> None:
    """What follows a pull that isn't recorded isn't recorded either."""
    record, clock = Record(), ManualClock()
    dispatcher = Dispatcher[int](ONE, tick=1e-9, clock=clock, record=record)
    for value, moment in enumerate((module.END_OF_RECORDED_MOMENTS - 1, module.END_OF_RECORDED_MOMENTS)):
        dispatcher.submit(0, value)
        clock.time = moment
        assert dispatcher.next().value == value
    dispatcher.submit(0, 2)
    assert record.text() == b"send 0 1\npull 1099511627775\nsend 0 1\n" and not dispatcher.recording


def test_a_record_stops_where_an_allocation_fails(monkeypatch: pytest.MonkeyPatch) -> None:
    record = Record()
    dispatcher = Dispatcher[int](ONE, record=record)

    def fail(_: int) -> None:
        raise MemoryError

    dispatcher.submit(0, 0)
    monkeypatch.setattr(record, "_make_room", fail)
    dispatcher.submit(0, 1)
    monkeypatch.undo()
    assert [dispatcher.next().value for _ in range(2)] == [0, 1]
    assert record.text() == b"send 0 1\n" and not dispatcher.recording


def test_no_interrupt_leaves_a_call_without_its_line() -> None:
    """Calls of a dispatcher are interrupted at each place at which a signal's handler may run. The record then tells what was done."""
    for at in interrupts.each(interrupts.interrupt, interrupts.where_signals_come):
        record, clock, given = Record(), ManualClock(), []
        dispatcher = Dispatcher[None](TREE, tick=1, clock=clock, record=record)

        def take(seconds: int) -> None:
            clock.time = seconds * SECOND
            given.append(dispatcher.next(0))

        calls: list[Callable[[], Any]] = [partial(dispatcher.submit, it, None, 900) for it in (0, 0, 0, 1, 1)]
        calls += [partial(take, 1), partial(take, 1), partial(dispatcher.submit, 0, None, 40), partial(take, 4)]
        with at:
            for call in calls:
                with suppress(KeyboardInterrupt, Empty):
                    call()
        with suppress(Empty):
            while True:
                take(9)
        agree(dispatcher, record)
        assert [(it.sender, it.number) for it in given] == replayed(TREE, record)


def agree(dispatcher: Dispatcher[Any], record: Record) -> None:
    """The record has as many offers of each sender as its account."""
    sends = [int(it.split()[1]) for it in record.text().decode().splitlines() if it.startswith("send")]
    for it in dispatcher.router.accounts():
        assert sends.count(it.sender) == it.accepted.packets + it.refused.packets


def test_threads_are_recorded_in_the_order_of_the_router() -> None:
    record, jobs = Record(), 2000
    given: list[tuple[int, int]] = []
    with Dispatcher[None](TREE, record=record) as dispatcher, ThreadPoolExecutor(3) as pool:

        def submit(sender: int) -> None:
            chance = random.Random(sender)
            for _ in range(jobs):
                dispatcher.submit(sender, None, chance.randint(1, 2000))

        def take() -> None:
            for job in dispatcher:
                given.append((job.sender, job.number))

        taker = pool.submit(take)
        list(pool.map(submit, (0, 1)))
        dispatcher.close()
        taker.result()
    agree(dispatcher, record)
    assert given == replayed(TREE, record) and record.lines >= 2 * jobs + len(given)


def test_a_record_of_a_router_repeats_it() -> None:
    record, chance = Record(), random.Random(1)
    wanted: list[Packet] = []
    with Router(TREE) as router:
        for moment in range(500):
            record.send(router.offer(chance.choice([0, 1]), chance.randint(1, 1500)).packet)
            count = chance.choice([0, 1, 2, 5])
            packets = router.pull_many(moment, count)
            record.pulls(0, moment, min(len(packets) + 1, count))
            wanted += packets
        before = router.moment()
        wanted += [it.packet for it in router.drain()]
        for moment in range(before + 1, router.moment() + 1):
            record.pulls(0, moment)
    assert [tuple(it) for it in wanted] == [tuple(it) for it in emitted(TREE, record.text().decode())]
