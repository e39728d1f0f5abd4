"""Tests of `clickpull.Router`. They stand outside what is proved."""
import copy
import gc
import pickle
import signal
from _thread import interrupt_main
from collections.abc import Callable, Iterator
from concurrent.futures import ThreadPoolExecutor
from operator import methodcaller
from typing import Any

import pytest

import interrupts
from clickpull import (
    END_OF_MOMENTS,
    AtEnd,
    Carrier,
    Departure,
    Dispatcher,
    Error,
    BadLength,
    Outcome,
    Packet,
    Queue,
    Router,
    Shut,
    TextFault,
    Total,
    UnknownDevice,
    UnknownSender,
)
from clickpull.library import FAULT, LIBRARY, RouterHandle

ONE = "a :: Sender(4); q :: FrontDropQueue(2); d :: ToDevice(link); a -> q -> d;"
SHAPED = "a :: Sender(0); q :: Queue(9); s :: Shaper(1); d :: ToDevice(link); a -> q -> s -> d;"
# It has 3 senders, 3 queues and 2 devices.
THREE = """a :: Sender(0); b :: Sender(1); e :: Sender(2); p, q, r :: Queue(1); s :: PrioSched; c, d :: ToDevice(link);
a -> p -> c; b -> q -> s -> d; e -> r -> [1] s;"""


def test_a_fault_says_where() -> None:
    with pytest.raises(TextFault) as raised:
        Router("a :: Sender(0);\nq :: Heap(3);")
    it = raised.value
    assert (it.number, it.name, it.offset, it.line, it.column) == (3, "UnknownClass", 21, 2, 6)
    assert str(it) == "fault 3: UnknownClass at line 2, column 6"
    assert it.explanation.startswith("2:6: there is no class 'Heap'\n    q :: Heap(3);\n         ^\nexpected Sender, ")
    assert it.explanation.endswith("\n")
    assert isinstance(it, Error) and isinstance(it, ValueError)


@pytest.mark.parametrize("text, number", [("", 11), (b"\xff", 2), ("a :: Sender(0", 2), ("a :: Sender;", 4)])
def test_a_text_is_refused(text: str | bytes, number: int) -> None:
    with pytest.raises(TextFault) as raised:
        Router(text)
    assert raised.value.number == number


@pytest.mark.parametrize("text", [5, None, [97], object()])
def test_a_text_is_str_or_bytes(text: Any) -> None:
    with pytest.raises(TypeError, match="a text is str or bytes"):
        Router(text)


def test_packets_are_offered_and_pulled() -> None:
    with Router(ONE) as router:
        assert router.pull(0) is None
        assert router.offer(4, 10) == (Packet(4, 0, 10), Outcome.ACCEPTED, None)
        assert router.offer(4, 11).accepted
        assert router.offer(4, 12) == (Packet(4, 2, 12), Outcome.EVICTED, Packet(4, 0, 10))
        assert router.left() == 2
        assert router.pull(7) == Packet(4, 1, 11)
        assert router.moment() == 7


def test_a_full_queue_refuses() -> None:
    with Router("a :: Sender(0); q :: Queue(1); d :: ToDevice(link); a -> q -> d;") as router:
        router.offer(0, 10)
        it = router.offer(0, 11)
        assert it == (Packet(0, 1, 11), Outcome.REFUSED, None) and not it.accepted


def test_many_go_together() -> None:
    with Router(ONE) as router:
        assert router.offer_many([]) == []
        assert [it.packet.number for it in router.offer_many([(4, 10), (4, 11), (4, 12)])] == [0, 1, 2]
        assert router.pull_many(0, 9) == [Packet(4, 1, 11), Packet(4, 2, 12)]
        assert router.pull_many(0, 9) == []
        assert router.pull_many(0, 0) == []


def test_where_one_of_many_cannot_be_none_is_offered() -> None:
    with Router(ONE) as router:
        with pytest.raises(UnknownSender):
            router.offer_many([(4, 10), (5, 11)])
        with pytest.raises(BadLength):
            router.offer_many([(4, 10), (4, 0)])
        assert router.left() == 0


@pytest.mark.parametrize("count", [3, 1 << 40, 1 << 70])
def test_a_count_may_be_more_than_is_left(count: int) -> None:
    with Router(ONE) as router:
        router.offer_many([(4, 10), (4, 11)])
        assert [it.length for it in router.pull_many(0, count)] == [10, 11]
        assert router.pull_many(5, count) == [] and router.moment() == 5


def test_a_count_may_not_be_negative() -> None:
    with Router(ONE) as router, pytest.raises(ValueError):
        router.pull_many(0, -1)


@pytest.mark.parametrize("pulls", [-1, 1 << 64])
def test_a_count_of_pulls_out_of_range(pulls: int) -> None:
    with Router(ONE) as router, pytest.raises(ValueError):
        router.drain(0, pulls)


def test_counts_of_pulls_in_range() -> None:
    with Router(ONE) as router:
        router.offer(4, 10)
        assert list(router.drain(0, 0)) == []
        assert [it.moment for it in router.drain(0, (1 << 64) - 1)] == [1]


def test_pulls_go_up_to_none() -> None:
    with Router(ONE) as router:
        router.offer_many([(4, 10), (4, 11)])
        assert [it.length for it in router.pulls(3)] == [10, 11]
        assert list(router.pulls(3)) == []


def test_each_device_has_packets_of_its_own() -> None:
    with Router(THREE) as router:
        assert router.devices == 2 and len(router.queues()) == len(router.accounts()) == 3
        router.offer_many([(0, 10), (1, 20), (2, 30)])
        assert list(router.pulls(4, 1)) == [Packet(1, 0, 20), Packet(2, 0, 30)]
        assert (router.moment(0), router.moment(1), router.left(0), router.left(1)) == (0, 4, 1, 0)
        router.offer(1, 21)
        assert list(router.drain(1)) == [Departure(5, Packet(1, 1, 21))]
        assert router.pull_many(7, 9) == [Packet(0, 0, 10)]


def test_what_is_not_asked_for_stays() -> None:
    with Router(SHAPED) as router:
        router.offer_many([(0, 10), (0, 11), (0, 12)])
        assert next(router.drain()) == Departure(1, Packet(0, 0, 10))
        assert router.left() == 2
        assert next(router.pulls(2)) == Packet(0, 1, 11)
        assert router.left() == 1


def test_a_drain_brings_out_all() -> None:
    with Router(SHAPED) as router:
        router.offer_many([(0, 10)] * 5)
        assert router.pull(10) == Packet(0, 0, 10)
        assert [(it.moment, it.packet.number) for it in router.drain()] == [(11, 1), (12, 2), (13, 3), (14, 4)]
        assert list(router.drain()) == []
        assert router.moment() == 14


def test_a_drain_may_end_before() -> None:
    with Router("a :: Sender(0); q :: Queue(9); s :: DRRSched(500); d :: ToDevice(link); a -> q -> s -> d;") as router:
        router.offer(0, 1600)
        assert list(router.drain(pulls=2)) == []
        assert router.left() == 1
        assert [it.moment for it in router.drain()] == [4]


def test_what_there_is() -> None:
    with Router("b :: Sender(7); a :: Sender(3); p :: Queue; q :: FrontDropQueue(1); c, d :: ToDevice(link); a -> q -> d; b -> p -> c;") as router:
        router.offer_many([(3, 10), (3, 20)])
        assert router.devices == 2
        assert router.queues() == [Queue(1000, 0, 0, False), Queue(1, 1, 1, True)]
        assert router.sender_names() == ["a", "b"]
        first, last = router.accounts()
        none = Total(0, 0)
        assert first == (3, 1, Total(2, 30), none, Total(1, 10), none)
        assert last == (7, 0, none, none, none, none)


@pytest.mark.parametrize("sender", [0, 5, 65535, 65536 + 4, -1])
def test_an_unknown_sender(sender: int) -> None:
    with Router(ONE) as router, pytest.raises(UnknownSender):
        router.offer(sender, 1)


@pytest.mark.parametrize("length", [0, -1, 65536])
def test_a_bad_length(length: int) -> None:
    with Router(ONE) as router, pytest.raises(BadLength):
        router.offer(4, length)


@pytest.mark.parametrize("device", [1, 65536, -1])
def test_an_unknown_device(device: int) -> None:
    with Router(ONE) as router:
        calls: list[Callable[[int], object]] = [
            router.moment,
            router.left,
            lambda it: router.pull(0, it),
            lambda it: router.pull_many(0, 1, it),
            lambda it: list(router.drain(it)),
        ]
        for call in calls:
            with pytest.raises(UnknownDevice):
                call(device)


def test_when_a_shaper_has_room() -> None:
    with Router(SHAPED) as router:
        assert router.due() is None
        router.offer(0, 1)
        router.offer(0, 1)
        assert router.due() == 0
        assert router.pull(5) is not None
        assert router.due() == 6
        assert router.pull(5) is None
        assert router.pull(6) is not None
        assert router.due() is None
        with pytest.raises(UnknownDevice):
            router.due(1)


@pytest.mark.parametrize("moment", [END_OF_MOMENTS, -1, 1 << 64])
def test_a_moment_at_its_end(moment: int) -> None:
    with Router(ONE) as router:
        with pytest.raises(AtEnd):
            router.pull(moment)
        with pytest.raises(AtEnd):
            router.pull_many(moment, 1)
        assert router.moment() == 0


def test_a_shut_router() -> None:
    with Router(ONE) as router:
        assert not router.closed
    assert router.closed
    router.close()
    calls: list[Callable[[], object]] = [
        lambda: router.offer(4, 1),
        lambda: router.pull(0),
        lambda: router.devices,
        router.accounts,
        router.queues,
        router.left,
    ]
    for call in calls:
        with pytest.raises(Shut):
            call()


@pytest.mark.parametrize("kind", [Router, Carrier[int], Dispatcher[int]])
def test_a_router_is_not_copied(kind: Callable[[str], object]) -> None:
    it = kind(ONE)
    calls: list[Callable[[object], object]] = [copy.copy, copy.deepcopy, pickle.dumps]
    for call in calls:
        with pytest.raises(TypeError, match="can't be copied$"):
            call(it)


def test_threads_may_share_a_router() -> None:
    """Calls come one after the other, and so no packet is lost."""
    threads, packets = 4, 5000
    tree = f"a :: Sender(0); q :: Queue({threads * packets}); d :: ToDevice(link); a -> q -> d;"
    with Router(tree) as router, ThreadPoolExecutor(threads) as pool:

        def offer_all(_: int) -> list[int]:
            return [router.offer(0, 1).packet.number for _ in range(packets)]

        numbers = [it for given in pool.map(offer_all, range(threads)) for it in given]
        assert sorted(numbers) == list(range(threads * packets))
        assert [it.number for it in router.pulls(0)] == list(range(threads * packets))


@pytest.fixture
def shut(monkeypatch: pytest.MonkeyPatch) -> list[RouterHandle]:
    """The routers that the library was told to close, instead of which it keeps them. As the library's, this call is one of C."""
    closed: list[RouterHandle] = []
    monkeypatch.setattr(LIBRARY, "clk_router_close", closed.append)
    return closed


def test_a_router_may_be_shut_while_it_is_called(shut: list[RouterHandle]) -> None:
    """At each bytecode of a call another thread may shut the router. The library closes it when no call will use it any more."""
    calls: list[Callable[[Router], object]] = [
        lambda it: it.offer(4, 10),
        lambda it: it.offer_many([(4, 10)]),
        lambda it: it.pull(0),
        lambda it: it.pull_many(0, 2),
        lambda it: list(it.drain()),
        Router.due,
        Router.left,
        Router.accounts,
        Router.queues,
    ]
    for call in calls:
        for at in interrupts.each(lambda: router.close()):
            router = Router(ONE)
            shut.clear()
            with at:
                try:
                    call(router)
                except Shut:
                    assert at.done
            router.close()
            assert len(shut) == 1


def test_a_router_is_closed_once(shut: list[RouterHandle]) -> None:
    """An interrupt at any bytecode of closing, after which a caller closes again, closes the router once."""
    for at in interrupts.each(interrupts.interrupt):
        router = Router(ONE)
        shut.clear()
        try:
            with at:
                router.close()
        except KeyboardInterrupt:
            pass
        router.close()
        assert router.closed
        del router
        assert len(shut) == 1 and shut[0].at


def test_an_interrupted_opening_closes_its_router(shut: list[RouterHandle], monkeypatch: pytest.MonkeyPatch) -> None:
    """An interrupt at any bytecode of opening leaves no router open."""
    open_router, opened = LIBRARY.clk_router_open, 0

    def count(*taken: object) -> object:
        nonlocal opened
        opened += 1
        return open_router(*taken)

    monkeypatch.setattr(LIBRARY, "clk_router_open", count)
    for at in interrupts.each(interrupts.interrupt):
        try:
            with at:
                Router(ONE)
        except KeyboardInterrupt:
            pass
        assert len(shut) == opened and all(it.at for it in shut)


@pytest.mark.parametrize("kind", [Router, Carrier[int], Dispatcher[int]])
def test_a_refused_allocation_raises_memory_error(
    kind: Callable[[str], object], shut: list[RouterHandle], monkeypatch: pytest.MonkeyPatch
) -> None:
    """The library says so by a fault that isn't one of the text."""

    def refuse(_text: Any, _length: int, _router: Any, fault: Any) -> int:
        fault._obj.number = 1
        return FAULT

    monkeypatch.setattr(LIBRARY, "clk_router_open", refuse)
    with pytest.raises(MemoryError):
        kind(ONE)
    assert shut == []


def test_a_fault_leaves_nothing_to_close(shut: list[RouterHandle]) -> None:
    with pytest.raises(TextFault):
        Router("q :: Heap;")
    assert shut == []


@pytest.fixture
def heeded() -> Iterator[None]:
    """Ctrl-C raises `KeyboardInterrupt`. A shell starts programs in the background so that they ignore it."""
    before = signal.signal(signal.SIGINT, signal.default_int_handler)
    yield
    signal.signal(signal.SIGINT, before)


@pytest.mark.usefixtures("heeded")
def test_a_pending_interrupt_comes_after_a_router_is_closed(shut: list[RouterHandle]) -> None:
    """In one call of C the interrupt is set and the router let go of. So it is pending when the router is closed."""
    routers = [Router(ONE)]
    with pytest.raises(KeyboardInterrupt):
        list(map(methodcaller("__call__"), (interrupt_main, routers.clear)))
    assert routers == [] and len(shut) == 1


def test_a_router_in_a_cycle_is_closed(shut: list[RouterHandle]) -> None:
    router: Any = Router(ONE)
    router.itself = router
    del router
    gc.collect()
    assert len(shut) == 1


def test_routers_are_let_go_of() -> None:
    for _ in range(1000):
        Router(ONE).offer(4, 1)
    gc.collect()
