"""Tests of `clickpull.Carrier`: values go in and come out with their packets. They stand outside what is proved."""
import random
import sys
import weakref
from collections.abc import Callable
from concurrent.futures import ThreadPoolExecutor
from functools import partial

import pytest

import interrupts
from clickpull import BadLength, Carried, Carrier, Evicted, Packet, Shut, UnknownSender


def test_values_come_out_in_order() -> None:
    tree = "a :: Sender(0); b :: Sender(7); p, q :: Queue(2); s :: RoundRobinSched; d :: ToDevice(link); a -> p -> s -> d; b -> q -> [1] s;"
    with Carrier[str](tree) as carrier:
        assert carrier.offer(0, 10, "a0").accepted
        assert carrier.offer(0, 11, "a1").accepted
        assert carrier.offer(7, 20, "b0").accepted
        assert (carrier.kept(0), carrier.kept(7)) == (2, 1)
        assert next(carrier.pulls(3)) == Carried(Packet(0, 0, 10), 3, "a0")
        assert [it.value for it in carrier.pulls(1)] == ["b0", "a1"]
        assert carrier.pull(4) is None


def test_each_device_has_packets_of_its_own() -> None:
    """Sender 1 is of device 0, and sender 0 of device 1."""
    with Carrier[str](TWO) as carrier:
        carrier.offer(1, 10, "first of 0")
        carrier.offer(0, 20, "first of 1")
        assert [(it.value, it.moment) for it in carrier.pulls(5, 1)] == [("first of 1", 5)]
        carrier.offer(0, 30, "second of 1")
        assert [(it.value, it.moment) for it in carrier.drain(1)] == [("second of 1", 6)]
        assert [(it.value, it.moment) for it in carrier.drain()] == [("first of 0", 1)]


def test_a_refused_value_is_not_kept() -> None:
    with Carrier[str]("a :: Sender(0); q :: Queue(1); d :: ToDevice(link); a -> q -> d;") as carrier:
        carrier.offer(0, 10, "first")
        it = carrier.offer(0, 11, "second")
        assert not it.accepted and it.packet == Packet(0, 1, 11)
        assert [it.value for it in carrier.pulls(0)] == ["first"]
        assert carrier.kept(0) == 0


def test_a_refused_value_is_let_go_of() -> None:
    class Job:
        pass

    with Carrier[Job]("a :: Sender(0); q :: Queue(1); d :: ToDevice(link); a -> q -> d;") as carrier:
        first, second = Job(), Job()
        watched = weakref.ref(first), weakref.ref(second)
        carrier.offer(0, 10, first)
        carrier.offer(0, 11, second)
        del first, second
        assert watched[0]() is not None and watched[1]() is None


def test_an_evicted_value_stands_behind_held_ones() -> None:
    """The DRRSched holds the first, so the second is what the queue puts out."""
    with Carrier[str]("a :: Sender(0); q :: FrontDropQueue(1); s :: DRRSched(500); d :: ToDevice(link); a -> q -> s -> d;") as carrier:
        carrier.offer(0, 1500, "held")
        assert carrier.pull(0) is None
        carrier.offer(0, 20, "put out")
        assert carrier.offer(0, 30, "last").evicted == Evicted(Packet(0, 1, 20), "put out")
        assert [(it.moment, it.value) for it in carrier.drain()] == [(2, "held"), (4, "last")]


def test_what_cannot_be_offered_is_not_kept() -> None:
    with Carrier[int]("a :: Sender(0); q :: Queue(1); d :: ToDevice(link); a -> q -> d;") as carrier:
        with pytest.raises(BadLength):
            carrier.offer(0, 0, 5)
        with pytest.raises(UnknownSender):
            carrier.offer(1, 1, 5)
        with pytest.raises(UnknownSender):
            carrier.kept(1)
        assert carrier.kept(0) == 0
    calls: list[Callable[[], object]] = [lambda: carrier.offer(0, 1, 5), lambda: carrier.pull(0), lambda: carrier.kept(0)]
    for call in calls:
        with pytest.raises(Shut):
            call()


def test_many_values_keep_their_packets() -> None:
    tree = """a :: Sender(0); b :: Sender(1); c :: Sender(2); p :: FrontDropQueue(4); q :: FrontDropQueue(3);
    low, top :: DRRSched(200); d :: ToDevice(link); a -> p; b -> p; c -> q; p -> low; low -> top; q -> [1] top; top -> d;"""
    chance = random.Random(1)
    numbers = [0, 0, 0]
    with Carrier[tuple[int, int]](tree) as carrier:
        for moment in range(5000):
            sender = chance.randrange(3)
            it = carrier.offer(sender, chance.randint(1, 1500), (sender, numbers[sender]))
            numbers[sender] += 1
            assert it.evicted is None or it.evicted.value == it.evicted.packet[:2]
            out = carrier.pull(moment)
            assert out is None or out.value == out.packet[:2]
        assert all(it.value == it.packet[:2] for it in carrier.drain())
        assert sum(map(carrier.kept, range(3))) == 0


# Its queues evict and refuse, and its schedulers hold packets.
BOTH = """a :: Sender(0); b :: Sender(1); p :: FrontDropQueue(2); q :: Queue(2); low, top :: DRRSched(40000); d :: ToDevice(link);
a -> p -> low -> top -> d; b -> q -> [1] top;"""
TWO = "a :: Sender(0); b :: Sender(1); p, q :: Queue(1); c, d :: ToDevice(link); b -> p -> c; a -> q -> d;"
LENGTHS = 65000


def length_of(value: int) -> int:
    """By the length of a packet a test knows whether a value is its own."""
    return 1 + value % LENGTHS


class Watched:
    """A carrier that is offered rising numbers, and pulled, by calls that may be interrupted. It looks at what comes out."""

    def __init__(self) -> None:
        self.carrier = Carrier[int](BOTH)
        self.values = self.moment = self.interrupted = 0
        self.given: list[int] = []
        self._latest = [-1, -1]

    def offer(self, sender: int) -> None:
        self.values += 1
        it = self.carrier.offer(sender, length_of(self.values), self.values)
        if it.evicted:
            assert length_of(it.evicted.value) == it.evicted.packet.length

    def pull(self) -> None:
        self.moment += 1
        self.look_at(self.carrier.pull(self.moment))

    def drain(self, most: int | None = None) -> None:
        for it in self.carrier.drain(pulls=most):
            self.look_at(it)

    def look_at(self, it: Carried[int] | None) -> None:
        """The value is its packet's own, and packets of a sender come out in the order in which they were offered."""
        if it is None:
            return
        assert length_of(it.value) == it.packet.length
        assert it.packet.number > self._latest[it.packet.sender]
        self._latest[it.packet.sender] = it.packet.number
        self.given.append(it.value)

    def end(self) -> None:
        """Nothing is left, no value came out twice, and an interrupted call lost one at most."""
        self.drain()
        assert self.carrier.kept(0) == self.carrier.kept(1) == self.carrier.router.left() == 0
        emitted = sum(it.emitted.packets for it in self.carrier.router.accounts())
        assert len(set(self.given)) == len(self.given)
        assert emitted - self.interrupted <= len(self.given) <= emitted
        self.offer(0)
        self.offer(1)
        self.drain()
        assert {*self.given[-2:]} == {self.values - 1, self.values}
        assert len(self.carrier._values) == 0


def test_an_interrupt_between_any_two_bytecodes() -> None:
    """Each bytecode of calls that store, evict, refuse, hold, pull and drain is interrupted once."""
    for at in interrupts.each(interrupts.interrupt):
        watched = Watched()
        calls: list[Callable[[], None]] = [partial(watched.offer, it) for it in (0, 0, 0, 1, 1, 1)]
        calls += [watched.pull, watched.drain, partial(watched.offer, 0), partial(watched.offer, 1), watched.pull]
        with at:
            for call in calls:
                try:
                    call()
                except KeyboardInterrupt:
                    watched.interrupted += 1
        watched.end()
        watched.carrier.close()


def test_what_an_interrupted_pull_pulled_comes_next() -> None:
    """It is lost only where the interrupt came when its value had been taken out, and so it is lost at the last bytecodes alone."""
    lost = []
    for at in interrupts.each(interrupts.interrupt):
        with Carrier[str](TWO) as it:
            it.offer(0, 10, "first")
            pulled: Carried[str] | None = None
            try:
                with at:
                    pulled = it.pull(5, 1)
            except KeyboardInterrupt:
                assert it.pull(6, 0) is None
                kept = it.kept(0)
                pulled = it.pull(6, 1)
                assert kept == (pulled is not None)
            lost.append(pulled is None)
            assert pulled is None or pulled.packet == Packet(0, 0, 10) and pulled.value == "first" and pulled.moment in (5, 6)
    assert lost[-1] is False and sum(lost) < 20
    assert lost[:-1] == sorted(lost[:-1])


def interrupted_round(watched: Watched, chance: random.Random, after: Callable[[float], None]) -> None:
    """Offers and pulls until a timer interrupts."""
    calls: list[Callable[[], None]] = [partial(watched.offer, 0), partial(watched.offer, 1), watched.pull, partial(watched.drain, 1)]
    try:
        after(chance.uniform(1e-6, 60e-6))
        while True:
            chance.choice(calls)()
    except KeyboardInterrupt:
        watched.interrupted += 1


def test_many_interrupts_by_a_timer() -> None:
    """What comes out is looked at, for some seconds. An interrupt of the test itself may lose a packet, too."""
    watched, chance = Watched(), random.Random(1)
    with interrupts.timer() as after:
        for _ in range(60000):
            interrupted_round(watched, chance, after)
    assert watched.interrupted == 60000
    watched.end()


def test_threads_may_share_a_carrier() -> None:
    """Each value goes with its packet, though threads offer for one sender and pull at the same time."""
    tree = "a :: Sender(0); q :: Queue(8000); d :: ToDevice(link); a -> q -> d;"
    before = sys.getswitchinterval()
    sys.setswitchinterval(1e-6)
    try:
        with Carrier[int](tree) as carrier, ThreadPoolExecutor(4) as pool:

            def offer_and_pull(first: int) -> list[Carried[int] | None]:
                for value in range(first, first + 2000):
                    carrier.offer(0, length_of(value), value)
                return [carrier.pull(0) for _ in range(1000)]

            given = [it for some in pool.map(offer_and_pull, range(0, 8000, 2000)) for it in some if it]
            given += carrier.pulls(0)
            assert all(it.packet.length == length_of(it.value) for it in given)
            assert sorted(it.value for it in given) == list(range(8000))
    finally:
        sys.setswitchinterval(before)


@pytest.mark.parametrize("pulls", [-1, 1 << 64])
def test_a_count_of_pulls_out_of_range(pulls: int) -> None:
    with Carrier[int](BOTH) as carrier, pytest.raises(ValueError):
        carrier.drain(0, pulls)
