"""A router whose packets carry values of the caller's. It stands outside what is proved."""
from collections.abc import Callable, Iterator
from dataclasses import dataclass
from threading import RLock
from types import TracebackType
from typing import Generic, NoReturn, TypeVar

from clickpull import library
from clickpull.errors import Error, UnknownDevice, UnknownSender
from clickpull.router import Router
from clickpull.values import Outcome, Packet

T = TypeVar("T")


@dataclass(frozen=True, slots=True)
class Carried(Generic[T]):
    """A packet that was emitted, with its value and the moment of its pull, in ticks."""

    packet: Packet
    moment: int
    value: T


@dataclass(frozen=True, slots=True)
class Evicted(Generic[T]):
    """A packet that its queue evicted, with its value."""

    packet: Packet
    value: T


@dataclass(frozen=True, slots=True)
class Offer(Generic[T]):
    """A packet that was offered, whether its queue accepted it, and the packet that the queue evicted for it."""

    packet: Packet
    accepted: bool
    evicted: Evicted[T] | None


class Given(Generic[T]):
    """Where a pull stores the packet that it gives, so that an interrupted caller can tell whether it was given."""

    pair: tuple[Packet, T] | None = None
    """The packet and its value."""


def _packet(it: library.Packet) -> Packet:
    return Packet(it.sender, it.number, it.length)


class Carrier(Generic[T]):
    """A router that takes a value with each packet, and returns it with the packet.

    A call may be interrupted at any point, as Ctrl-C does by `KeyboardInterrupt`. No value then goes with another packet, and later
    calls work. What an interrupted call means for its caller:

    - `offer`: the packet may or may not have been offered. If it was, its value goes with it. Accounts of the router tell: a sender
      has offered what was accepted and what was refused. The carrier drops a value that was refused or evicted.
    - `pull`, `pulls` and `drain`: the next of these calls for the device returns the packet that was pulled, with the moment of that
      pull. If the interrupt came after the value was taken out, while the call returned, the caller loses the packet and its value.
    - `close`: calling it again shuts the router.

    No value is given twice. A signal handler or a finalizer (`__del__`, a callback of `weakref`) must call no carrier that the interrupted
    code may be calling: a call within a call may give values to other packets.
    """

    # Values are found by sender and number. A value is stored before its packet is offered, and the library writes what it did into
    # structures that stay, in the call that does it. So what was done is still known after an interrupt:
    #
    # - The next number of a sender is the one after that of its latest offer. If an interrupt comes before an offer is made, its value
    #   stands under this number, and the next offer's value takes its place.
    # - A packet that the latest pull of a device emitted was given to the caller if its value isn't here any more.
    #
    # The lock keeps other threads out. A thread may take it again, so that an interrupt can't block the thread that it comes to. So calls of
    # one thread may nest, and no flag refuses them: an interrupt before the flag is cleared would have later calls refused.

    def __init__(self, text: str | bytes) -> None:
        """Opens a router from a text. Raises `TextFault` if the text has a fault, and `MemoryError`."""
        self._router = Router(text)
        self._lock = RLock()
        self._values: dict[tuple[int, int], T] = {}
        self._places = {it.sender: place for place, it in enumerate(self._router.accounts())}
        self._offers = {sender: library.Offered() for sender in self._places}
        self._pulled = [library.Departure() for _ in range(self._router.devices)]

    @property
    def router(self) -> Router:
        """The router, to ask about its state. Offers and pulls go through the carrier alone."""
        return self._router

    def close(self) -> None:
        """Shuts the router, and drops all values."""
        with self._lock:
            self._router.close()
            self._values.clear()

    def __enter__(self) -> "Carrier[T]":
        return self

    def __exit__(self, kind: type[BaseException] | None, error: BaseException | None, trace: TracebackType | None) -> None:
        self.close()

    def __reduce__(self) -> NoReturn:
        raise TypeError("a carrier can't be copied")

    def offer(self, sender: int, length: int, value: T) -> Offer[T]:
        """The sender offers its next packet, of `length` bytes, with this value."""
        with self._lock:
            it = self._latest_offer(sender, length)
            key = sender, it.packet.number + 1 if it.packet.length else 0
            self._values[key] = value
            try:
                self._router._offer(sender, length, it)
            except Error:
                del self._values[key]
                raise
            evicted: Evicted[T] | None = None
            if it.outcome == Outcome.EVICTED:
                packet = _packet(it.evicted)
                evicted = Evicted(packet, self._values.pop(packet[:2]))
            elif it.outcome == Outcome.REFUSED:
                del self._values[key]
            return Offer(_packet(it.packet), it.outcome != Outcome.REFUSED, evicted)

    def pull(self, moment: int, device: int = 0) -> Carried[T] | None:
        """Pulls the device once, at this moment in ticks, or at the device's latest moment if that is later."""
        self._router._need_moment(moment)
        return self._next(device, lambda it: self._router._pull(moment, device, it.packet))

    def pulls(self, moment: int, device: int = 0) -> Iterator[Carried[T]]:
        """Pulls the device at this moment, once for each packet that is asked for, up to the first pull that emits none."""
        while (it := self.pull(moment, device)) is not None:
            yield it

    def drain(self, device: int = 0, pulls: int | None = None) -> Iterator[Carried[T]]:
        """Pulls the device one tick apart until all that is left for it is emitted, as `Router.drain` does."""
        return self._drained(device, self._router._most_pulls(pulls))

    def _drained(self, device: int, most: int) -> Iterator[Carried[T]]:
        while (it := self._next(device, lambda departure: self._router._drain(device, most, departure))) is not None:
            yield it

    def kept(self, sender: int) -> int:
        """How many values of a sender are here: in its queue, held by a scheduler, or pulled by a call that was interrupted."""
        with self._lock:
            self._router._need_open()
            if sender not in self._places:
                raise UnknownSender(f"there is no sender {sender}")
            it = self._router._account(self._places[sender])
            waiting = sum(pulled.packet.sender == sender and self._is_waiting(pulled.packet) for pulled in self._pulled)
            return it.accepted.packets - it.evicted.packets - it.emitted.packets + waiting

    def _latest_offer(self, sender: int, length: int) -> library.Offered:
        """A sender's latest offer. Drops the value that it refused or evicted, if an interrupt kept `offer` from dropping it."""
        self._router._need_open()
        self._router._need_offer(sender, length)
        if sender not in self._offers:
            raise UnknownSender(f"there is no sender {sender}")
        it = self._offers[sender]
        if it.outcome != Outcome.ACCEPTED:
            gone = _packet(it.packet if it.outcome == Outcome.REFUSED else it.evicted)[:2]
            if gone in self._values:
                del self._values[gone]
        return it

    def _next(self, device: int, pull: Callable[[library.Departure], bool]) -> Carried[T] | None:
        """The packet that an interrupted call pulled from the device, or else the one that this call pulls."""
        with self._lock:
            packet = self._pulled_packet(device, pull)
            if packet is None:
                return None
            carried = Carried(packet, self._router.moment(device), self._values[packet[:2]])
            # From here the packet is given.
            del self._values[packet[:2]]
            return carried

    def _give(self, device: int, pull: Callable[[library.Departure], bool], given: Given[T]) -> None:
        """Does what `_next` does, for a caller that holds the lock, and stores the packet in `given`."""
        packet = self._pulled_packet(device, pull)
        if packet is None:
            return
        key = packet[:2]
        pair = packet, self._values[key]
        # From here the packet is given. Python handles no signal between these two lines, since neither calls a function.
        given.pair = pair
        del self._values[key]

    def _pulled_packet(self, device: int, pull: Callable[[library.Departure], bool]) -> Packet | None:
        """The packet that an interrupted call pulled from the device, or else the one that this call pulls. Its value is still here."""
        self._router._need_open()
        if not 0 <= device < len(self._pulled):
            raise UnknownDevice(f"there is no device {device}")
        it = self._pulled[device]
        return _packet(it.packet) if self._is_waiting(it.packet) or pull(it) else None

    def _waits(self, device: int) -> bool:
        """Whether an interrupted call pulled a packet from the device that was not given yet."""
        return self._is_waiting(self._pulled[device].packet)

    def _is_waiting(self, it: library.Packet) -> bool:
        """Whether a packet was pulled and not yet given. Before the first pull its length is 0."""
        return it.length != 0 and (it.sender, it.number) in self._values
