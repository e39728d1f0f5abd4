"""A router of packets. It stands outside what is proved."""
import ctypes
from collections.abc import Callable, Iterable, Iterator
from ctypes import byref
from functools import partial
from operator import attrgetter
from types import TracebackType
from typing import NoReturn

from clickpull import library
from clickpull.errors import AtEnd, Error, BadLength, Shut, TextFault, UnknownDevice, UnknownSender
from clickpull.library import LIBRARY
from clickpull.values import Account, Departure, Offered, Outcome, Packet, Queue, Total

END_OF_MOMENTS = 1 << 44
"""Moments are below this number of ticks."""

_END_OF_NUMBERS = 1 << 16
_ALL_PULLS = (1 << 64) - 1


def _packet(it: library.Packet) -> Packet:
    return Packet(it.sender, it.number, it.length)


def _offered(it: library.Offered) -> Offered:
    outcome = Outcome(it.outcome)
    return Offered(_packet(it.packet), outcome, _packet(it.evicted) if outcome is Outcome.EVICTED else None)


def _total(it: library.Total) -> Total:
    return Total(it.packets, it.bytes)


def _departure(it: library.Departure) -> Departure:
    return Departure(it.moment, _packet(it.packet))


def _code(text: str | bytes) -> bytes:
    """A text as the library takes it."""
    if isinstance(text, str):
        return text.encode()
    if not isinstance(text, (bytes, bytearray, memoryview)):
        raise TypeError(f"a text is str or bytes, and not {type(text).__name__}")
    return bytes(text)


class _Handle(library.RouterHandle):
    """A router in the library's hands. It is closed when nothing refers to it, and so never while a call of another thread uses it."""

    closing: "partial[object]"
    """Closes the router, if there is one. Only the first call does anything."""

    # Python calls `__del__` once. A function of Python may be interrupted before its first line, and then the router would never be closed.
    # This property returns `closing`, and neither that nor what it calls is written in Python. So no interrupt comes in between.
    __del__ = property(attrgetter("closing"))


def _no_router() -> _Handle:
    """A handle that has no router yet, for the library to fill."""
    # The handle shares the memory of `inner`, which doesn't refer to the handle, and so doesn't keep it alive.
    inner = library.RouterHandle(None)
    handle = _Handle.from_buffer(inner)
    handle.closing = partial(next, map(LIBRARY.clk_router_close, filter(attrgetter("at"), [inner])), None)
    return handle


def _explained(text: "ctypes.Array[ctypes.c_uint8]", length: int, fault: library.Fault) -> str:
    """The explanation of a fault of a text that has so many bytes."""
    needed = ctypes.c_size_t()
    LIBRARY.clk_router_explain(text, length, byref(fault), (ctypes.c_uint8 * 1)(), 0, byref(needed))
    lines = (ctypes.c_uint8 * max(needed.value, 1))()
    LIBRARY.clk_router_explain(text, length, byref(fault), lines, needed.value, byref(needed))
    return bytes(lines[: needed.value]).decode("ascii")


class Router:
    """The router of a tree in Click's language.

    It is a context manager, which shuts it at its end; when the last reference to it is dropped, it is shut, too. Calls on a shut router
    raise `Shut`. Devices are numbered from 0 in the order of declaration, and calls use device 0 if none is named.
    """

    def __init__(self, text: str | bytes) -> None:
        """Opens a router from a text. Raises `TextFault` if the text has a fault, and `MemoryError`."""
        code = _code(text)
        handle = _no_router()
        fault = library.Fault()
        array = (ctypes.c_uint8 * max(len(code), 1)).from_buffer_copy(code or b"\0")
        if LIBRARY.clk_router_open(array, len(code), handle, byref(fault)) != library.OK:
            if fault.number == 1:
                raise MemoryError("clickpull: a router's memory was refused")
            raise TextFault(fault.number, fault.offset, code, _explained(array, len(code), fault))
        self._handle: _Handle | None = handle
        # A dispatcher with a record puts calls here that record, too.
        self._call_offer: Callable[..., int] = LIBRARY.clk_router_offer
        self._call_pull: Callable[..., int] = LIBRARY.clk_router_pull
        self._senders = frozenset(it.sender for it in self.accounts())

    # Close.

    def close(self) -> None:
        """Shuts the router. Its memory is freed once no call of another thread uses it."""
        self._handle = None

    @property
    def closed(self) -> bool:
        """Whether it is shut."""
        return self._handle is None

    def __enter__(self) -> "Router":
        return self

    def __exit__(self, kind: type[BaseException] | None, error: BaseException | None, trace: TracebackType | None) -> None:
        self.close()

    def __reduce__(self) -> NoReturn:
        raise TypeError("a router can't be copied")

    # Offers.

    def offer(self, sender: int, length: int) -> Offered:
        """The sender offers its next packet, of `length` bytes, to its queue. Returns the packet with its outcome."""
        offered = library.Offered()
        self._offer(sender, length, offered)
        return _offered(offered)

    def _offer(self, sender: int, length: int, offered: library.Offered) -> None:
        """Offers a packet, and fills in `offered` in one call of the library."""
        handle = self._need_open()
        self._need_offer(sender, length)
        self._need(self._call_offer(handle, sender, length, byref(offered)))

    def offer_many(self, offers: Iterable[tuple[int, int]]) -> list[Offered]:
        """Offers many packets, each a sender and a length. If one can't be offered, none is offered.

        The exception is `AtEnd`, which isn't known beforehand: the packets before that one have been offered then.
        """
        handle = self._need_open()
        wanted = list(offers)
        for sender, length in wanted:
            self._need_offer(sender, length)
            if sender not in self._senders:
                raise UnknownSender(f"there is no sender {sender}")
        if not wanted:
            return []
        array = (library.OfferOf * len(wanted))(*(library.OfferOf(sender, length) for sender, length in wanted))
        offered = (library.Offered * len(wanted))()
        done = ctypes.c_size_t()
        self._need(LIBRARY.clk_router_offer_many(handle, array, len(array), offered, len(offered), byref(done)))
        return [_offered(it) for it in offered]

    # Pulls.

    def pull(self, moment: int, device: int = 0) -> Packet | None:
        """Pulls the device once, at this moment in ticks, or at the device's latest moment if that is later."""
        packet = library.Packet()
        return _packet(packet) if self._pull(moment, device, packet) else None

    def _pull(self, moment: int, device: int, packet: library.Packet) -> bool:
        """Pulls the device once, and fills in `packet` in one call of the library. Returns whether a packet was emitted."""
        handle = self._need_open()
        self._need_device(device)
        self._need_moment(moment)
        return not self._is_none(self._call_pull(handle, device, moment, byref(packet)))

    def pull_many(self, moment: int, count: int, device: int = 0) -> list[Packet]:
        """Pulls the device up to `count` times at this moment, up to the first pull that emits none. Returns the packets.

        However large `count` is, memory is allocated only for the packets that are left and one more. A negative one raises `ValueError`.
        """
        if count < 0:
            raise ValueError(f"a count of pulls is 0 or more, and not {count}")
        handle = self._need_open()
        self._need_moment(moment)
        # After all packets that are left, one more pull emits none, and is the last.
        most = min(count, self.left(device) + 1)
        packets = (library.Packet * max(most, 1))()
        given = ctypes.c_size_t()
        self._is_none(LIBRARY.clk_router_pull_many(handle, device, moment, packets, most, byref(given)))
        return [_packet(packets[i]) for i in range(given.value)]

    def pulls(self, moment: int, device: int = 0) -> Iterator[Packet]:
        """Pulls the device at this moment, once for each packet that is asked for, up to the first pull that emits none."""
        while (it := self.pull(moment, device)) is not None:
            yield it

    def drain(self, device: int = 0, pulls: int | None = None) -> Iterator[Departure]:
        """Pulls the device one tick apart, from one tick after its latest moment, until all that is left for it is emitted.

        Pulls are made as packets are asked for. If `pulls` is given, the iterator ends early, with packets left, after so many pulls in a
        row that emit none. If `pulls` isn't from 0 to 2^64 - 1, it raises `ValueError`.
        """
        return self._drained(device, self._most_pulls(pulls))

    def _drained(self, device: int, most: int) -> Iterator[Departure]:
        departure = library.Departure()
        while self._drain(device, most, departure):
            yield _departure(departure)

    def _drain(self, device: int, most: int, departure: library.Departure) -> bool:
        """Drains the device of one packet, and fills in `departure` in one call of the library. Returns whether a packet was emitted."""
        handle = self._need_open()
        self._need_device(device)
        given = ctypes.c_size_t()
        self._is_none(LIBRARY.clk_router_drain(handle, device, byref(departure), 1, most, byref(given)))
        return given.value != 0

    # State.

    def moment(self, device: int = 0) -> int:
        """The device's latest moment, in ticks: the greatest at which it was pulled so far, and 0 before its first pull."""
        return self._number(LIBRARY.clk_router_moment, device)

    def due(self, device: int = 0) -> int | None:
        """The earliest moment at which a pull of the device could emit a packet, in ticks, as things stand; None if none is left for it."""
        handle = self._need_open()
        self._need_device(device)
        it = ctypes.c_uint64()
        return None if self._is_none(LIBRARY.clk_router_due(handle, device, byref(it))) else it.value

    def left(self, device: int = 0) -> int:
        """How many packets are left for the device: in its queues, or held by its schedulers."""
        return self._number(LIBRARY.clk_router_left, device)

    @property
    def devices(self) -> int:
        """How many devices there are."""
        return int(LIBRARY.clk_router_devices(self._need_open()))

    def accounts(self) -> list[Account]:
        """The totals of the packets of each sender, in the order of the senders' numbers."""
        return [self._account(place) for place in range(LIBRARY.clk_router_senders(self._need_open()))]

    def sender_names(self) -> list[str]:
        """The names of the senders' elements in the tree, in the order of the senders' numbers."""
        return [self._sender_name(place) for place in range(LIBRARY.clk_router_senders(self._need_open()))]

    def queues(self) -> list[Queue]:
        """The queues, by number, that is in the order of declaration."""
        return [self._queue(number) for number in range(LIBRARY.clk_router_queues(self._need_open()))]

    def _account(self, place: int) -> Account:
        it = library.Account()
        self._need(LIBRARY.clk_router_account(self._need_open(), place, byref(it)))
        return Account(it.sender, it.queue, _total(it.accepted), _total(it.refused), _total(it.evicted), _total(it.emitted))

    def _sender_name(self, place: int) -> str:
        needed = ctypes.c_size_t()
        unused = (ctypes.c_uint8 * 1)()
        LIBRARY.clk_router_sender_name(self._need_open(), place, unused, 0, byref(needed))
        name = (ctypes.c_uint8 * needed.value)()
        self._need(LIBRARY.clk_router_sender_name(self._need_open(), place, name, needed.value, byref(needed)))
        return bytes(name).decode()

    def _queue(self, number: int) -> Queue:
        it = library.Queue()
        self._need(LIBRARY.clk_router_queue(self._need_open(), number, byref(it)))
        return Queue(it.capacity, it.held, it.device, it.front_drop != 0)

    def _number(self, call: Callable[..., int], device: int) -> int:
        handle = self._need_open()
        self._need_device(device)
        it = ctypes.c_uint64()
        self._need(call(handle, device, byref(it)))
        return it.value

    # Tests of arguments. ctypes cuts numbers to the size of C's types, so they are tested first.

    def _need_open(self) -> _Handle:
        """The handle. It stays open while the caller refers to it, even if another thread shuts the router."""
        if (handle := self._handle) is None:
            raise Shut("the router is shut")
        return handle

    @staticmethod
    def _need_offer(sender: int, length: int) -> None:
        if not 0 <= sender < _END_OF_NUMBERS:
            raise UnknownSender(f"there is no sender {sender}")
        if not 1 <= length < _END_OF_NUMBERS:
            raise BadLength(f"a packet has 1 to 65,535 bytes, and not {length}")

    @staticmethod
    def _need_device(device: int) -> None:
        if not 0 <= device < _END_OF_NUMBERS:
            raise UnknownDevice(f"there is no device {device}")

    @staticmethod
    def _most_pulls(pulls: int | None) -> int:
        if pulls is None:
            return _ALL_PULLS
        if not 0 <= pulls <= _ALL_PULLS:
            raise ValueError(f"a count of pulls is from 0 to {_ALL_PULLS}, and not {pulls}")
        return pulls

    @staticmethod
    def _need_moment(moment: int) -> None:
        if not 0 <= moment < END_OF_MOMENTS:
            raise AtEnd(f"a moment is from 0 to {END_OF_MOMENTS - 1}, and not {moment}")

    @staticmethod
    def _need(status: int) -> None:
        if status == library.OK:
            return
        if status == library.UNKNOWN_SENDER:
            raise UnknownSender("there is no such sender")
        if status == library.UNKNOWN_DEVICE:
            raise UnknownDevice("there is no such device")
        if status == library.AT_END:
            raise AtEnd("numbers or moments are at their end")
        raise Error(f"the library answered {status}")

    @staticmethod
    def _is_none(status: int) -> bool:
        if status != library.NONE:
            Router._need(status)
        return status == library.NONE
