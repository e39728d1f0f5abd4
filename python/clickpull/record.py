"""Records of what a router did. It stands outside what is proved."""
import ctypes
from collections.abc import Callable
from ctypes import byref
from functools import partial
from operator import methodcaller
from threading import RLock
from typing import Any

from clickpull import library
from clickpull.library import LIBRARY
from clickpull.router import Router
from clickpull.values import Packet

# Those of include/clickpull.h, which a test compares.
MOST_LINE = 25
MOST_LINES = 1_000_000
END_OF_RECORDED_MOMENTS = 1 << 40

# How many bytes a text has room for at first.
_FIRST_ROOM = 1024


class Record:
    """The script of what a router did: `clickpull script TREE RECORD` repeats it.

    It needs no router. Its caller adds a line for each packet that was offered, a refused one too, and for each pull that was made, one that
    gave none too, in the order of the calls on the router::

        record.send(router.offer(0, 1500).packet)
        packet = router.pull(10)
        record.pulls(0, 10)

    `Router.pull_many` made as many pulls as it gave packets, and one more if these are fewer than `count`. `drain` made one pull at each
    moment from one tick after the device's latest on, up to its latest moment then. A `Dispatcher` adds the lines itself.

    A copy by `copy` or `pickle` is a record of its own, with the text and the number of lines that there were.

    Threads may share a record. A call that raises has added nothing. One that an interrupt ended has added all of its lines or none, as
    `lines` tells. A signal handler or a finalizer must call no record that the interrupted code may be calling.
    """

    # The library writes the bytes and both counts in one call, so that no interrupt comes in between. The lock is needed where the text grows.
    # A thread may take it again, so that an interrupt can't block the thread that it comes to.

    def __init__(self) -> None:
        self._lock = RLock()
        self._text = (ctypes.c_uint8 * _FIRST_ROOM)()
        self._used = ctypes.c_size_t()
        self._lines = ctypes.c_uint32()

    def __getstate__(self) -> tuple[bytes, int]:
        """What a copy has."""
        with self._lock:
            return self.text(), self.lines

    def __setstate__(self, state: tuple[bytes, int]) -> None:
        """Makes a copy of what it has."""
        Record.__init__(self)
        text, self._lines.value = state
        self._text = (ctypes.c_uint8 * max(len(text), _FIRST_ROOM))()
        ctypes.memmove(self._text, text, len(text))
        self._used.value = len(text)

    # What was done.

    def send(self, packet: Packet) -> None:
        """Adds the line of a packet that was offered. Raises `UnknownSender` or `BadLength` if there can't be such a packet, and `AtEnd`."""
        Router._need_offer(packet.sender, packet.length)
        offered = library.Offered(library.Packet(0, packet.sender, packet.length))
        self._add(1, LIBRARY.clk_raw_record_offered, byref(offered), 1)

    def pulls(self, device: int, moment: int, count: int = 1) -> None:
        """Adds the lines of `count` pulls of the device, all at this moment in ticks: the one that was handed in, even if a later one counted.

        Raises `UnknownDevice` if there can't be such a device, `ValueError` if `count` isn't from 0 to 2^64 - 1, and `AtEnd`.
        """
        Router._need_device(device)
        Router._need_moment(moment)
        self._add(count, LIBRARY.clk_raw_record_pulls, device, moment, Router._most_pulls(count))

    def drain(self, moment: int = 0) -> None:
        """Adds the line that ends a record: all devices were drained, by rising number and each until nothing was left.

        The pulls began one tick after this moment or after the device's latest one, whichever is later. No line may follow. Raises `AtEnd`.
        """
        Router._need_moment(moment)
        self._add(1, LIBRARY.clk_raw_record_drain, moment)

    # What it has.

    def text(self) -> bytes:
        """Returns what was added since the last `clear`."""
        with self._lock:
            return ctypes.string_at(self._text, self._used.value)

    def clear(self) -> None:
        """Drops the text, as after it was written to a file. The number of lines stays.

        What another thread adds between `text` and `clear` is dropped too.
        """
        with self._lock:
            self._used.value = 0

    @property
    def lines(self) -> int:
        """How many lines were added since it was made: 1,000,000 at most."""
        return self._lines.value

    # How lines are added. The callers of what follows `_add` hold the lock.

    def _add(self, count: int, call: Callable[..., int], *arguments: Any) -> None:
        """Adds `count` lines by a call of the library."""
        with self._lock:
            status = call(*arguments, *self._place())
            if status == library.FULL:
                # The library says so only if the record may have so many lines more.
                self._make_room(count)
                status = call(*arguments, *self._place())
            Router._need(status)

    def _place(self) -> tuple[Any, ...]:
        """Where the library adds lines."""
        return self._text, len(self._text), byref(self._used), byref(self._lines)

    def _make_room(self, count: int) -> None:
        """Makes room for so many lines more."""
        used = self._used.value
        if len(self._text) - used < count * MOST_LINE:
            text = (ctypes.c_uint8 * max(2 * len(self._text), used + count * MOST_LINE))()
            ctypes.memmove(text, self._text, used)
            self._text = text

    def _line(self, moment: int, call: Callable[..., int], *arguments: Any) -> partial[int] | None:
        """A call that adds a line of this moment and doesn't fail, or None if the record can't have the line."""
        if self._lines.value >= MOST_LINES or moment >= END_OF_RECORDED_MOMENTS:
            return None
        self._make_room(1)
        return partial(call, *arguments, *self._place())


class Recorder:
    """Makes a router's calls of the library, and records them. No interrupt comes between a call and its line.

    Once the record can't have a line, or an allocation for one fails, nothing more is recorded. So the record has the beginning of what
    happened. The router goes on.
    """

    def __init__(self, record: Record) -> None:
        self._record = record
        self.goes_on = True
        """Whether the next call is recorded, if the record can have its line."""

    def offer(self, handle: Any, sender: int, length: int, offered: Any) -> int:
        """Does what clk_router_offer does."""
        call: partial[int] = partial(LIBRARY.clk_router_offer, handle, sender, length, offered)
        with self._record._lock:
            line = self._line(0, LIBRARY.clk_raw_record_offered, offered, 1)
            # An offer that can't be made has no line.
            return _together(call, line) if line else call()

    def pull(self, handle: Any, device: int, moment: int, packet: Any) -> int:
        """Does what clk_router_pull does, for a device and a moment that can be pulled."""
        call: partial[int] = partial(LIBRARY.clk_router_pull, handle, device, moment, packet)
        with self._record._lock:
            line = self._line(moment, LIBRARY.clk_raw_record_pulls, device, moment, 1)
            # The line comes first, since a pull that gives none returns another status than OK.
            return _together(line, call) if line else call()

    def _line(self, moment: int, call: Callable[..., int], *arguments: Any) -> partial[int] | None:
        line = None
        if self.goes_on:
            try:
                line = self._record._line(moment, call, *arguments)
            except MemoryError:
                pass
            self.goes_on = line is not None
        return line


def _together(*calls: partial[int]) -> int:
    """Makes calls of the library up to the first that doesn't return OK, and returns the latest status.

    All that `next` calls is written in C, and so no interrupt comes between two calls.
    """
    return next(filter(None, map(methodcaller("__call__"), calls)), library.OK)
