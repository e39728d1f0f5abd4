"""Finds and loads the shared library, and says what its calls take. It stands outside what is proved.

The structures and parameters are those of include/clickpull.h; tests/library compares the two.
"""
import ctypes
import os
from ctypes import POINTER, Structure, c_char_p, c_size_t, c_uint8, c_uint16, c_uint32, c_uint64, c_void_p
from pathlib import Path
from typing import Any

from clickpull import __version__

NAME = "libclickpull.so"
VARIABLE = "CLICKPULL_LIBRARY"

# Statuses.
OK, NONE, SHUT, NULL, UNKNOWN_SENDER, UNKNOWN_DEVICE, BAD_LENGTH, AT_END, UNKNOWN_QUEUE, FAULT, FULL, BAD_ROOM, HANDED_OUT, RECLAIMED = range(14)


class RouterHandle(Structure):
    """A router in the library's hands, or none where `at` is null."""

    _fields_ = [("at", c_void_p)]
    at: int | None


class Fault(Structure):
    """Why no router was opened."""

    _fields_ = [("number", c_uint32), ("offset", c_uint32)]
    number: int
    offset: int


class Packet(Structure):
    """A packet."""

    _fields_ = [("number", c_uint32), ("sender", c_uint16), ("length", c_uint16)]
    number: int
    sender: int
    length: int


class Offered(Structure):
    """What an offer returns."""

    _fields_ = [("packet", Packet), ("evicted", Packet), ("outcome", c_uint32)]
    packet: Packet
    evicted: Packet
    outcome: int


class OfferOf(Structure):
    """One of several offers."""

    _fields_ = [("sender", c_uint32), ("length", c_uint32)]
    sender: int
    length: int


class Departure(Structure):
    """A packet that a drain emitted."""

    _fields_ = [("moment", c_uint64), ("packet", Packet)]
    moment: int
    packet: Packet


class Total(Structure):
    """How many packets, and the sum of their lengths."""

    _fields_ = [("packets", c_uint64), ("bytes", c_uint64)]
    packets: int
    bytes: int


class Account(Structure):
    """The totals of the packets that a sender offered."""

    _fields_ = [
        ("accepted", Total),
        ("refused", Total),
        ("evicted", Total),
        ("emitted", Total),
        ("sender", c_uint16),
        ("queue", c_uint16),
    ]
    accepted: Total
    refused: Total
    evicted: Total
    emitted: Total
    sender: int
    queue: int


class Queue(Structure):
    """A queue."""

    _fields_ = [("capacity", c_uint64), ("held", c_uint64), ("device", c_uint16), ("front_drop", c_uint16)]
    capacity: int
    held: int
    device: int
    front_drop: int


class InletHandle(Structure):
    """An inlet in the library's hands, or none where `at` is null."""

    _fields_ = [("at", c_void_p)]
    at: int | None


class Item(Structure):
    """One of several packets for an inlet."""

    _fields_ = [("token", c_uint64), ("length", c_uint32)]
    token: int
    length: int


class LiveHandle(Structure):
    """A live router in the library's hands, or none where `at` is null."""

    _fields_ = [("at", c_void_p)]
    at: int | None


class Taken(Structure):
    """A packet that was taken from its inlet and offered to its queue, with the outcome."""

    _fields_ = [("packet", Packet), ("token", c_uint64), ("evicted", Packet), ("evicted_token", c_uint64), ("outcome", c_uint32)]
    packet: Packet
    token: int
    evicted: Packet
    evicted_token: int
    outcome: int


class Emitted(Structure):
    """A packet that a device of a live router emitted."""

    _fields_ = [("packet", Packet), ("token", c_uint64)]
    packet: Packet
    token: int


class Departed(Structure):
    """A packet that a drain of a live router emitted."""

    _fields_ = [("moment", c_uint64), ("packet", Packet), ("token", c_uint64)]
    moment: int
    packet: Packet
    token: int


ROUTER = POINTER(RouterHandle)
INLET = POINTER(InletHandle)
LIVE = POINTER(LiveHandle)
COUNT = POINTER(c_size_t)
# The text of a record with its length, how much of it is used, and how many lines the record has.
RECORD = [POINTER(c_uint8), c_size_t, COUNT, POINTER(c_uint32)]

# The parameters and results of each call.
CALLS: dict[str, tuple[list[Any], type[Any] | None]] = {
    "clk_router_open": ([POINTER(c_uint8), c_size_t, ROUTER, POINTER(Fault)], c_uint32),
    "clk_router_close": ([RouterHandle], None),
    "clk_router_explain": ([POINTER(c_uint8), c_size_t, POINTER(Fault), POINTER(c_uint8), c_size_t, COUNT], c_uint32),
    "clk_router_offer": ([ROUTER, c_uint32, c_uint32, POINTER(Offered)], c_uint32),
    "clk_router_offer_many": ([ROUTER, POINTER(OfferOf), c_size_t, POINTER(Offered), c_size_t, COUNT], c_uint32),
    "clk_router_pull": ([ROUTER, c_uint16, c_uint64, POINTER(Packet)], c_uint32),
    "clk_router_pull_many": ([ROUTER, c_uint16, c_uint64, POINTER(Packet), c_size_t, COUNT], c_uint32),
    "clk_router_moment": ([ROUTER, c_uint16, POINTER(c_uint64)], c_uint32),
    "clk_router_due": ([ROUTER, c_uint16, POINTER(c_uint64)], c_uint32),
    "clk_router_left": ([ROUTER, c_uint16, POINTER(c_uint64)], c_uint32),
    "clk_router_drain": ([ROUTER, c_uint16, POINTER(Departure), c_size_t, c_uint64, COUNT], c_uint32),
    "clk_router_senders": ([ROUTER], c_size_t),
    "clk_router_account": ([ROUTER, c_size_t, POINTER(Account)], c_uint32),
    "clk_router_sender_name": ([ROUTER, c_size_t, POINTER(c_uint8), c_size_t, COUNT], c_uint32),
    "clk_router_queues": ([ROUTER], c_size_t),
    "clk_router_queue": ([ROUTER, c_uint16, POINTER(Queue)], c_uint32),
    "clk_router_devices": ([ROUTER], c_size_t),
    "clk_raw_inlet_offer": ([INLET, c_uint32, c_uint64, POINTER(c_uint32)], c_uint32),
    "clk_raw_inlet_offer_many": ([INLET, POINTER(Item), c_size_t, COUNT], c_uint32),
    "clk_raw_inlet_room": ([INLET], c_size_t),
    "clk_raw_inlet_close": ([InletHandle], None),
    "clk_raw_live_open": ([POINTER(c_uint8), c_size_t, c_uint32, LIVE, POINTER(Fault)], c_uint32),
    "clk_raw_live_close": ([LiveHandle], None),
    "clk_raw_live_inlet": ([LIVE, c_uint32, INLET], c_uint32),
    "clk_raw_live_take": ([LIVE, c_uint32, POINTER(Taken), c_size_t, COUNT], c_uint32),
    "clk_raw_live_take_in": ([LIVE, c_size_t, POINTER(Taken), c_size_t, COUNT], c_uint32),
    "clk_raw_live_take_what_fits": ([LIVE, c_size_t, POINTER(Taken), c_size_t, COUNT], c_uint32),
    "clk_raw_live_pull": ([LIVE, c_uint16, c_uint64, POINTER(Emitted)], c_uint32),
    "clk_raw_live_pull_many": ([LIVE, c_uint16, c_uint64, POINTER(Emitted), c_size_t, COUNT], c_uint32),
    "clk_raw_live_drain": ([LIVE, c_uint16, POINTER(Departed), c_size_t, c_uint64, COUNT], c_uint32),
    "clk_raw_live_ended": ([LIVE], c_uint32),
    "clk_raw_live_drained": ([LIVE], c_uint32),
    "clk_raw_live_reclaim": ([LIVE, POINTER(c_uint64), c_size_t, COUNT], c_uint32),
    "clk_raw_live_moment": ([LIVE, c_uint16, POINTER(c_uint64)], c_uint32),
    "clk_raw_live_due": ([LIVE, c_uint16, POINTER(c_uint64)], c_uint32),
    "clk_raw_live_left": ([LIVE, c_uint16, POINTER(c_uint64)], c_uint32),
    "clk_raw_live_senders": ([LIVE], c_size_t),
    "clk_raw_live_account": ([LIVE, c_size_t, POINTER(Account)], c_uint32),
    "clk_raw_live_queues": ([LIVE], c_size_t),
    "clk_raw_live_queue": ([LIVE, c_uint16, POINTER(Queue)], c_uint32),
    "clk_raw_live_devices": ([LIVE], c_size_t),
    "clk_raw_record_offered": ([POINTER(Offered), c_size_t, *RECORD], c_uint32),
    "clk_raw_record_taken": ([POINTER(Taken), c_size_t, *RECORD], c_uint32),
    "clk_raw_record_pulls": ([c_uint16, c_uint64, c_uint64, *RECORD], c_uint32),
    "clk_raw_record_drain": ([c_uint64, *RECORD], c_uint32),
}


def places() -> list[str]:
    """Where the library is looked for: only at the path that the variable names, or else beside this file and then by the loader.

    The loader is asked for the soname alone, since a libclickpull.so may be of a version that breaks this module.
    """
    if named := os.environ.get(VARIABLE):
        return [named]
    beside = sorted(str(it) for it in Path(__file__).parent.glob(NAME + "*"))
    return [*beside, NAME + ".0.1"]


def interface(version: str) -> str:
    """The part of a version that the module and the library have to have in common: MAJOR.MINOR."""
    return version.rpartition(".")[0]


def call_of(library: ctypes.PyDLL, name: str, parameters: list[Any], answer: type[Any] | None) -> Any:
    """A call of the library that has this name, these parameters and this result."""
    try:
        call = getattr(library, name)
    except AttributeError:
        raise ImportError(f"clickpull: {library._name} isn't clickpull's shared library: it has no {name}") from None
    call.argtypes = parameters
    call.restype = answer
    return call


def loaded() -> ctypes.PyDLL:
    """The library. Its calls are short and hold the global lock, so two of them never run at once."""
    failures = []
    for place in places():
        try:
            library = ctypes.PyDLL(place)
            break
        except OSError as it:
            failures.append(str(it))
    else:
        raise ImportError(f"clickpull: no shared library is found ({'; '.join(failures)}); {VARIABLE} may name it")
    version = call_of(library, "clk_version", [], c_char_p)().decode()
    if interface(version) != interface(__version__):
        raise ImportError(f"clickpull: {library._name} has version {version}, and the module needs {interface(__version__)}")
    for name, (parameters, answer) in CALLS.items():
        call_of(library, name, parameters, answer)
    return library


LIBRARY = loaded()
