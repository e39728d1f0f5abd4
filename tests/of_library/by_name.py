"""Calls a shared library by the names of the header's calls, as languages do that can't call inline functions: by_name.py LIBRARY CALLS

CALLS, as JSON, has of each call what it returns and how many parameters it has. The structs are those of the Python module. It prints the
library's version, and stands outside what is proved.
"""
import ctypes
import json
import sys
from ctypes import byref, c_char_p, c_size_t, c_uint64

from clickpull.library import Emitted, InletHandle, LiveHandle, Offered, Packet, RouterHandle, Taken

OK, NONE, SHUT, NULL = 0, 1, 2, 3
# What a call returns whose pointers are all null.
REFUSED = {"clk_status": NULL, "size_t": 0}
TREE = b"a :: Sender(0); q :: Queue(4); d :: ToDevice(link); a -> q -> d;"


class Record(ctypes.Structure):
    """A clk_record, which Python's module hasn't."""

    _fields_ = [("text", c_char_p), ("room", c_size_t), ("used", c_size_t), ("lines", ctypes.c_uint32)]


def expect(what: str, found: object, wanted: object) -> None:
    """Ends with an error where two differ."""
    if found != wanted:
        sys.exit(f"{what}: {found!r}, where it has to be {wanted!r}")


def null_pointers_are_tested(library: ctypes.CDLL, calls: dict[str, tuple[str, int]]) -> None:
    """Each call is there, and a call that returns a status or a count tests its pointers."""
    for name, (returned, count) in calls.items():
        call = getattr(library, name)
        if returned in REFUSED:
            expect(name, call(*[None] * count), REFUSED[returned])


def router_is_used(library: ctypes.CDLL) -> None:
    """A router carries a packet."""
    router, offered, packet = RouterHandle(), Offered(), Packet()
    expect("clk_open", library.clk_open(TREE, c_size_t(len(TREE)), byref(router), None), OK)
    expect("clk_offer", library.clk_offer(byref(router), 0, 1500, byref(offered)), OK)
    expect("clk_pull", library.clk_pull(byref(router), 0, c_uint64(7), byref(packet)), OK)
    expect("the packet", (packet.sender, packet.number, packet.length), (0, 0, 1500))
    expect("clk_pull of none", library.clk_pull(byref(router), 0, c_uint64(8), byref(packet)), NONE)
    library.clk_close(byref(router))
    expect("clk_pull once closed", library.clk_pull(byref(router), 0, c_uint64(9), byref(packet)), SHUT)


def live_router_is_used(library: ctypes.CDLL) -> None:
    """A live router carries a packet with its token, and a record has its line."""
    live, inlet, taken, emitted, given = LiveHandle(), InletHandle(), Taken(), Emitted(), c_size_t()
    expect("clk_live_open", library.clk_live_open(TREE, c_size_t(len(TREE)), 4, byref(live), None), OK)
    expect("clk_live_inlet", library.clk_live_inlet(byref(live), 0, byref(inlet)), OK)
    expect("clk_inlet_offer", library.clk_inlet_offer(byref(inlet), 64, c_uint64(2**63 + 5), None), OK)
    expect("clk_inlet_close", library.clk_inlet_close(byref(inlet)), OK)
    expect("clk_live_take", library.clk_live_take(byref(live), 0, byref(taken), c_size_t(1), byref(given)), OK)
    buffer = ctypes.create_string_buffer(100)
    record = Record(ctypes.cast(buffer, c_char_p), 100, 0, 0)
    expect("clk_record_taken", library.clk_record_taken(byref(record), byref(taken), given), OK)
    expect("the record", (buffer.raw[: record.used], record.lines), (b"send 0 64\n", 1))
    expect("clk_live_pull", library.clk_live_pull(byref(live), 0, c_uint64(1), byref(emitted)), OK)
    expect("the token", emitted.token, 2**63 + 5)
    library.clk_live_close(byref(live))


def main(path: str, calls: str) -> None:
    """Loads the library, and calls it."""
    library = ctypes.CDLL(path)
    null_pointers_are_tested(library, json.loads(calls))
    router_is_used(library)
    live_router_is_used(library)
    for name in ("clk_version", "clk_fault_name"):
        getattr(library, name).restype = c_char_p
    expect("clk_fault_name", library.clk_fault_name(7), b"BadPort")
    print(library.clk_version().decode())


if __name__ == "__main__":
    main(*sys.argv[1:])
