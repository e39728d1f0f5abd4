"""Bounded queues and the tree of schedulers through which a link pulls them, over the proved library clickpull.

This module stands outside what is proved. The calls of the library are proved; include/clickpull.h says what each does.

A `Router` carries packets (a sender, a number and a length), and a `Carrier` a value of the caller's with each packet. A `Dispatcher` is a
carrier between threads or tasks of asyncio: some submit jobs, and others wait until the next one is due. Each is opened from a tree in
Click's language and is a context manager. A `Record` notes what any of them did, as a script::

    with Router("a :: Sender(0); q :: Queue(4); d :: ToDevice(link); a -> q -> d;") as router:
        router.offer(0, 1500)
        for packet in router.pulls(10):
            print(packet)

Lengths are in bytes, and moments in ticks. A call that can't be made raises an `Error` and changes nothing. A refused packet, or a pull
that emits none, is no error.

Threads may share a `Router`, a `Carrier` and a `Record` without a lock of their own. The library is called with Python's global lock held,
so its calls come one after the other. A `Carrier` and a `Record` also have a lock. One thread may close what another uses: the other's next
call raises `Shut`. Calls of several steps let other threads in between: iterators, where each packet is a step; `Router.accounts` and
`Router.queues`, where each entry is a step; and `Router.pull_many`, which first asks what is left. On a Python without the global lock,
threads that share a `Router` need a lock of their own.

An interrupt, as by Ctrl-C, may come at any point of a call, and later calls work. `Carrier` and `Dispatcher` say what happens to
the packet; the accounts of a `Router` tell. A signal handler or a finalizer (`__del__`, a callback of `weakref`) must call no `Carrier`,
`Dispatcher` or `Record` that the interrupted code may be calling: a call within a call may give values to other packets.
"""
# The version of the library; tests/pages compares the two. Packages read it here, and so does what is imported below.
__version__ = "0.1.0"

from clickpull.carrier import Carried, Carrier, Evicted, Offer
from clickpull.clock import Clock
from clickpull.dispatcher import Dispatcher, Job, Submission
from clickpull.errors import AtEnd, BadLength, Ended, Error, Shut, TextFault, UnknownDevice, UnknownSender
from clickpull.record import Record
from clickpull.router import END_OF_MOMENTS, Router
from clickpull.values import Account, Departure, Offered, Outcome, Packet, Queue, Total

__all__ = [
    "END_OF_MOMENTS",
    "Account",
    "AtEnd",
    "BadLength",
    "Carried",
    "Carrier",
    "Clock",
    "Departure",
    "Dispatcher",
    "Ended",
    "Error",
    "Evicted",
    "Job",
    "Offer",
    "Offered",
    "Outcome",
    "Packet",
    "Queue",
    "Record",
    "Router",
    "Shut",
    "Submission",
    "TextFault",
    "Total",
    "UnknownDevice",
    "UnknownSender",
    "__version__",
]
