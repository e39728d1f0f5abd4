"""The values that calls return. They stand outside what is proved."""
from enum import IntEnum
from typing import NamedTuple


class Packet(NamedTuple):
    """A packet: its sender's number, its place among all that this sender offered, from 0, and its length in bytes."""

    sender: int
    number: int
    length: int


class Outcome(IntEnum):
    """The outcome of an offer."""

    ACCEPTED = 0
    """The queue accepted it."""
    REFUSED = 1
    """The queue, a full Queue, refused it."""
    EVICTED = 2
    """The queue, a full FrontDropQueue, accepted it and evicted the packet at its front."""


class Offered(NamedTuple):
    """A packet that was offered, with its outcome."""

    packet: Packet
    outcome: Outcome
    evicted: Packet | None
    """The packet that was evicted for it, maybe of another sender."""

    @property
    def accepted(self) -> bool:
        """Whether the queue accepted it."""
        return self.outcome is not Outcome.REFUSED


class Departure(NamedTuple):
    """A packet that a drain emitted, with the moment of its pull, in ticks."""

    moment: int
    packet: Packet


class Total(NamedTuple):
    """How many packets, and the sum of their lengths in bytes."""

    packets: int
    bytes: int


class Account(NamedTuple):
    """The totals of the packets that a sender offered; accepted and refused together are what it offered."""

    sender: int
    queue: int
    """The number of the queue to which it offers."""
    accepted: Total
    refused: Total
    evicted: Total
    """Those of the accepted packets that were evicted for later ones."""
    emitted: Total
    """Those of the accepted packets that the device emitted."""


class Queue(NamedTuple):
    """A queue: how many packets it holds at most and now, the device that emits them, and whether it is a FrontDropQueue."""

    capacity: int
    held: int
    device: int
    front_drop: bool
