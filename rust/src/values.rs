//! Plain values: packets, offers, accounts and queues.

/// A packet. The library carries no contents of it.
#[derive(Clone, Copy, Debug, Default, PartialEq, Eq, Hash)]
#[repr(C)]
pub struct Packet {
    /// Its place among all packets that its sender offered, from 0. Refused packets count.
    pub number: u32,
    /// The number of its sender, that of `Sender(N)`.
    pub sender: u16,
    /// Its length in bytes, 1 to 65,535.
    pub length: u16,
}

/// An offer, for [`Router::offer_many`](crate::Router::offer_many).
#[derive(Clone, Copy, Debug, Default, PartialEq, Eq, Hash)]
#[repr(C)]
pub struct Offer {
    /// The number of the sender.
    pub sender: u32,
    /// The length of the packet in bytes, 1 to 65,535.
    pub length: u32,
}

/// A packet that was offered to a [`Router`](crate::Router), and the outcome.
#[derive(Clone, Copy, Debug, Default, PartialEq, Eq, Hash)]
#[repr(C)]
#[must_use = "the packet may be refused, or another evicted for it"]
pub struct Offered {
    packet: Packet,
    evicted: Packet,
    outcome: u32,
}

/// The outcome of an offer to a [`Router`](crate::Router).
#[derive(Clone, Copy, Debug, PartialEq, Eq, Hash)]
#[must_use = "the packet may be refused, or another evicted for it"]
pub enum Outcome {
    /// Its queue accepted it.
    Accepted,
    /// Its queue, a `Queue`, was full and refused it.
    Refused,
    /// Its queue, a `FrontDropQueue`, was full, accepted it, and evicted this packet, maybe of another sender.
    Evicting(Packet),
}

/// The outcomes of the C library besides that a packet was accepted. A test compares them with the header.
pub(crate) const REFUSED: u32 = 1;
pub(crate) const EVICTED: u32 = 2;

impl Offered {
    /// The packet, with its number.
    #[inline]
    pub fn packet(&self) -> Packet {
        self.packet
    }

    /// The outcome.
    #[inline]
    pub fn outcome(&self) -> Outcome {
        match self.outcome {
            REFUSED => Outcome::Refused,
            EVICTED => Outcome::Evicting(self.evicted),
            _ => Outcome::Accepted,
        }
    }

    /// Whether its queue accepted it.
    #[inline]
    pub fn is_accepted(&self) -> bool {
        self.outcome != REFUSED
    }
}

/// A packet that a drain emitted.
#[derive(Clone, Copy, Debug, Default, PartialEq, Eq, Hash)]
#[repr(C)]
pub struct Departure {
    /// When it was emitted, in ticks.
    pub moment: u64,
    /// The packet.
    pub packet: Packet,
}

/// How many packets, and the sum of their lengths.
#[derive(Clone, Copy, Debug, Default, PartialEq, Eq, Hash)]
#[repr(C)]
pub struct Total {
    /// How many packets.
    pub packets: u64,
    /// The sum of their lengths in bytes.
    pub bytes: u64,
}

/// How many of a sender's packets were accepted, refused, evicted and emitted, and of how many bytes.
///
/// `accepted` and `refused` together are what it offered. `evicted` and `emitted` are parts of `accepted`; what is left of it is still
/// inside the router.
#[derive(Clone, Copy, Debug, Default, PartialEq, Eq, Hash)]
#[repr(C)]
pub struct Account {
    /// Packets that the sender's queue accepted.
    pub accepted: Total,
    /// Packets that the sender's queue refused.
    pub refused: Total,
    /// Packets that were evicted for later ones, of this sender or another.
    pub evicted: Total,
    /// Packets that a device emitted.
    pub emitted: Total,
    /// The number of the sender.
    pub sender: u16,
    /// The number of the queue that it pushes to.
    pub queue: u16,
}

/// A queue.
#[derive(Clone, Copy, Debug, Default, PartialEq, Eq, Hash)]
pub struct Queue {
    /// How many packets it holds at most.
    pub capacity: u64,
    /// How many packets it holds now. Those that schedulers hold are not among them.
    pub held: u64,
    /// The number of the device that its packets go to.
    pub device: u16,
    /// Whether it is a `FrontDropQueue`, which evicts, and no `Queue`, which refuses.
    pub front_drop: bool,
}
