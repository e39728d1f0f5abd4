//! Live routers, whose senders offer from threads of their own.

use std::fmt;
use std::iter::FusedIterator;

use crate::error::Error;
use crate::ffi::{self, table, Emptying};
use crate::inlet::Inlet;
use crate::layout::RawTaken;
use crate::looks::looks;
use crate::router::{Progress, Stop};
use crate::takes::{Batch, Takes};
use crate::values::Packet;
use crate::{END_OF_MOMENTS, MOST_TAKEN};

/// How many packets of one sender schedulers hold at most. A `DRRSched` holds one packet of each of its inputs, and a path from a queue to its
/// device has at most so many schedulers.
pub(crate) const MOST_HELD: u32 = 64;

/// A packet that a device emitted, with its value.
#[derive(Clone, Debug, PartialEq, Eq)]
pub struct Emitted<T> {
    /// The packet.
    pub packet: Packet,
    /// The value that went in with it.
    pub value: T,
}

/// A packet that a drain emitted, with its value.
#[derive(Clone, Debug, PartialEq, Eq)]
pub struct Departed<T> {
    /// When it was emitted, in ticks.
    pub moment: u64,
    /// The packet.
    pub packet: Packet,
    /// The value that went in with it.
    pub value: T,
}

/// The values of one sender's packets that are inside.
struct Line<T> {
    sender: u16,
    /// How many packets of the sender its queue holds at most.
    capacity: u32,
    /// The values, once the inlet was handed out.
    values: Option<Emptying<T>>,
}

/// The values of the packets that are inside, by the places of their senders.
pub(crate) struct Lines<T>(Box<[Line<T>]>);

impl<T> Lines<T> {
    /// The value of the packet with this token, which has the place of the sender in its upper half and that of the value in its lower.
    ///
    /// # Panics
    ///
    /// If the value was taken before: the library returns each token once.
    pub(crate) fn value(&mut self, token: u64) -> T {
        let values = self.0[(token >> 32) as usize].values.as_mut();
        values.and_then(|it| it.take(token as u32)).expect("the library returns each token once")
    }
}

/// A router whose senders offer from threads of their own, and whose packets carry values.
///
/// Each sender has an [`Inlet`]. The thread that has the `LiveRouter` takes packets from the inlets, offers them to the queues, and pulls the
/// devices. Each value comes back once: from a pull that emits its packet, from a take whose packet was refused or evicted another, from an offer
/// that was not accepted, or from [`LiveRouter::reclaim`].
///
/// It may move to another thread if `T` may, and it is not `Sync`. No call waits or takes a lock, and none but [`LiveRouter::open`] and
/// [`LiveRouter::inlet`] allocates. The library wakes nobody: a thread that finds nothing to take pauses, or sleeps until a sender wakes it
/// by means of your own.
///
/// If you drop it first, the inlets stay good until they are full, and whoever leaves last drops the values that are still inside.
pub struct LiveRouter<T> {
    // It is dropped first: no token is in use when values are dropped.
    raw: ffi::Live,
    lines: Lines<T>,
    batch: Batch,
    room: u32,
}

impl<T> LiveRouter<T> {
    /// Opens the live router of the tree in `text`, with an inlet for each sender that has room for `room` packets.
    ///
    /// It allocates 16 bytes for each packet that an inlet has room for, and 16 for each that the queues can hold. Values take memory as they
    /// are offered.
    ///
    /// # Errors
    ///
    /// [`Error::BadRoom`] if `room` is not from 1 to [`MOST_ROOM`](crate::MOST_ROOM), [`Error::Text`] for the first fault of the text, and
    /// [`Error::OutOfMemory`] for an allocation of the C library that failed. This crate itself allocates a place for each sender, a buffer for
    /// takes, and the explanation of a fault. It aborts if one of these allocations fails.
    pub fn open(text: &str, room: u32) -> Result<Self, Error> {
        let raw = ffi::Live::open(text, room)?;
        let line = |place| {
            let account = raw.account(place).expect("each place has a sender");
            let queue = raw.queue(account.queue).expect("each sender has a queue");
            Line { sender: account.sender, capacity: queue.capacity as u32, values: None }
        };
        let lines = (0..raw.senders()).map(line).collect();
        Ok(LiveRouter { raw, lines: Lines(lines), batch: Batch::new(), room })
    }

    /// Hands out the inlet of a sender, once.
    ///
    /// # Errors
    ///
    /// [`Error::UnknownSender`], or [`Error::HandedOut`] if the inlet was handed out before.
    pub fn inlet(&mut self, sender: u32) -> Result<Inlet<T>, Error> {
        let inlet = self.raw.inlet(sender)?;
        let place = self.lines.0.iter().position(|it| u32::from(it.sender) == sender).expect("the sender has an inlet");
        let line = &mut self.lines.0[place];
        // So many values are inside at most: in the ring, in the queue, held by schedulers, and taken but not handed on.
        let (filling, emptying) = table(self.room + line.capacity + MOST_HELD + MOST_TAKEN as u32);
        line.values = Some(emptying);
        Ok(Inlet::new(inlet, filling, line.sender, (place as u64) << 32))
    }

    /// Takes packets from the inlet of one sender, and offers each to the sender's queue. It takes `count` at most, and
    /// [`MOST_TAKEN`].
    ///
    /// The packets are taken when the call returns. If it took fewer than it may, no more were seen in the inlet.
    ///
    /// ```
    /// use clickpull::{LiveRouter, Taken};
    ///
    /// let mut router = LiveRouter::open("a :: Sender(0); q :: Queue(1); d :: ToDevice(eth0); a -> q -> d;", 8)?;
    /// let mut inlet = router.inlet(0)?;
    /// for job in ["first", "second"] {
    ///     inlet.offer(1500, job).unwrap();
    /// }
    /// let taken: Vec<_> = router.take(0, 64)?.collect();
    /// assert!(matches!(taken[0], Taken::Accepted(_)));
    /// assert!(matches!(taken[1], Taken::Refused(_, "second")));
    /// # Ok::<(), clickpull::Error>(())
    /// ```
    ///
    /// # Errors
    ///
    /// [`Error::UnknownSender`].
    pub fn take(&mut self, sender: u32, count: usize) -> Result<Takes<'_, T>, Error> {
        self.takes(count, |raw, places| raw.take(sender, places))
    }

    /// Takes packets in one round over all senders, at most `each` from each, as [`LiveRouter::take`] does. If it takes as many as it may, the
    /// round ends early, and the next one starts after the sender of its last packet: so each sender has its turn. Otherwise, if this one took a
    /// packet, the next one starts one sender later. So none of the senders of a queue is the first in each round, but which of them gets a free
    /// place of a full queue depends on what else is taken.
    pub fn take_in(&mut self, each: usize, count: usize) -> Takes<'_, T> {
        self.takes(count, |raw, places| raw.take_in(each, places)).expect("a round over all senders does not fail")
    }

    /// Does what [`LiveRouter::take_in`] does, but leaves a packet in its inlet while its queue is full. So each packet that is taken is accepted,
    /// and none is evicted.
    pub fn take_what_fits(&mut self, each: usize, count: usize) -> Takes<'_, T> {
        self.takes(count, |raw, places| raw.take_what_fits(each, places)).expect("a round over all senders does not fail")
    }

    /// What `take` takes: it fills `count` places at most, and returns how many.
    fn takes(
        &mut self,
        count: usize,
        take: impl FnOnce(&mut ffi::Live, &mut [RawTaken]) -> Result<usize, Error>,
    ) -> Result<Takes<'_, T>, Error> {
        // If an earlier iterator was leaked, or a value panicked as it was dropped, values of its packets are still in their places.
        drop(Takes::new(&mut self.batch, &mut self.lines));
        self.batch.fill(count, |places| take(&mut self.raw, places))?;
        Ok(Takes::new(&mut self.batch, &mut self.lines))
    }

    /// Pulls a device once, at this moment in ticks, as [`Router::pull`](crate::Router::pull) does.
    ///
    /// # Errors
    ///
    /// [`Error::UnknownDevice`], or [`Error::AtEnd`] at 2^44 ticks. No pull was made then.
    #[must_use = "the value of the packet that is pulled is dropped unless you use it"]
    pub fn pull(&mut self, device: u16, moment: u64) -> Result<Option<Emitted<T>>, Error> {
        let emitted = self.raw.pull(device, moment)?;
        Ok(emitted.map(|it| Emitted { packet: it.packet, value: self.lines.value(it.token) }))
    }

    /// Pulls a device at this moment up to `count` times, up to the first pull that emits nothing. The pulls are made as the iterator goes on.
    ///
    /// # Errors
    ///
    /// As [`LiveRouter::pull`].
    pub fn pull_many(&mut self, device: u16, moment: u64, count: usize) -> Result<Pulls<'_, T>, Error> {
        self.raw.moment(device)?;
        if moment >= END_OF_MOMENTS {
            return Err(Error::AtEnd);
        }
        Ok(Pulls { router: self, device, moment, count })
    }

    /// Pulls a device one tick apart, from one tick after its moment, while packets are left for it, as
    /// [`Router::drain`](crate::Router::drain) does. What waits in the inlets is not drained: take it before.
    ///
    /// # Errors
    ///
    /// [`Error::UnknownDevice`].
    pub fn drain(&mut self, device: u16) -> Result<LiveDrain<'_, T>, Error> {
        let moment = self.moment(device)?;
        Ok(LiveDrain { router: self, device, progress: Progress::at(moment) })
    }

    /// Whether every inlet was closed, and every packet that one accepted was taken. Once it is so it stays so.
    ///
    /// A take finds out that an inlet was closed: take before you ask. [`LiveRouter::take_what_fits`] finds it out once the sender's queue has
    /// room. It is never so while an inlet was not handed out.
    pub fn ended(&self) -> bool {
        self.raw.ended()
    }

    /// Whether no packet is inside: not in a queue, and not held by a scheduler. The inlets are not looked at.
    pub fn drained(&self) -> bool {
        self.raw.drained()
    }

    /// Gives up the router, and returns the values of the packets inside it: queue by queue, and in each queue the packet first that would
    /// have been emitted first. Values that wait in the inlets don't come back: close the inlets and take from them before.
    pub fn reclaim(self) -> Reclaimed<T> {
        Reclaimed { router: self, tokens: [0; MOST_TAKEN], next: 0, end: 0, is_last: false }
    }
}

looks!(LiveRouter<T>);

impl<T> fmt::Debug for LiveRouter<T> {
    fn fmt(&self, f: &mut fmt::Formatter<'_>) -> fmt::Result {
        let inlets = self.lines.0.iter().filter(|it| it.values.is_some()).count();
        f.debug_struct("LiveRouter").field("devices", &self.devices()).field("inlets", &inlets).finish_non_exhaustive()
    }
}

/// The packets that a device emits at one moment: see [`LiveRouter::pull_many`].
///
/// Dropping it leaves the packets that are not emitted yet in the router.
#[derive(Debug)]
#[must_use = "no pull is made before the iterator is asked for a packet"]
pub struct Pulls<'a, T> {
    router: &'a mut LiveRouter<T>,
    device: u16,
    moment: u64,
    count: usize,
}

impl<T> Iterator for Pulls<'_, T> {
    type Item = Emitted<T>;

    fn next(&mut self) -> Option<Emitted<T>> {
        if self.count == 0 {
            return None;
        }
        let emitted = self.router.pull(self.device, self.moment).ok().flatten();
        self.count = if emitted.is_some() { self.count - 1 } else { 0 };
        emitted
    }
}

impl<T> FusedIterator for Pulls<'_, T> {}

/// The packets that a device emits until nothing is left for it: see [`LiveRouter::drain`].
///
/// Dropping it leaves the packets that are not emitted yet in the router.
#[derive(Debug)]
#[must_use = "a drain makes no pull before it is asked for a packet"]
pub struct LiveDrain<'a, T> {
    router: &'a mut LiveRouter<T>,
    device: u16,
    progress: Progress,
}

impl<T> LiveDrain<'_, T> {
    /// Makes so many pulls at most, from here on. A drain that has stopped with [`Stop::Pulls`] goes on.
    pub fn pulls(mut self, pulls: u64) -> Self {
        self.progress.limit(pulls);
        self
    }

    /// Why the drain emits no more packets, or `None` while it has not found out that it emits no more.
    pub fn stop(&self) -> Option<Stop> {
        self.progress.stop()
    }
}

impl<T> Iterator for LiveDrain<'_, T> {
    type Item = Departed<T>;

    fn next(&mut self) -> Option<Departed<T>> {
        let (raw, device) = (&mut self.router.raw, self.device);
        let it = self.progress.go_on(|pulls| raw.drain_one(device, pulls), |it| it.moment)?;
        Some(Departed { moment: it.moment, packet: it.packet, value: self.router.lines.value(it.token) })
    }
}

impl<T> FusedIterator for LiveDrain<'_, T> {}

/// The values of the packets that were inside a router: see [`LiveRouter::reclaim`].
#[must_use = "the values are dropped with it"]
pub struct Reclaimed<T> {
    router: LiveRouter<T>,
    tokens: [u64; MOST_TAKEN],
    next: usize,
    end: usize,
    is_last: bool,
}

impl<T> Iterator for Reclaimed<T> {
    type Item = T;

    fn next(&mut self) -> Option<T> {
        if self.next == self.end {
            if self.is_last {
                return None;
            }
            (self.next, self.end) = (0, self.router.raw.reclaim(&mut self.tokens));
            self.is_last = self.end < self.tokens.len();
        }
        let token = self.tokens[..self.end].get(self.next)?;
        self.next += 1;
        Some(self.router.lines.value(*token))
    }
}

impl<T> FusedIterator for Reclaimed<T> {}

impl<T> fmt::Debug for Reclaimed<T> {
    fn fmt(&self, f: &mut fmt::Formatter<'_>) -> fmt::Result {
        f.debug_struct("Reclaimed").finish_non_exhaustive()
    }
}
