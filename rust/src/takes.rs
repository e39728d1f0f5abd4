//! Packets that a live router takes from its inlets.

use std::fmt;
use std::iter::FusedIterator;

use crate::error::Error;
use crate::layout::RawTaken;
use crate::live::Lines;
use crate::values::{Packet, EVICTED, REFUSED};
use crate::MOST_TAKEN;

/// A packet that was taken from its inlet and offered to its queue, and the outcome.
#[derive(Clone, Debug, PartialEq, Eq)]
#[must_use = "the value of a refused or an evicted packet is in it"]
pub enum Taken<T> {
    /// Its queue accepted it.
    Accepted(Packet),
    /// Its queue, a `Queue`, was full and refused it. Its value comes back.
    Refused(Packet, T),
    /// Its queue, a `FrontDropQueue`, was full, accepted it, and evicted another packet, maybe of another sender. The value of the evicted
    /// packet comes back.
    Evicting {
        /// The packet that was taken.
        packet: Packet,
        /// The packet that was evicted.
        evicted: Packet,
        /// The value of the evicted packet.
        value: T,
    },
}

impl<T> Taken<T> {
    /// The packet that was taken.
    pub fn packet(&self) -> Packet {
        match self {
            Taken::Accepted(packet) | Taken::Refused(packet, _) | Taken::Evicting { packet, .. } => *packet,
        }
    }

    /// The packet that was refused or evicted, with its value, if there is one.
    pub fn into_lost(self) -> Option<(Packet, T)> {
        match self {
            Taken::Accepted(_) => None,
            Taken::Refused(packet, value) | Taken::Evicting { evicted: packet, value, .. } => Some((packet, value)),
        }
    }
}

/// What a call of the library took, and how far it was handed on.
pub(crate) struct Batch {
    taken: Box<[RawTaken; MOST_TAKEN]>,
    next: usize,
    end: usize,
}

impl Batch {
    /// A batch of nothing.
    pub(crate) fn new() -> Self {
        Batch { taken: Box::new([RawTaken::default(); MOST_TAKEN]), next: 0, end: 0 }
    }

    /// Has `take` fill the first places, `count` at most, and return how many it filled. What was there is gone.
    pub(crate) fn fill(&mut self, count: usize, take: impl FnOnce(&mut [RawTaken]) -> Result<usize, Error>) -> Result<(), Error> {
        self.end = 0;
        self.next = 0;
        self.end = take(&mut self.taken[..count.min(MOST_TAKEN)])?;
        Ok(())
    }

    /// The next packet that was taken, whose value comes from `lines`.
    pub(crate) fn next<T>(&mut self, lines: &mut Lines<T>) -> Option<Taken<T>> {
        let RawTaken { packet, token, evicted, evicted_token, outcome } = *self.taken[..self.end].get(self.next)?;
        self.next += 1;
        Some(match outcome {
            REFUSED => Taken::Refused(packet, lines.value(token)),
            EVICTED => Taken::Evicting { packet, evicted, value: lines.value(evicted_token) },
            _ => Taken::Accepted(packet),
        })
    }

    /// How many packets are still to be handed on.
    pub(crate) fn len(&self) -> usize {
        self.end - self.next
    }
}

/// The packets that a call took, in order: see [`LiveRouter::take`](crate::LiveRouter::take).
///
/// All of them were taken when the call returned. Dropping it drops the values that it has not handed on.
#[must_use = "the values of refused and evicted packets are dropped with it"]
pub struct Takes<'a, T> {
    batch: &'a mut Batch,
    lines: &'a mut Lines<T>,
}

impl<'a, T> Takes<'a, T> {
    /// What is in a batch.
    pub(crate) fn new(batch: &'a mut Batch, lines: &'a mut Lines<T>) -> Self {
        Takes { batch, lines }
    }
}

impl<T> Iterator for Takes<'_, T> {
    type Item = Taken<T>;

    fn next(&mut self) -> Option<Taken<T>> {
        self.batch.next(self.lines)
    }

    fn size_hint(&self) -> (usize, Option<usize>) {
        (self.batch.len(), Some(self.batch.len()))
    }
}

impl<T> ExactSizeIterator for Takes<'_, T> {}

impl<T> FusedIterator for Takes<'_, T> {}

impl<T> Drop for Takes<'_, T> {
    fn drop(&mut self) {
        self.for_each(drop);
    }
}

impl<T> fmt::Debug for Takes<'_, T> {
    fn fmt(&self, f: &mut fmt::Formatter<'_>) -> fmt::Result {
        f.debug_struct("Takes").field("len", &self.batch.len()).finish_non_exhaustive()
    }
}
