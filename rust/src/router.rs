//! Routers of one thread.

use std::fmt;
use std::iter::FusedIterator;

use crate::error::Error;
use crate::ffi;
use crate::looks::looks;
use crate::values::{Departure, Offer, Offered, Packet};

/// A router: bounded queues, and a tree of schedulers for each device.
///
/// It takes one call at a time. It may move to another thread, and it is not `Sync`; share it under a lock, or use a
/// [`LiveRouter`](crate::LiveRouter). Dropping it frees all that it has. No call but [`Router::open`] and
/// [`Router::sender_names`] allocates.
///
/// ```
/// use clickpull::{Outcome, Router};
///
/// let mut router = Router::open("a :: Sender(0); q :: Queue(1); d :: ToDevice(eth0); a -> q -> d;")?;
/// assert_eq!(router.offer(0, 1500)?.outcome(), Outcome::Accepted);
/// assert_eq!(router.offer(0, 1500)?.outcome(), Outcome::Refused);
/// assert_eq!(router.pull(0, 0)?.map(|it| it.number), Some(0));
/// assert_eq!(router.pull(0, 0)?, None);
/// # Ok::<(), clickpull::Error>(())
/// ```
pub struct Router {
    raw: ffi::Router,
}

impl Router {
    /// Opens the router of the tree in `text`, with empty queues.
    ///
    /// It allocates all memory that the router will ever use: 8 bytes for each packet that its queues can hold, and tables of its elements.
    ///
    /// # Errors
    ///
    /// [`Error::Text`] is the first fault of the text, and [`Error::OutOfMemory`] an allocation of the C library that failed. This crate itself
    /// allocates the explanation of a fault, and aborts if that fails.
    pub fn open(text: &str) -> Result<Self, Error> {
        ffi::Router::open(text).map(|raw| Router { raw })
    }

    /// Offers the next packet of a sender, of `length` bytes, to the sender's queue.
    ///
    /// # Errors
    ///
    /// [`Error::BadLength`] if the length is not from 1 to 65,535, else [`Error::UnknownSender`], or [`Error::AtEnd`] after 4,294,967,295
    /// offers of the sender. Nothing was offered then. A packet that its queue refuses is no error.
    #[inline]
    pub fn offer(&mut self, sender: u32, length: u32) -> Result<Offered, Error> {
        self.raw.offer(sender, length)
    }

    /// Offers packets in order, up to the first that can't be offered, or as many as `offered` has places for.
    ///
    /// Fills the front of `offered` with the outcomes of those that were offered, and returns that front. Also returns why the next packet can't
    /// be offered.
    ///
    /// ```
    /// use clickpull::{Error, Offer, Offered, Router};
    ///
    /// let mut router = Router::open("a :: Sender(0); q :: Queue(1); d :: ToDevice(eth0); a -> q -> d;")?;
    /// let offers = [Offer { sender: 0, length: 10 }, Offer { sender: 0, length: 20 }, Offer { sender: 7, length: 30 }];
    /// let mut places = [Offered::default(); 8];
    /// let (offered, end) = router.offer_many(&offers, &mut places);
    /// assert_eq!(offered.len(), 2);
    /// assert!(offered[0].is_accepted() && !offered[1].is_accepted());
    /// assert_eq!(end, Err(Error::UnknownSender));
    /// # Ok::<(), Error>(())
    /// ```
    #[must_use = "an offer may be refused, or fail"]
    #[inline]
    pub fn offer_many<'a>(&mut self, offers: &[Offer], offered: &'a mut [Offered]) -> (&'a [Offered], Result<(), Error>) {
        let (count, end) = self.raw.offer_many(offers, offered);
        (&offered[..count], end)
    }

    /// Pulls a device once, at this moment in ticks. Devices are numbered from 0 in order of declaration.
    ///
    /// A moment below the greatest that was handed in at the device so far counts as that one. `None` says that nothing is left for the
    /// device, that a `Shaper` has no token, or that a `DRRSched` waits for its next turn: see [`Router::left`] and [`Router::due`].
    ///
    /// # Errors
    ///
    /// [`Error::UnknownDevice`], or [`Error::AtEnd`] at 2^44 ticks. No pull was made then.
    #[must_use = "the packet that is pulled is lost unless you use it"]
    #[inline]
    pub fn pull(&mut self, device: u16, moment: u64) -> Result<Option<Packet>, Error> {
        self.raw.pull(device, moment)
    }

    /// Pulls a device at this moment until `packets` is full or a pull emits none. Returns the packets that were emitted, which fill the
    /// front of `packets`.
    ///
    /// # Errors
    ///
    /// As [`Router::pull`].
    #[must_use = "the packets that are pulled are lost unless you use them"]
    #[inline]
    pub fn pull_many<'a>(&mut self, device: u16, moment: u64, packets: &'a mut [Packet]) -> Result<&'a [Packet], Error> {
        let count = self.raw.pull_many(device, moment, packets)?;
        Ok(&packets[..count])
    }

    /// Pulls a device one tick apart, from one tick after its moment, while packets are left for it. The pulls are made as the iterator goes on.
    ///
    /// ```
    /// use clickpull::Router;
    ///
    /// let mut router = Router::open("a :: Sender(0); q :: Queue(8); s :: Shaper(1); d :: ToDevice(eth0); a -> q -> s -> d;")?;
    /// for length in [10, 20, 30] {
    ///     assert!(router.offer(0, length)?.is_accepted());
    /// }
    /// let moments: Vec<u64> = router.drain(0)?.map(|it| it.moment).collect();
    /// assert_eq!(moments, [1, 2, 3]);
    /// # Ok::<(), clickpull::Error>(())
    /// ```
    ///
    /// # Errors
    ///
    /// [`Error::UnknownDevice`].
    pub fn drain(&mut self, device: u16) -> Result<Drain<'_>, Error> {
        let moment = self.moment(device)?;
        Ok(Drain { router: self, device, progress: Progress::at(moment) })
    }

    /// The name of each sender's element in the tree, by rising numbers of senders. Each name is allocated as the iterator goes on.
    ///
    /// ```
    /// use clickpull::Router;
    ///
    /// let router = Router::open("b :: Sender(7); a :: Sender(3); q :: Queue; d :: ToDevice(eth0); b -> q; a -> q -> d;")?;
    /// assert!(router.sender_names().eq(["a", "b"]));
    /// # Ok::<(), clickpull::Error>(())
    /// ```
    pub fn sender_names(&self) -> impl ExactSizeIterator<Item = String> + '_ {
        (0..self.raw.senders()).map(|place| self.raw.sender_name(place).expect("each place has a sender"))
    }
}

looks!(Router);

impl fmt::Debug for Router {
    fn fmt(&self, f: &mut fmt::Formatter<'_>) -> fmt::Result {
        f.debug_struct("Router").field("devices", &self.devices()).finish_non_exhaustive()
    }
}

/// Why a drain emits no more packets.
#[derive(Clone, Copy, Debug, PartialEq, Eq, Hash)]
pub enum Stop {
    /// Nothing is left for the device.
    Empty,
    /// It has made as many pulls as it may, and packets are left.
    Pulls,
    /// The next pull would be at 2^44 ticks, and packets are left.
    AtEnd,
}

/// How far a drain has come.
pub(crate) struct Progress {
    moment: u64,
    pulls: u64,
    stop: Option<Stop>,
}

impl Progress {
    /// A drain of a device whose moment is this.
    pub(crate) fn at(moment: u64) -> Self {
        Progress { moment, pulls: u64::MAX, stop: None }
    }

    /// Makes so many pulls at most from here on, also if it stopped because it had made as many as it might.
    pub(crate) fn limit(&mut self, pulls: u64) {
        self.pulls = pulls;
        self.stop = self.stop.filter(|&it| it != Stop::Pulls);
    }

    pub(crate) fn stop(&self) -> Option<Stop> {
        self.stop
    }

    /// Goes on by `drain`, which makes so many pulls at most, up to the first that emits a packet, and tells whether nothing is left.
    /// `moment_of` is the moment of what is emitted.
    pub(crate) fn go_on<T>(
        &mut self,
        drain: impl FnOnce(u64) -> Result<(Option<T>, bool), Error>,
        moment_of: impl FnOnce(&T) -> u64,
    ) -> Option<T> {
        if self.stop.is_some() {
            return None;
        }
        let (emitted, is_all) = drain(self.pulls).unwrap_or_else(|_| {
            self.stop = Some(Stop::AtEnd);
            (None, false)
        });
        match &emitted {
            Some(it) => {
                // Pulls are one tick apart, so that the ticks that have passed are the pulls that were made.
                let moment = moment_of(it);
                self.pulls -= moment - self.moment;
                self.moment = moment;
            }
            None if self.stop.is_some() => {}
            None if is_all => self.stop = Some(Stop::Empty),
            None => {
                // All pulls that it might make were made, and emitted nothing.
                self.moment = self.moment.saturating_add(std::mem::take(&mut self.pulls));
                self.stop = Some(Stop::Pulls);
            }
        }
        emitted
    }
}

/// The packets that a device emits until nothing is left for it: see [`Router::drain`].
///
/// Dropping it leaves the packets that are not emitted yet in the router.
#[derive(Debug)]
#[must_use = "a drain makes no pull before it is asked for a packet"]
pub struct Drain<'a> {
    router: &'a mut Router,
    device: u16,
    progress: Progress,
}

impl Drain<'_> {
    /// Makes so many pulls at most, from here on. A drain that has stopped with [`Stop::Pulls`] goes on.
    pub fn pulls(mut self, pulls: u64) -> Self {
        self.progress.limit(pulls);
        self
    }

    /// Why the drain emits no more packets, or `None` while it has not found out that it emits no more.
    pub fn stop(&self) -> Option<Stop> {
        self.progress.stop()
    }
}

impl fmt::Debug for Progress {
    fn fmt(&self, f: &mut fmt::Formatter<'_>) -> fmt::Result {
        f.debug_struct("Progress").field("moment", &self.moment).field("stop", &self.stop).finish_non_exhaustive()
    }
}

impl Iterator for Drain<'_> {
    type Item = Departure;

    #[inline]
    fn next(&mut self) -> Option<Departure> {
        let (raw, device) = (&mut self.router.raw, self.device);
        self.progress.go_on(|pulls| raw.drain_one(device, pulls), |it| it.moment)
    }
}

impl FusedIterator for Drain<'_> {}
