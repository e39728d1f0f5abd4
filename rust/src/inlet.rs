//! Inlets: the way of one sender's packets to a live router.

use std::fmt;

use crate::error::{Error, Rejected};
use crate::ffi;
use crate::layout::Item;

/// How many packets one call of the C library offers at most.
const MOST_OFFERED: usize = 64;

/// The way of one sender's packets to a [`LiveRouter`](crate::LiveRouter): a ring with room for a fixed number of packets.
///
/// [`LiveRouter::inlet`](crate::LiveRouter::inlet) hands it out. It may go to another thread. No call waits or takes a lock. An offer
/// allocates only when more values are inside than ever before.
///
/// Dropping it closes it: the router still takes the packets that are in the ring, and then learns that no more follow. An inlet may outlive
/// its router. Nobody takes packets then: offers are accepted until the ring is full, and their values are dropped with the inlet.
///
/// ```
/// use clickpull::{Error, LiveRouter};
///
/// let mut router = LiveRouter::open("a :: Sender(0); q :: Queue(4); d :: ToDevice(eth0); a -> q -> d;", 1)?;
/// let mut inlet = router.inlet(0)?;
/// assert_eq!(inlet.offer(1500, "first").unwrap(), 0);
/// // The ring has room for one packet, and the value comes back.
/// let rejected = inlet.offer(1500, "second").unwrap_err();
/// assert_eq!((rejected.value, rejected.error), ("second", Error::Full));
/// # Ok::<(), Error>(())
/// ```
pub struct Inlet<T> {
    // It is dropped first, so that the router learns of the end before values are dropped.
    raw: ffi::Inlet,
    values: ffi::Filling<T>,
    sender: u16,
    /// What a token has besides the number of its place.
    token: u64,
    /// How many packets fit for sure without asking the ring again.
    sure: usize,
    /// How many packets the inlet accepted.
    accepted: u32,
}

impl<T> Inlet<T> {
    /// The inlet of a sender, whose tokens have `token` besides the numbers of their places.
    pub(crate) fn new(raw: ffi::Inlet, values: ffi::Filling<T>, sender: u16, token: u64) -> Self {
        Inlet { raw, values, sender, token, sure: 0, accepted: 0 }
    }

    /// The number of the sender.
    pub fn sender(&self) -> u16 {
        self.sender
    }

    /// Offers the sender's next packet, of `length` bytes, with a value. Returns the number of the packet: how many were accepted before.
    ///
    /// # Errors
    ///
    /// The value comes back with the error: [`Error::BadLength`] if the length is not from 1 to 65,535, [`Error::Full`] if there is no room
    /// now, or [`Error::AtEnd`] once 4,294,967,295 packets were accepted. After [`Error::Full`] pause before you offer again: a sender that tries
    /// again at once slows the router's thread down.
    #[must_use = "a value that is not accepted comes back"]
    pub fn offer(&mut self, length: u32, value: T) -> Result<u32, Rejected<T>> {
        let item = self.item(length, value)?;
        let number = self.raw.offer(item.length, item.token).expect("a ring with room accepts a packet");
        self.accepted += 1;
        Ok(number)
    }

    /// Offers packets in order, each a length and a value, up to the first that can't be offered, while the inlet has room. A packet that there
    /// is no room for stays in `packets`. One call of the C library offers up to 64 of them.
    ///
    /// Returns how many were accepted. Also returns why the next packet can't be offered, with its value.
    ///
    /// ```
    /// use clickpull::{Error, LiveRouter};
    ///
    /// let mut router = LiveRouter::open("a :: Sender(0); q :: Queue(4); d :: ToDevice(eth0); a -> q -> d;", 3)?;
    /// let mut inlet = router.inlet(0)?;
    /// let (accepted, end) = inlet.offer_many(&mut [(1500, "first"), (0, "of no length")].into_iter());
    /// assert_eq!(accepted, 1);
    /// assert_eq!(end.unwrap_err().error, Error::BadLength);
    ///
    /// let mut packets = ["second", "third", "fourth"].into_iter().map(|it| (1500, it));
    /// assert_eq!(inlet.offer_many(&mut packets), (2, Ok(())));
    /// assert_eq!(packets.next(), Some((1500, "fourth")));
    /// # Ok::<(), Error>(())
    /// ```
    ///
    /// # Errors
    ///
    /// [`Error::BadLength`] if the length of the next packet is not from 1 to 65,535, or [`Error::AtEnd`] once 4,294,967,295 packets were
    /// accepted. The packets before it were accepted.
    #[must_use = "a value that is not accepted comes back"]
    pub fn offer_many(&mut self, packets: &mut impl Iterator<Item = (u32, T)>) -> (usize, Result<(), Rejected<T>>) {
        let before = self.accepted;
        let end = self.offer_each(packets);
        ((self.accepted - before) as usize, end)
    }

    /// Offers packets as `offer_many` does, and returns why the next one can't be offered.
    fn offer_each(&mut self, packets: &mut impl Iterator<Item = (u32, T)>) -> Result<(), Rejected<T>> {
        let mut items = [Item::default(); MOST_OFFERED];
        loop {
            let mut batch = Batch { items: &mut items, count: 0, inlet: self };
            // At the end one more packet is asked for, which is rejected.
            let most = if batch.inlet.accepted == u32::MAX { 1 } else { batch.inlet.sure().min(MOST_OFFERED) };
            for (length, value) in packets.by_ref().take(most) {
                batch.items[batch.count] = batch.inlet.item(length, value)?;
                batch.count += 1;
            }
            if batch.count == 0 || batch.count < most {
                return Ok(());
            }
        }
    }

    /// Puts a value into its place, if a packet of this length fits.
    fn item(&mut self, length: u32, value: T) -> Result<Item, Rejected<T>> {
        if let Err(error) = self.check(length) {
            return Err(Rejected { value, error });
        }
        let place = self.values.put(value).map_err(|value| Rejected { value, error: Error::Full })?;
        self.sure -= 1;
        Ok(Item { token: self.token | u64::from(place), length })
    }

    /// Whether a packet of this length would be accepted, and why not.
    fn check(&mut self, length: u32) -> Result<(), Error> {
        if length == 0 || length > u32::from(u16::MAX) {
            return Err(Error::BadLength);
        }
        match (self.sure(), self.accepted) {
            (0, u32::MAX) => Err(Error::AtEnd),
            (0, _) => Err(Error::Full),
            _ => Ok(()),
        }
    }

    /// How many packets fit for sure. The ring is asked only once that many were offered.
    fn sure(&mut self) -> usize {
        if self.sure == 0 {
            self.room()
        } else {
            self.sure
        }
    }

    /// How many packets are sure to fit: none of as many next offers returns [`Error::Full`]. More may fit a moment later.
    /// It is 0 once 4,294,967,295 packets were accepted.
    pub fn room(&mut self) -> usize {
        let numbers = u32::MAX - self.accepted;
        self.sure = self.raw.room().min(numbers as usize);
        self.sure
    }

    /// Closes the inlet, as dropping it does. No more packets come, and closing never waits.
    pub fn close(self) {}
}

impl<T> fmt::Debug for Inlet<T> {
    fn fmt(&self, f: &mut fmt::Formatter<'_>) -> fmt::Result {
        f.debug_struct("Inlet").field("sender", &self.sender).field("accepted", &self.accepted).finish_non_exhaustive()
    }
}

/// Packets whose values are in their places. Dropping it offers them, also if the iterator that they come from panics.
struct Batch<'a, T> {
    items: &'a mut [Item; MOST_OFFERED],
    count: usize,
    inlet: &'a mut Inlet<T>,
}

impl<T> Drop for Batch<'_, T> {
    fn drop(&mut self) {
        if self.count > 0 {
            self.inlet.raw.offer_many(&self.items[..self.count]).expect("a ring with room accepts packets");
            self.inlet.accepted += self.count as u32;
        }
    }
}

#[cfg(test)]
mod tests {
    use crate::ffi::table;
    use crate::{Error, LiveRouter, Rejected};

    const TREE: &str = "a :: Sender(0); q :: Queue(8); d :: ToDevice(link); a -> q -> d;";

    /// The last numbers are given out, and no packet after them is accepted.
    #[test]
    fn an_inlet_comes_to_its_end() {
        let mut router = LiveRouter::open(TREE, 8).unwrap();
        let mut inlet = router.inlet(0).unwrap();
        inlet.accepted = u32::MAX - 3;
        assert_eq!(inlet.room(), 3);
        inlet.offer(1, 'a').unwrap();
        let mut packets = "bcd".chars().map(|it| (1, it));
        assert_eq!(inlet.offer_many(&mut packets), (2, Err(Rejected { value: 'd', error: Error::AtEnd })));
        assert_eq!(inlet.offer(1, 'e'), Err(Rejected { value: 'e', error: Error::AtEnd }));
        assert_eq!(inlet.offer_many(&mut [(1, 'f')].into_iter()), (0, Err(Rejected { value: 'f', error: Error::AtEnd })));
        assert_eq!(inlet.offer_many(&mut [(0, 'g')].into_iter()), (0, Err(Rejected { value: 'g', error: Error::BadLength })));
        assert_eq!(inlet.offer_many(&mut [].into_iter()), (0, Ok(())));
        assert_eq!(inlet.room(), 0);
        assert_eq!(router.take(0, 64).unwrap().len(), 3);
    }

    /// A table is large enough for all that is inside. If it were not, the inlet would be full.
    #[test]
    fn an_inlet_whose_table_is_full_is_full() {
        let mut router = LiveRouter::open(TREE, 8).unwrap();
        let mut inlet = router.inlet(0).unwrap();
        inlet.values = table(2).0;
        inlet.offer(1, 'a').unwrap();
        let full = |value| Rejected { value, error: Error::Full };
        assert_eq!(inlet.offer_many(&mut "bcd".chars().map(|it| (1, it))), (1, Err(full('c'))));
        assert_eq!(inlet.offer(1, 'd'), Err(full('d')));
        assert_eq!(router.take(0, 64).unwrap().len(), 2);
    }
}
