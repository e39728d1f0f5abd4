//! Records of what a router did.

use std::fmt;

use crate::error::Error;
use crate::ffi::Script;
use crate::status::{done, FULL};
use crate::values::Packet;

/// How many bytes a line has at most. A test compares it with the header.
pub(crate) const MOST_LINE: usize = 25;

/// The script of what a router did: `clickpull script TREE RECORD` repeats it, packet for packet, on one thread.
///
/// It serves a [`Router`](crate::Router) and a [`LiveRouter`](crate::LiveRouter) alike, and needs neither. You add a line for each packet that
/// was offered or taken, a refused one too, and for each pull that was made, one that emitted nothing too, in the order of the calls on the
/// router:
///
/// ```
/// use clickpull::{Record, Router};
///
/// let mut router = Router::open("a :: Sender(0); q :: Queue(1); d :: ToDevice(eth0); a -> q -> d;")?;
/// let mut record = Record::new();
/// for length in [1500, 40] {
///     record.send(&router.offer(0, length)?.packet())?;
/// }
/// for moment in [3, 4] {
///     let _emitted = router.pull(0, moment)?;
///     record.pulls(0, moment, 1)?;
/// }
/// assert_eq!(record.text(), b"send 0 1500\nsend 0 40\npull 3\npull 4\n");
/// assert_eq!(record.lines(), 4);
/// # Ok::<(), clickpull::Error>(())
/// ```
///
/// - [`Router::pull_many`](crate::Router::pull_many) made as many pulls as it emitted packets, and one more if these are fewer than there are
///   places. [`LiveRouter::pull_many`](crate::LiveRouter::pull_many) makes a pull for each packet that its iterator emits, and one more where
///   the iterator ends before `count`.
/// - A drain made one pull at each moment from one tick after the device's latest on, up to its latest moment then.
/// - A take of a [`LiveRouter`](crate::LiveRouter) has offered all packets that its iterator has when the call returns: record each of them.
///
/// # Errors
///
/// Calls fail with [`Error::AtEnd`] if a moment is 2^40 ticks or more, or the record would have more than [`MOST_LINES`](crate::MOST_LINES)
/// lines, and with [`Error::OutOfMemory`]. Then nothing was added.
#[derive(Clone, Default)]
pub struct Record {
    /// As many bytes as there is room for.
    text: Vec<u8>,
    used: usize,
    lines: u32,
}

impl Record {
    /// An empty record.
    pub fn new() -> Self {
        Self::default()
    }

    /// Adds the line of a packet that was offered or taken.
    ///
    /// # Errors
    ///
    /// As the type says, and [`Error::BadLength`] for a packet without a length, which never was.
    pub fn send(&mut self, packet: &Packet) -> Result<(), Error> {
        self.add(1, |script| script.send(*packet))
    }

    /// Adds the lines of `count` pulls of a device, all at this moment in ticks: the one that was handed in, even if a later one counted.
    ///
    /// # Errors
    ///
    /// As the type says.
    pub fn pulls(&mut self, device: u16, moment: u64, count: u64) -> Result<(), Error> {
        self.add(count, |script| script.pulls(device, moment, count))
    }

    /// Adds the line that ends a record: all devices were drained, by rising number and each until nothing was left.
    ///
    /// The pulls began one tick after this moment, in ticks, or after the device's latest one, whichever is later. So 0 stands for drains by
    /// [`Router::drain`](crate::Router::drain) and [`LiveRouter::drain`](crate::LiveRouter::drain). No line may follow.
    ///
    /// # Errors
    ///
    /// As the type says.
    pub fn drain(&mut self, moment: u64) -> Result<(), Error> {
        self.add(1, |script| script.drain(moment))
    }

    /// What was added since the last [`Record::clear`].
    pub fn text(&self) -> &[u8] {
        &self.text[..self.used]
    }

    /// Drops the text, as after it was written to a file. The number of lines stays, and so does the memory.
    pub fn clear(&mut self) {
        self.used = 0;
    }

    /// How many lines were added since it was made.
    pub fn lines(&self) -> u32 {
        self.lines
    }

    /// Adds `count` lines by a call of the library, which returns a status.
    fn add(&mut self, count: u64, call: impl Fn(&mut Script) -> u32) -> Result<(), Error> {
        let mut status = call(&mut self.script());
        if status == FULL {
            // The library returns it only if the record may have so many lines more.
            self.make_room(count as usize * MOST_LINE)?;
            status = call(&mut self.script());
        }
        done(status).map(|_| ())
    }

    /// Where the library adds lines.
    fn script(&mut self) -> Script<'_> {
        Script { text: &mut self.text, used: &mut self.used, lines: &mut self.lines }
    }

    /// Makes room for so many bytes more.
    fn make_room(&mut self, bytes: usize) -> Result<(), Error> {
        let room = (self.used + bytes).max(2 * self.text.len());
        self.text.try_reserve_exact(room - self.text.len()).map_err(|_| Error::OutOfMemory)?;
        self.text.resize(room, 0);
        Ok(())
    }
}

impl fmt::Debug for Record {
    fn fmt(&self, f: &mut fmt::Formatter<'_>) -> fmt::Result {
        f.debug_struct("Record").field("lines", &self.lines).finish_non_exhaustive()
    }
}
