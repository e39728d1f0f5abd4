//! Calls that only look at a router, which both kinds of routers have.

/// Implements them over the field `raw`.
macro_rules! looks {
    ($name:ident $(<$value:ident>)?) => {
        /// Calls that only look.
        impl $(<$value>)? $name $(<$value>)? {
            /// The greatest moment that was handed in at a device so far, in ticks. It is 0 before the first pull.
            ///
            /// # Errors
            ///
            /// [`Error::UnknownDevice`].
            pub fn moment(&self, device: u16) -> Result<u64, Error> {
                self.raw.moment(device)
            }

            /// The earliest moment at which a pull of a device could emit a packet, as things stand, or `None` if no packet is left for it.
            ///
            /// A pull before it emits nothing, so that you may sleep until then, or until a packet comes. A pull at that moment may still
            /// emit nothing, while a `DRRSched` saves up for a long packet: pull again. What waits in inlets is not looked at: take it first.
            ///
            /// # Errors
            ///
            /// [`Error::UnknownDevice`].
            pub fn due(&self, device: u16) -> Result<Option<u64>, Error> {
                self.raw.due(device)
            }

            /// How many packets are left for a device, in its queues or held by its schedulers. What waits in inlets is not among them.
            ///
            /// # Errors
            ///
            /// [`Error::UnknownDevice`].
            pub fn left(&self, device: u16) -> Result<u64, Error> {
                self.raw.left(device)
            }

            /// The account of each sender, by rising numbers of senders. What waits in inlets is not among them.
            pub fn accounts(&self) -> impl ExactSizeIterator<Item = crate::Account> + '_ {
                (0..self.raw.senders()).map(|place| self.raw.account(place).expect("each place has a sender"))
            }

            /// The account of one sender, or `None` if there is no such sender.
            pub fn account(&self, sender: u32) -> Option<crate::Account> {
                self.accounts().find(|it| u32::from(it.sender) == sender)
            }

            /// The queues, by their numbers: in order of declaration.
            pub fn queues(&self) -> impl ExactSizeIterator<Item = crate::Queue> + '_ {
                (0..self.raw.queues()).map(|number| self.raw.queue(number as u16).expect("each number has a queue"))
            }

            /// The queue with this number, or `None` if there is no such queue.
            pub fn queue(&self, number: u16) -> Option<crate::Queue> {
                self.raw.queue(number)
            }

            /// How many devices there are, one at least.
            pub fn devices(&self) -> usize {
                self.raw.devices()
            }
        }
    };
}

pub(crate) use looks;
