//! Bounded queues, and the tree of schedulers through which a link pulls packets: the C library `clickpull` in safe Rust.
//!
//! A text in Click's language says what the tree is. Senders offer packets to queues, and each device pulls packets out through its tree. The
//! library knows of a packet its sender, its number and its length. What the library does is proved; this crate over it is tested.
//!
//! # One thread
//!
//! A [`Router`] takes offers and pulls on one thread. Here the voice goes first:
//!
//! ```
//! use clickpull::{Outcome, Router};
//!
//! let mut router = Router::open(
//!     "voice :: Sender(0); bulk :: Sender(1); p, q :: Queue(8); s :: PrioSched; d :: ToDevice(eth0);
//!      voice -> p -> s -> d; bulk -> q -> [1] s;",
//! )?;
//! assert_eq!(router.offer(1, 1500)?.outcome(), Outcome::Accepted);
//! assert!(router.offer(0, 200)?.is_accepted());
//!
//! let first = router.pull(0, 0)?.expect("two packets wait");
//! assert_eq!((first.sender, first.length), (0, 200));
//! # Ok::<(), clickpull::Error>(())
//! ```
//!
//! # Senders on threads
//!
//! A [`LiveRouter`] has an [`Inlet`] for each sender, which may go to another thread. Each packet carries a value of your own, and the value
//! comes back once: from a pull, or from a take whose packet was refused or evicted another.
//!
//! ```
//! use clickpull::LiveRouter;
//! use std::thread;
//!
//! let mut router = LiveRouter::open("a :: Sender(0); q :: Queue(8); d :: ToDevice(eth0); a -> q -> d;", 64)?;
//! let mut inlet = router.inlet(0)?;
//! let sender = thread::spawn(move || {
//!     for job in ["first", "second", "third"] {
//!         inlet.offer(100, job.to_string()).expect("64 packets fit");
//!     }
//! });
//!
//! let mut jobs = Vec::new();
//! for now in 0.. {
//!     if router.ended() && router.drained() {
//!         break;
//!     }
//!     // Packets stay in the inlet while their queue is full, so that none is refused.
//!     let taken = router.take_what_fits(16, 64).count();
//!     while let Some(emitted) = router.pull(0, now)? {
//!         jobs.push(emitted.value);
//!     }
//!     if taken == 0 {
//!         thread::yield_now();
//!     }
//! }
//! sender.join().unwrap();
//! assert_eq!(jobs, ["first", "second", "third"]);
//! # Ok::<(), clickpull::Error>(())
//! ```
//!
//! # What happened
//!
//! A [`Record`] is the script of what a router did. The program `clickpull` repeats it on one thread, as often as you like.
//!
//! # Units
//!
//! Lengths are bytes. Moments are ticks: you choose how long a tick is, and the rate of a `Shaper` counts packets a tick. Capacities and rooms
//! are packets.
//!
//! # The library
//!
//! `build.rs` links the archive `libclickpull.a` in the folder that `CLICKPULL_LIB_DIR` names, and else the library that `pkg-config` knows.
//! `unsafe` code is in one module, `ffi`, which says why each block is right. The project's `docs/LIBRARY.md` and `docs/FORMATS.md` have the
//! elements, the limits and the faults of texts.
#![deny(unsafe_code)]
#![warn(missing_docs)]

mod error;
#[allow(unsafe_code)]
mod ffi;
#[cfg(test)]
mod header;
mod inlet;
mod layout;
mod live;
mod looks;
mod record;
mod router;
#[cfg(doctest)]
mod sharing;
mod status;
#[cfg(test)]
mod table_tests;
mod takes;
mod values;

pub use error::{Error, Rejected, TextFault};
pub use inlet::Inlet;
pub use live::{Departed, Emitted, LiveDrain, LiveRouter, Pulls, Reclaimed};
pub use record::Record;
pub use router::{Drain, Router, Stop};
pub use takes::{Taken, Takes};
pub use values::{Account, Departure, Offer, Offered, Outcome, Packet, Queue, Total};

/// The program of the crate's page.
#[cfg(doctest)]
#[doc = include_str!("../README.md")]
struct Readme;

/// Moments are below this number of ticks.
pub const END_OF_MOMENTS: u64 = 1 << 44;

/// Moments of a [`Record`] are below this number of ticks.
pub const END_OF_RECORDED_MOMENTS: u64 = 1 << 40;

/// How many lines a [`Record`] has at most.
pub const MOST_LINES: u32 = 1_000_000;

/// The greatest room of an inlet, in packets.
pub const MOST_ROOM: u32 = 1 << 24;

/// How many packets one call of [`LiveRouter::take`], [`LiveRouter::take_in`] or [`LiveRouter::take_what_fits`] takes at most.
pub const MOST_TAKEN: usize = 64;
