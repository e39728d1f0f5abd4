//! The calls of the C library, and the places in which values wait: all `unsafe` code of the crate.
//!
//! What this module offers to the others is safe to call in any way. It stands outside what is proved.
//!
//! # Why handles are `Send`
//!
//! `clickpull.h` demands that the calls on one handle come one after the other. Here each call borrows its handle, and handles are neither
//! cloned nor `Sync`. So two calls on one handle never overlap, and a call on another thread follows a hand-over of the handle.
//!
//! The header names the hand-overs that order such calls: a lock, the start or the join of a thread, a sequentially consistent atomic
//! operation. Safe Rust has other hand-overs too: a channel of `std`, for one, orders by a release and an acquire. That suffices:
//!
//! - A lock orders by nothing else: unlocking is a release, and the next locking is an acquire. So do the start and the join of a thread. In the
//!   memory model that Rust and C11 share, each promises that what one thread did happens before what the other does, and no more. A library
//!   that is right with locks needs no more than that.
//! - Memory that only this handle's calls use is then free of data races, and a call reads what the calls before it wrote.
//! - An inlet and its router also share atomic variables. For these, coherence follows the same order: a call reads nothing older than
//!   what an earlier call on its handle read or wrote. So the other side can't tell a handle that moved from one that stayed: what it sees
//!   of the handle's calls, it sees in their order.
//! - The library is compiled code. Rust's compiler moves no call of it across the release or the acquire of a hand-over, and neither does the
//!   processor: on x86-64 each store is a release and each load is an acquire, and on ARM64 a release waits for all accesses before it, and an
//!   acquire holds back all after it.
//! - Safe code has no hand-over that orders less. A value that moves between threads without a release and an acquire would be a data race
//!   with any type, so that all hand-overs of safe Rust have both.
//!
//! Handles of the library hold no thread-local state, and memory may be freed by another thread than the one that allocated it.
use std::cell::UnsafeCell;
use std::ffi::c_void;
use std::mem::MaybeUninit;
use std::sync::atomic::{AtomicU32, Ordering};
use std::sync::{Arc, OnceLock};

use crate::error::Error;
use crate::layout::{Fault, Item, RawDeparted, RawEmitted, RawQueue, RawTaken};
use crate::status::{done, opened, OK};
use crate::values::{Account, Departure, Offer, Offered, Packet, Queue};

// ---------------------------------------------------------------------------------------------------------------- what C declares

/// A `clk_router`, a `clk_inlet` or a `clk_live`: a pointer of the library's.
#[repr(transparent)]
#[derive(Clone, Copy)]
struct Handle(*mut c_void);

extern "C" {
    fn clk_router_open(text: *const u8, length: usize, router: *mut Handle, fault: *mut Fault) -> u32;
    fn clk_router_close(router: Handle);
    fn clk_router_explain(
        text: *const u8,
        length: usize,
        fault: *const Fault,
        buffer: *mut u8,
        buffer_length: usize,
        needed: *mut usize,
    ) -> u32;
    fn clk_router_offer(router: *mut Handle, sender: u32, length: u32, offered: *mut Offered) -> u32;
    fn clk_router_offer_many(
        router: *mut Handle,
        offers: *const Offer,
        offers_length: usize,
        offered: *mut Offered,
        offered_length: usize,
        done: *mut usize,
    ) -> u32;
    fn clk_router_pull(router: *mut Handle, device: u16, moment: u64, packet: *mut Packet) -> u32;
    fn clk_router_pull_many(
        router: *mut Handle,
        device: u16,
        moment: u64,
        packets: *mut Packet,
        packets_length: usize,
        given: *mut usize,
    ) -> u32;
    fn clk_router_drain(
        router: *mut Handle,
        device: u16,
        departures: *mut Departure,
        departures_length: usize,
        pulls: u64,
        given: *mut usize,
    ) -> u32;
    fn clk_router_moment(router: *mut Handle, device: u16, moment: *mut u64) -> u32;
    fn clk_router_due(router: *mut Handle, device: u16, moment: *mut u64) -> u32;
    fn clk_router_left(router: *mut Handle, device: u16, packets: *mut u64) -> u32;
    fn clk_router_senders(router: *mut Handle) -> usize;
    fn clk_router_account(router: *mut Handle, place: usize, account: *mut Account) -> u32;
    fn clk_router_sender_name(router: *mut Handle, place: usize, buffer: *mut u8, buffer_length: usize, needed: *mut usize) -> u32;
    fn clk_router_queues(router: *mut Handle) -> usize;
    fn clk_router_queue(router: *mut Handle, number: u16, queue: *mut RawQueue) -> u32;
    fn clk_router_devices(router: *mut Handle) -> usize;

    fn clk_raw_inlet_offer(inlet: *mut Handle, length: u32, token: u64, number: *mut u32) -> u32;
    fn clk_raw_inlet_offer_many(inlet: *mut Handle, items: *const Item, items_length: usize, done: *mut usize) -> u32;
    fn clk_raw_inlet_room(inlet: *mut Handle) -> usize;
    fn clk_raw_inlet_close(inlet: Handle);

    fn clk_raw_live_open(text: *const u8, length: usize, room: u32, live: *mut Handle, fault: *mut Fault) -> u32;
    fn clk_raw_live_close(live: Handle);
    fn clk_raw_live_inlet(live: *mut Handle, sender: u32, inlet: *mut Handle) -> u32;
    fn clk_raw_live_take(live: *mut Handle, sender: u32, taken: *mut RawTaken, taken_length: usize, given: *mut usize) -> u32;
    fn clk_raw_live_take_in(live: *mut Handle, each: usize, taken: *mut RawTaken, taken_length: usize, given: *mut usize) -> u32;
    fn clk_raw_live_take_what_fits(live: *mut Handle, each: usize, taken: *mut RawTaken, taken_length: usize, given: *mut usize) -> u32;
    fn clk_raw_live_pull(live: *mut Handle, device: u16, moment: u64, packet: *mut RawEmitted) -> u32;
    fn clk_raw_live_drain(
        live: *mut Handle,
        device: u16,
        departures: *mut RawDeparted,
        departures_length: usize,
        pulls: u64,
        given: *mut usize,
    ) -> u32;
    fn clk_raw_live_ended(live: *mut Handle) -> u32;
    fn clk_raw_live_drained(live: *mut Handle) -> u32;
    fn clk_raw_live_reclaim(live: *mut Handle, tokens: *mut u64, tokens_length: usize, given: *mut usize) -> u32;
    fn clk_raw_live_moment(live: *mut Handle, device: u16, moment: *mut u64) -> u32;
    fn clk_raw_live_due(live: *mut Handle, device: u16, moment: *mut u64) -> u32;
    fn clk_raw_live_left(live: *mut Handle, device: u16, packets: *mut u64) -> u32;
    fn clk_raw_live_senders(live: *mut Handle) -> usize;
    fn clk_raw_live_account(live: *mut Handle, place: usize, account: *mut Account) -> u32;
    fn clk_raw_live_queues(live: *mut Handle) -> usize;
    fn clk_raw_live_queue(live: *mut Handle, number: u16, queue: *mut RawQueue) -> u32;
    fn clk_raw_live_devices(live: *mut Handle) -> usize;

    fn clk_raw_record_taken(
        taken: *const RawTaken,
        taken_length: usize,
        text: *mut u8,
        text_length: usize,
        used: *mut usize,
        lines: *mut u32,
    ) -> u32;
    fn clk_raw_record_pulls(
        device: u16,
        moment: u64,
        pulls: u64,
        text: *mut u8,
        text_length: usize,
        used: *mut usize,
        lines: *mut u32,
    ) -> u32;
    fn clk_raw_record_drain(moment: u64, text: *mut u8, text_length: usize, used: *mut usize, lines: *mut u32) -> u32;
}

// ---------------------------------------------------------------------------------------------------------------- handles

/// Defines a handle with the calls that routers and live routers both have.
macro_rules! router_handle {
    ($(#[$doc:meta])* $name:ident: $close:ident, $moment:ident, $due:ident, $left:ident, $senders:ident, $account:ident, $queues:ident,
     $queue:ident, $devices:ident) => {
        $(#[$doc])*
        pub(crate) struct $name(Handle);

        // SAFETY: calls on the handle come one after the other, each after the one before; see the head of the module.
        unsafe impl Send for $name {}

        impl Drop for $name {
            fn drop(&mut self) {
                // SAFETY: the handle is open, and no copy of it is used after this.
                unsafe { $close(self.0) }
            }
        }

        impl $name {
            pub(crate) fn moment(&self, device: u16) -> Result<u64, Error> {
                let (mut at, mut moment) = (self.0, 0);
                // SAFETY: the handle is open, and the call fills one number.
                done(unsafe { $moment(&mut at, device, &mut moment) }).map(|_| moment)
            }

            pub(crate) fn due(&self, device: u16) -> Result<Option<u64>, Error> {
                let (mut at, mut moment) = (self.0, 0);
                // SAFETY: the handle is open, and the call fills one number.
                done(unsafe { $due(&mut at, device, &mut moment) }).map(|is_due| is_due.then_some(moment))
            }

            pub(crate) fn left(&self, device: u16) -> Result<u64, Error> {
                let (mut at, mut packets) = (self.0, 0);
                // SAFETY: the handle is open, and the call fills one number.
                done(unsafe { $left(&mut at, device, &mut packets) }).map(|_| packets)
            }

            pub(crate) fn senders(&self) -> usize {
                // SAFETY: the handle is open.
                unsafe { $senders(&mut { self.0 }) }
            }

            pub(crate) fn account(&self, place: usize) -> Option<Account> {
                let mut account = Account::default();
                // SAFETY: the handle is open, and the call fills one account, which is laid out as C has it.
                let status = unsafe { $account(&mut { self.0 }, place, &mut account) };
                (status == OK).then_some(account)
            }

            pub(crate) fn queues(&self) -> usize {
                // SAFETY: the handle is open.
                unsafe { $queues(&mut { self.0 }) }
            }

            pub(crate) fn queue(&self, number: u16) -> Option<Queue> {
                let mut it = RawQueue::default();
                // SAFETY: the handle is open, and the call fills one queue, which is laid out as C has it.
                let status = unsafe { $queue(&mut { self.0 }, number, &mut it) };
                let RawQueue { capacity, held, device, front_drop } = it;
                (status == OK).then_some(Queue { capacity, held, device, front_drop: front_drop != 0 })
            }

            pub(crate) fn devices(&self) -> usize {
                // SAFETY: the handle is open.
                unsafe { $devices(&mut { self.0 }) }
            }
        }
    };
}

router_handle! {
    /// A router that is open.
    Router: clk_router_close, clk_router_moment, clk_router_due, clk_router_left, clk_router_senders, clk_router_account,
    clk_router_queues, clk_router_queue, clk_router_devices
}

router_handle! {
    /// A live router that is open, and whose tokens were not reclaimed unless `reclaim` was called.
    Live: clk_raw_live_close, clk_raw_live_moment, clk_raw_live_due, clk_raw_live_left, clk_raw_live_senders, clk_raw_live_account,
    clk_raw_live_queues, clk_raw_live_queue, clk_raw_live_devices
}

/// The explanation of a fault of a text.
pub(crate) fn explain(text: &str, fault: &Fault) -> String {
    let mut needed = 0;
    let mut fill = |buffer: &mut [u8]| {
        // SAFETY: the pointers and lengths are of the text and the buffer, which don't overlap, and the call keeps none. It returns that the
        // buffer is full, or that it has all.
        unsafe { clk_router_explain(text.as_ptr(), text.len(), fault, buffer.as_mut_ptr(), buffer.len(), &mut needed) };
        needed
    };
    let mut lines = vec![0; fill(&mut [])];
    fill(&mut lines);
    String::from_utf8(lines).expect("an explanation is ASCII")
}

impl Router {
    pub(crate) fn open(text: &str) -> Result<Self, Error> {
        let (mut at, mut fault) = (Handle(std::ptr::null_mut()), Fault::default());
        // SAFETY: the pointer and the length are of the text, and the call keeps neither.
        let status = unsafe { clk_router_open(text.as_ptr(), text.len(), &mut at, &mut fault) };
        opened(status, &fault, text, || Router(at))
    }

    #[inline]
    pub(crate) fn offer(&mut self, sender: u32, length: u32) -> Result<Offered, Error> {
        let mut offered = Offered::default();
        // SAFETY: the handle is open, and the call fills one offer, which is laid out as C has it.
        done(unsafe { clk_router_offer(&mut self.0, sender, length, &mut offered) }).map(|_| offered)
    }

    /// Offers as many as both slices have. Returns how many were offered, and why no more.
    #[inline]
    pub(crate) fn offer_many(&mut self, offers: &[Offer], offered: &mut [Offered]) -> (usize, Result<(), Error>) {
        let (count, mut given) = (offers.len().min(offered.len()), 0);
        // SAFETY: the handle is open, both slices have `count` elements, and the call fills as many as it offers.
        let status = unsafe { clk_router_offer_many(&mut self.0, offers.as_ptr(), count, offered.as_mut_ptr(), count, &mut given) };
        (given, done(status).map(|_| ()))
    }

    #[inline]
    pub(crate) fn pull(&mut self, device: u16, moment: u64) -> Result<Option<Packet>, Error> {
        let mut packet = Packet::default();
        // SAFETY: the handle is open, and the call fills one packet, which is laid out as C has it.
        done(unsafe { clk_router_pull(&mut self.0, device, moment, &mut packet) }).map(|is_emitted| is_emitted.then_some(packet))
    }

    #[inline]
    pub(crate) fn pull_many(&mut self, device: u16, moment: u64, packets: &mut [Packet]) -> Result<usize, Error> {
        let mut given = 0;
        // SAFETY: the handle is open, and the call fills at most as many packets as the slice has.
        let status = unsafe { clk_router_pull_many(&mut self.0, device, moment, packets.as_mut_ptr(), packets.len(), &mut given) };
        done(status).map(|_| given)
    }

    /// Drains up to the first packet that is emitted, or `pulls` pulls. Returns the packet, and whether nothing is left.
    #[inline]
    pub(crate) fn drain_one(&mut self, device: u16, pulls: u64) -> Result<(Option<Departure>, bool), Error> {
        let (mut departure, mut given) = (Departure::default(), 0);
        // SAFETY: the handle is open, and the call fills at most one departure, which is laid out as C has it.
        let status = unsafe { clk_router_drain(&mut self.0, device, &mut departure, 1, pulls, &mut given) };
        done(status).map(|is_all| ((given == 1).then_some(departure), is_all))
    }

    /// The name of the sender at this place, if there is one.
    pub(crate) fn sender_name(&self, place: usize) -> Option<String> {
        let (mut needed, mut unused) = (0, 0);
        // SAFETY: the handle is open, and the call fills one number: a name has no room in no bytes.
        unsafe { clk_router_sender_name(&mut { self.0 }, place, &mut unused, 0, &mut needed) };
        let mut name = vec![0; needed];
        // SAFETY: the handle is open, and the call fills one number and at most as many bytes as the vector has.
        let status = unsafe { clk_router_sender_name(&mut { self.0 }, place, name.as_mut_ptr(), name.len(), &mut needed) };
        (status == OK).then(|| String::from_utf8(name).expect("names are ASCII"))
    }
}

/// A call that takes packets from all inlets.
type Round = unsafe extern "C" fn(*mut Handle, usize, *mut RawTaken, usize, *mut usize) -> u32;

impl Live {
    pub(crate) fn open(text: &str, room: u32) -> Result<Self, Error> {
        let (mut at, mut fault) = (Handle(std::ptr::null_mut()), Fault::default());
        // SAFETY: the pointer and the length are of the text, and the call keeps neither.
        let status = unsafe { clk_raw_live_open(text.as_ptr(), text.len(), room, &mut at, &mut fault) };
        opened(status, &fault, text, || Live(at))
    }

    pub(crate) fn inlet(&mut self, sender: u32) -> Result<Inlet, Error> {
        let mut at = Handle(std::ptr::null_mut());
        // SAFETY: the handle is open, and the call fills one handle.
        done(unsafe { clk_raw_live_inlet(&mut self.0, sender, &mut at) }).map(|_| Inlet(at))
    }

    #[inline]
    pub(crate) fn take(&mut self, sender: u32, taken: &mut [RawTaken]) -> Result<usize, Error> {
        let mut given = 0;
        // SAFETY: the handle is open, and the call fills at most as many elements as the slice has, laid out as C has them.
        done(unsafe { clk_raw_live_take(&mut self.0, sender, taken.as_mut_ptr(), taken.len(), &mut given) }).map(|_| given)
    }

    pub(crate) fn take_in(&mut self, each: usize, taken: &mut [RawTaken]) -> Result<usize, Error> {
        self.round(clk_raw_live_take_in, each, taken)
    }

    pub(crate) fn take_what_fits(&mut self, each: usize, taken: &mut [RawTaken]) -> Result<usize, Error> {
        self.round(clk_raw_live_take_what_fits, each, taken)
    }

    fn round(&mut self, round: Round, each: usize, taken: &mut [RawTaken]) -> Result<usize, Error> {
        let mut given = 0;
        // SAFETY: the handle is open, and the call fills at most as many elements as the slice has, laid out as C has them.
        done(unsafe { round(&mut self.0, each, taken.as_mut_ptr(), taken.len(), &mut given) }).map(|_| given)
    }

    #[inline]
    pub(crate) fn pull(&mut self, device: u16, moment: u64) -> Result<Option<RawEmitted>, Error> {
        let mut emitted = RawEmitted::default();
        // SAFETY: the handle is open, and the call fills one packet with its token, laid out as C has it.
        done(unsafe { clk_raw_live_pull(&mut self.0, device, moment, &mut emitted) }).map(|is_emitted| is_emitted.then_some(emitted))
    }

    /// Drains up to the first packet that is emitted, or `pulls` pulls. Returns the packet, and whether nothing is left.
    #[inline]
    pub(crate) fn drain_one(&mut self, device: u16, pulls: u64) -> Result<(Option<RawDeparted>, bool), Error> {
        let (mut departed, mut given) = (RawDeparted::default(), 0);
        // SAFETY: the handle is open, and the call fills at most one departure, which is laid out as C has it.
        let status = unsafe { clk_raw_live_drain(&mut self.0, device, &mut departed, 1, pulls, &mut given) };
        done(status).map(|is_all| ((given == 1).then_some(departed), is_all))
    }

    pub(crate) fn ended(&self) -> bool {
        // SAFETY: the handle is open.
        unsafe { clk_raw_live_ended(&mut { self.0 }) == OK }
    }

    pub(crate) fn drained(&self) -> bool {
        // SAFETY: the handle is open.
        unsafe { clk_raw_live_drained(&mut { self.0 }) == OK }
    }

    /// Gives the router up, and returns how many tokens of packets inside it filled in: fewer than the slice has at the end.
    pub(crate) fn reclaim(&mut self, tokens: &mut [u64]) -> usize {
        let mut given = 0;
        // SAFETY: the handle is open, and the call fills at most as many numbers as the slice has.
        unsafe { clk_raw_live_reclaim(&mut self.0, tokens.as_mut_ptr(), tokens.len(), &mut given) };
        given
    }
}

/// An inlet that is open.
pub(crate) struct Inlet(Handle);

// SAFETY: calls on the handle come one after the other, each after the one before; see the head of the module.
unsafe impl Send for Inlet {}

impl Drop for Inlet {
    fn drop(&mut self) {
        // SAFETY: the handle is open, and no copy of it is used after this.
        unsafe { clk_raw_inlet_close(self.0) }
    }
}

impl Inlet {
    #[inline]
    pub(crate) fn offer(&mut self, length: u32, token: u64) -> Result<u32, Error> {
        let mut number = 0;
        // SAFETY: the handle is open, and the call fills one number.
        done(unsafe { clk_raw_inlet_offer(&mut self.0, length, token, &mut number) }).map(|_| number)
    }

    /// Offers packets in order, up to the first that is not accepted.
    #[inline]
    pub(crate) fn offer_many(&mut self, items: &[Item]) -> Result<(), Error> {
        let mut given = 0;
        // SAFETY: the handle is open, and the call reads as many items as the slice has, laid out as C has them.
        done(unsafe { clk_raw_inlet_offer_many(&mut self.0, items.as_ptr(), items.len(), &mut given) }).map(|_| ())
    }

    #[inline]
    pub(crate) fn room(&mut self) -> usize {
        // SAFETY: the handle is open.
        unsafe { clk_raw_inlet_room(&mut self.0) }
    }
}

// ---------------------------------------------------------------------------------------------------------------- records

/// A text to which lines of a script are added, how many of its bytes are used, and how many lines the script has.
pub(crate) struct Script<'a> {
    pub(crate) text: &'a mut [u8],
    pub(crate) used: &'a mut usize,
    pub(crate) lines: &'a mut u32,
}

impl Script<'_> {
    /// Adds the line of a packet that was offered.
    pub(crate) fn send(&mut self, packet: Packet) -> u32 {
        let taken = RawTaken { packet, ..RawTaken::default() };
        // SAFETY: the call reads one element, laid out as C has it, and writes at most as many bytes as the text has.
        unsafe { clk_raw_record_taken(&taken, 1, self.text.as_mut_ptr(), self.text.len(), self.used, self.lines) }
    }

    /// Adds the lines of pulls.
    pub(crate) fn pulls(&mut self, device: u16, moment: u64, count: u64) -> u32 {
        // SAFETY: the call writes at most as many bytes as the text has.
        unsafe { clk_raw_record_pulls(device, moment, count, self.text.as_mut_ptr(), self.text.len(), self.used, self.lines) }
    }

    /// Adds the line of a drain.
    pub(crate) fn drain(&mut self, moment: u64) -> u32 {
        // SAFETY: the call writes at most as many bytes as the text has.
        unsafe { clk_raw_record_drain(moment, self.text.as_mut_ptr(), self.text.len(), self.used, self.lines) }
    }
}

// ---------------------------------------------------------------------------------------------------------------- places of values

/// How many places are allocated at once.
const SEGMENT: u32 = 1024;

/// The state of a place without a value, after which no place was freed. That of a place after which `next` was freed is `next + 1`.
const EMPTY: u32 = 0;

/// The state of a place with a value.
const FULL: u32 = u32::MAX;

/// A place for a value.
struct Place<T> {
    state: AtomicU32,
    value: UnsafeCell<MaybeUninit<T>>,
}

// SAFETY: the value is touched by one half of the table at a time, as `state` says (see `table`). It moves between threads, and is never
// shared by them, so that it has to be `Send`, and need not be `Sync`.
unsafe impl<T: Send> Sync for Place<T> {}

impl<T> Drop for Place<T> {
    fn drop(&mut self) {
        if *self.state.get_mut() == FULL {
            // SAFETY: a full place has a value, and nobody else has the place any more.
            unsafe { self.value.get_mut().assume_init_drop() }
        }
    }
}

/// Places that are allocated at once, when the first of them is used.
type Segment<T> = OnceLock<Box<[Place<T>]>>;

/// Places by their numbers.
struct Table<T> {
    segments: Box<[Segment<T>]>,
    places: u32,
}

impl<T> Table<T> {
    fn new(places: u32) -> Self {
        Table { segments: (0..places.div_ceil(SEGMENT)).map(|_| OnceLock::new()).collect(), places }
    }

    /// The place with this number, if its segment was allocated.
    fn place(&self, number: u32) -> Option<&Place<T>> {
        self.segments.get((number / SEGMENT) as usize)?.get()?.get((number % SEGMENT) as usize)
    }

    /// Allocates the segment of the place with this number, unless it is there. One half alone calls it, so that it never waits for the other.
    fn allocate(&self, number: u32) {
        let first = number - number % SEGMENT;
        let places = first..self.places.min(first + SEGMENT);
        let place = |_| Place { state: AtomicU32::new(EMPTY), value: UnsafeCell::new(MaybeUninit::uninit()) };
        self.segments[(number / SEGMENT) as usize].get_or_init(|| places.map(place).collect());
    }
}

/// A table with room for so many values, as its two halves, which may be on two threads. Neither waits, and neither takes a lock. The half
/// that is dropped last drops the values that are left.
///
/// The filling half puts a value into an empty place, and tells the other side the number of the place. The emptying half takes the value out,
/// and the place is free again. Freed places come back through a queue with one producer and one consumer, in which each place has the
/// number of the next one. The place at its end always stays there, so that each half has an end of its own to work at.
///
/// Whose a place is follows from its state:
///
/// - An empty place in the queue has `EMPTY` or the next place. Only the filling half takes it out of the queue, and only once it has a next
///   place. The emptying half stored the next place with a release, as its last access to the place, and the filling half loaded it with an
///   acquire. From then on the place is the filling half's, as one is that was never used.
/// - The filling half writes the value, and then stores `FULL` with a release, as its last access to the place. The emptying half touches
///   a value only after it has loaded `FULL` with an acquire. From then on the place is the emptying half's.
///
/// So a wrong number takes out no value, or another one, and never memory without a value. This rests on nothing that the C library does.
pub(crate) fn table<T>(values: u32) -> (Filling<T>, Emptying<T>) {
    let table = Arc::new(Table::new(values + 1));
    table.allocate(0);
    (Filling { table: Arc::clone(&table), front: 0, used: 1 }, Emptying { table, back: 0 })
}

/// The half of a table that fills places.
pub(crate) struct Filling<T> {
    table: Arc<Table<T>>,
    /// The place at the front of the queue of freed places.
    front: u32,
    /// How many places were used so far, the first of the table.
    used: u32,
}

impl<T> Filling<T> {
    /// Puts a value into a place, and returns the number of the place. Returns the value if the table is full.
    pub(crate) fn put(&mut self, value: T) -> Result<u32, T> {
        let Some((number, place)) = self.empty_place() else { return Err(value) };
        // SAFETY: the place is this half's, and has no value; see `table`.
        unsafe { (*place.value.get()).write(value) };
        place.state.store(FULL, Ordering::Release);
        Ok(number)
    }

    /// A place that was freed, or else one that was never used.
    fn empty_place(&mut self) -> Option<(u32, &Place<T>)> {
        let front = self.table.place(self.front)?;
        let next = front.state.load(Ordering::Acquire);
        if next != EMPTY {
            return Some((std::mem::replace(&mut self.front, next - 1), front));
        }
        let number = self.used;
        if number == self.table.places {
            return None;
        }
        self.table.allocate(number);
        self.used += 1;
        Some((number, self.table.place(number)?))
    }
}

/// The half of a table that empties places.
pub(crate) struct Emptying<T> {
    table: Arc<Table<T>>,
    /// The place at the end of the queue of freed places.
    back: u32,
}

impl<T> Emptying<T> {
    /// Takes the value out of the place with this number, if it has one.
    pub(crate) fn take(&mut self, number: u32) -> Option<T> {
        let place = self.table.place(number)?;
        if place.state.load(Ordering::Acquire) != FULL {
            return None;
        }
        // SAFETY: the place is full, so that it has a value, and is this half's; see `table`.
        let value = unsafe { (*place.value.get()).assume_init_read() };
        place.state.store(EMPTY, Ordering::Relaxed);
        self.table.place(self.back)?.state.store(number + 1, Ordering::Release);
        self.back = number;
        Some(value)
    }
}
