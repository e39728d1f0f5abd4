//! Four producers on threads, and a million packets. `CLICKPULL_PACKETS` makes it more or fewer.

mod common;

use std::env;
use std::sync::atomic::{AtomicBool, Ordering};
use std::thread;

use clickpull::{Inlet, LiveRouter, Packet, Taken};
use common::{Drops, Value};

const SENDERS: usize = 4;

/// Senders 1 and 3 share a queue that evicts.
const TREE: &str =
    "a :: Sender(0); b :: Sender(1); c :: Sender(2); e :: Sender(3); p :: Queue(16); q :: FrontDropQueue(16); r :: Queue(16);
s :: DRRSched(1500, 3000, 1500); d :: ToDevice(link); a -> p -> [0] s; b -> q -> [1] s; c -> r -> [2] s; e -> q; s -> d;";

fn length(sender: usize, number: usize) -> u32 {
    (1 + (sender * 7919 + number * 31) % 1500) as u32
}

/// Offers so many packets, and tries again while the inlet is full, unless the owner is gone.
fn produce(mut inlet: Inlet<Value>, drops: &Drops, packets: usize, is_over: &AtomicBool) {
    let sender = usize::from(inlet.sender());
    for number in 0..packets {
        let mut value = drops.value(sender * packets + number);
        while let Err(it) = inlet.offer(length(sender, number), value) {
            if is_over.load(Ordering::Relaxed) {
                return;
            }
            value = it.value;
            thread::yield_now();
        }
    }
}

/// Says that the owner is gone, also if it panics.
struct Owner<'a>(&'a AtomicBool);

impl Drop for Owner<'_> {
    fn drop(&mut self) {
        self.0.store(true, Ordering::Relaxed);
    }
}

/// What came back so far, of each sender.
#[derive(Default)]
struct Tally {
    taken: [usize; SENDERS],
    emitted: [usize; SENDERS],
    back: [usize; SENDERS],
}

impl Tally {
    /// A packet comes back with a value, which has to be the one that went in with it.
    fn back(&mut self, packet: Packet, value: &Value, packets: usize) {
        let (sender, number) = (usize::from(packet.sender), packet.number as usize);
        assert_eq!(value.number, sender * packets + number);
        assert_eq!(u32::from(packet.length), length(sender, number));
        self.back[sender] += 1;
    }

    fn take(&mut self, taken: Taken<Value>, packets: usize) {
        let packet = taken.packet();
        let next = &mut self.taken[usize::from(packet.sender)];
        assert_eq!(packet.number as usize, *next, "packets of a sender are taken in order");
        *next += 1;
        if let Some((packet, value)) = taken.into_lost() {
            self.back(packet, &value, packets);
        }
    }
}

/// Takes and pulls until all have ended.
fn serve(router: &mut LiveRouter<Value>, packets: usize, what_fits: bool) -> Tally {
    let mut tally = Tally::default();
    for round in 0.. {
        if router.ended() && router.drained() {
            break;
        }
        let takes = if what_fits { router.take_what_fits(16, 64) } else { router.take_in(16, 64) };
        let is_idle = takes.len() == 0;
        takes.for_each(|it| tally.take(it, packets));
        let mut emitted = 0;
        for it in router.pull_many(0, round as u64, round % 60).unwrap() {
            let sender = usize::from(it.packet.sender);
            assert!(it.packet.number as usize >= tally.emitted[sender], "packets of a sender are emitted in order");
            tally.emitted[sender] = it.packet.number as usize + 1;
            tally.back(it.packet, &it.value, packets);
            emitted += 1;
        }
        if is_idle && emitted == 0 {
            thread::yield_now();
        }
    }
    tally
}

/// All packets of four producers come back, each with its value.
fn run(packets: usize, room: u32, what_fits: bool) {
    let (drops, is_over) = (Drops::of(SENDERS * packets), AtomicBool::new(false));
    let mut router = LiveRouter::open(TREE, room).unwrap();
    let inlets: Vec<_> = (0..SENDERS).map(|it| router.inlet(it as u32).unwrap()).collect();
    let tally = thread::scope(|scope| {
        for inlet in inlets {
            scope.spawn(|| produce(inlet, &drops, packets, &is_over));
        }
        let _owner = Owner(&is_over);
        serve(&mut router, packets, what_fits)
    });
    assert_eq!(tally.taken, [packets; SENDERS]);
    assert_eq!(tally.back, [packets; SENDERS]);
    assert_eq!(drops.once(SENDERS * packets), SENDERS * packets);
    for it in router.accounts() {
        assert_eq!(it.accepted.packets + it.refused.packets, packets as u64);
        assert_eq!(it.emitted.packets + it.evicted.packets, it.accepted.packets);
        assert!(!what_fits || it.emitted.packets == packets as u64);
    }
}

/// How many packets each sender sends, of so many in all.
fn each(all: usize) -> usize {
    env::var("CLICKPULL_PACKETS").map_or(all, |it| it.parse().expect("CLICKPULL_PACKETS is a number")) / SENDERS
}

#[test]
fn a_million_packets_of_four_senders_come_back() {
    run(each(1_000_000), 256, false);
}

#[test]
fn no_packet_is_lost_if_what_fits_is_taken() {
    run(each(200_000), 32, true);
}

#[test]
fn rings_of_room_1_lose_nothing() {
    run(each(20_000), 1, false);
}
