//! What calls take, in nanoseconds a packet: `cargo bench`. `calls.c` beside it makes the same calls in C.
use std::hint::black_box;
use std::time::Instant;

use clickpull::{Inlet, LiveRouter, Offer, Offered, Packet, Router};

const TREE: &str =
    "a :: Sender(0); b :: Sender(1); p, q :: Queue(64); s :: DRRSched(1500); d :: ToDevice(link); a -> p -> s -> d; b -> q -> [1] s;";

/// How many packets a burst has, of both senders together, and how many bursts a run has.
const BURST: usize = 32;
const BURSTS: usize = 50_000;

/// How many runs are made, of which the fastest counts.
const RUNS: usize = 7;

/// Measures bursts, and tells the least time of a packet.
fn measure(name: &str, mut burst: impl FnMut()) {
    let once = |burst: &mut dyn FnMut()| {
        let start = Instant::now();
        for _ in 0..BURSTS {
            burst();
        }
        start.elapsed().as_nanos() as f64 / (BURSTS * BURST) as f64
    };
    let least = (0..RUNS).map(|_| once(&mut burst)).fold(f64::INFINITY, f64::min);
    println!("{name}\t{least:.1}");
}

fn one_by_one() {
    let mut router = Router::open(TREE).unwrap();
    measure("router, one by one", || {
        for it in 0..BURST as u32 {
            black_box(router.offer(it % 2, 1000).unwrap()).is_accepted();
        }
        // A pull may emit nothing while a DRRSched waits for its next turn.
        let mut left = BURST;
        while left > 0 {
            left -= usize::from(black_box(router.pull(0, 0).unwrap()).is_some());
        }
    });
}

fn in_bursts() {
    let mut router = Router::open(TREE).unwrap();
    let offers: Vec<Offer> = (0..BURST as u32).map(|it| Offer { sender: it % 2, length: 1000 }).collect();
    let (mut offered, mut packets) = ([Offered::default(); BURST], [Packet::default(); BURST]);
    measure("router, in bursts", || {
        let (done, end) = router.offer_many(&offers, &mut offered);
        assert!(end.is_ok() && done.len() == BURST);
        let mut left = BURST;
        while left > 0 {
            left -= black_box(router.pull_many(0, 0, &mut packets[..left]).unwrap()).len();
        }
    });
}

/// The calls of a live router on one thread, with values that `value` makes of a number.
fn live<T>(name: &str, value: impl Fn(u64) -> T) {
    let mut router = LiveRouter::open(TREE, 64).unwrap();
    let mut inlets: Vec<Inlet<T>> = (0..2).map(|it| router.inlet(it).unwrap()).collect();
    measure(name, || {
        for it in 0..BURST {
            black_box(inlets[it % 2].offer(1000, value(it as u64)).is_ok());
        }
        black_box(router.take_in(BURST, BURST)).for_each(drop);
        let mut left = BURST;
        while left > 0 {
            left -= usize::from(black_box(router.pull(0, 0).unwrap()).is_some());
        }
    });
}

/// The same with calls for many packets.
fn live_in_bursts() {
    let mut router = LiveRouter::open(TREE, 64).unwrap();
    let mut inlets: Vec<Inlet<u64>> = (0..2).map(|it| router.inlet(it).unwrap()).collect();
    measure("live router, in bursts", || {
        for inlet in &mut inlets {
            let mut packets = (0..BURST as u64 / 2).map(|it| (1000, it));
            black_box(inlet.offer_many(&mut packets).1.is_ok());
        }
        black_box(router.take_in(BURST, BURST)).for_each(drop);
        let mut left = BURST;
        while left > 0 {
            left -= router.pull_many(0, 0, left).unwrap().map(black_box).count();
        }
    });
}

fn main() {
    println!("calls of Rust\tnanoseconds a packet");
    one_by_one();
    in_bursts();
    live("live router, one by one", |it| it);
    live("live router, one by one, a box each", Box::new);
    live_in_bursts();
}
