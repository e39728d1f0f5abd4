//! Who leaves first: each value is dropped once, whatever the order.

mod common;

use std::panic::{catch_unwind, AssertUnwindSafe};
use std::sync::atomic::{AtomicUsize, Ordering};
use std::sync::{mpsc, Arc};
use std::{mem, thread};

use clickpull::{Error, Inlet, LiveRouter, Router};
use common::{Drops, Value};

/// Sender 0 has a queue below a DRRSched that holds its first packet, and sender 1 has a queue that evicts.
const TREE: &str = "a :: Sender(0); b :: Sender(1); p :: Queue(2); q :: FrontDropQueue(2); s :: DRRSched(10); d :: ToDevice(link);
a -> p -> s -> d; b -> q -> [1] s;";

/// How many values are offered by `filled`.
const VALUES: usize = 10;

/// A router and its inlets, with values in the scheduler, in both queues, in both rings, and taken but not handed on.
fn filled(drops: &Drops) -> (LiveRouter<Value>, Inlet<Value>, Inlet<Value>) {
    let mut router = LiveRouter::open(TREE, 4).unwrap();
    let (mut a, mut b) = (router.inlet(0).unwrap(), router.inlet(1).unwrap());
    for number in 0..3 {
        assert_eq!(a.offer(100, drops.value(number)).unwrap(), number as u32);
    }
    assert_eq!(router.take(0, 1).unwrap().len(), 1);
    assert!(router.pull(0, 0).unwrap().is_none());
    assert_eq!(router.queue(0).unwrap().held, 0);
    assert_eq!(router.take(0, 2).unwrap().len(), 2);
    for number in 3..6 {
        b.offer(100, drops.value(number)).unwrap();
    }
    for number in 6..8 {
        a.offer(100, drops.value(number)).unwrap();
    }
    // Packet 2 of sender 1 evicts packet 0, whose value nobody asks for.
    mem::forget(router.take(1, 3).unwrap());
    assert_eq!(router.account(1).unwrap().evicted.packets, 1);
    for number in 8..VALUES {
        b.offer(100, drops.value(number)).unwrap();
    }
    assert_eq!(router.left(0), Ok(5));
    (router, a, b)
}

#[test]
fn each_value_is_dropped_once_in_every_order_of_leaving() {
    for order in [[0, 1, 2], [0, 2, 1], [1, 0, 2], [1, 2, 0], [2, 0, 1], [2, 1, 0]] {
        let drops = Drops::of(VALUES);
        let (router, a, b) = filled(&drops);
        assert_eq!(drops.once(VALUES), 0);
        let (mut router, mut a, mut b) = (Some(router), Some(a), Some(b));
        for who in order {
            match who {
                0 => router = None,
                1 => a = None,
                _ => b = None,
            }
            // The values of a sender are dropped once its inlet and the router have left.
            let of_a = if router.is_none() && a.is_none() { 5 } else { 0 };
            let of_b = if router.is_none() && b.is_none() { 5 } else { 0 };
            assert_eq!(drops.once(VALUES), of_a + of_b, "in order {order:?}, after {who}");
        }
    }
}

#[test]
fn each_value_is_dropped_once_if_all_leave_at_once() {
    for _ in 0..100 {
        let drops = Drops::of(VALUES);
        let (router, a, b) = filled(&drops);
        thread::scope(|scope| {
            scope.spawn(move || drop(router));
            scope.spawn(move || drop(a));
            scope.spawn(move || drop(b));
        });
        assert_eq!(drops.once(VALUES), VALUES);
    }
}

#[test]
fn a_leaked_iterator_loses_no_place() {
    let drops = Drops::of(3000);
    let mut router = LiveRouter::open("a :: Sender(0); q :: Queue(1); d :: ToDevice(link); a -> q -> d;", 1).unwrap();
    let mut inlet = router.inlet(0).unwrap();
    for number in 0..3000 {
        inlet.offer(1, drops.value(number)).unwrap();
        mem::forget(router.take_in(1, 1));
    }
    assert_eq!(router.account(0).unwrap().refused.packets, 2999);
    assert_eq!(drops.once(3000), 2998);
    assert_eq!(router.take_in(1, 1).len(), 0);
    assert_eq!(drops.once(3000), 2999);
}

#[test]
fn values_inside_are_reclaimed() {
    let drops = Drops::of(VALUES);
    let (router, mut a, b) = filled(&drops);
    // Packets 0 to 2 of sender 0, and then packets 1 and 2 of sender 1.
    let numbers: Vec<usize> = router.reclaim().map(|it| it.number).collect();
    assert_eq!(numbers, [0, 1, 2, 4, 5]);
    assert_eq!(drops.once(VALUES), 5);
    assert_eq!(a.offer(100, drops.value(0)).map_err(|it| it.error).unwrap(), 5);
    drop((a, b));
}

#[test]
fn a_reclaim_that_is_dropped_drops_the_rest() {
    let drops = Drops::of(VALUES);
    let (router, a, b) = filled(&drops);
    drop((a, b));
    let mut reclaimed = router.reclaim();
    assert_eq!(reclaimed.next().map(|it| it.number), Some(0));
    assert_eq!(drops.once(VALUES), 1);
    drop(reclaimed);
    assert_eq!(drops.once(VALUES), VALUES);
}

/// A value that panics when it is dropped.
struct Bomb(Arc<AtomicUsize>);

impl Drop for Bomb {
    fn drop(&mut self) {
        self.0.fetch_add(1, Ordering::Relaxed);
        if !thread::panicking() {
            panic!("a value panics as it is dropped");
        }
    }
}

/// A router whose queue of one packet refuses all but the first of three packets.
fn with_bombs(drops: &Arc<AtomicUsize>) -> (LiveRouter<Bomb>, Inlet<Bomb>) {
    let mut router = LiveRouter::open("a :: Sender(0); q :: Queue(1); d :: ToDevice(link); a -> q -> d;", 4).unwrap();
    let mut inlet = router.inlet(0).unwrap();
    for _ in 0..4 {
        inlet.offer(1, Bomb(drops.clone())).unwrap();
    }
    (router, inlet)
}

#[test]
fn a_value_may_panic_as_it_is_dropped() {
    let drops = Arc::new(AtomicUsize::new(0));
    let (mut router, inlet) = with_bombs(&drops);
    assert!(catch_unwind(AssertUnwindSafe(|| drop(router.take(0, 3)))).is_err());
    assert_eq!(drops.load(Ordering::Relaxed), 1);
    // The router goes on: the next take drops what the panic left, which panics again, and takes nothing.
    assert!(catch_unwind(AssertUnwindSafe(|| drop(router.take(0, 3)))).is_err());
    assert_eq!(drops.load(Ordering::Relaxed), 2);
    mem::forget(router.take(0, 1).unwrap());
    assert!(catch_unwind(AssertUnwindSafe(|| drop(router.pull(0, 0)))).is_err());
    assert_eq!(drops.load(Ordering::Relaxed), 3);
    drop(inlet);
    // The last refused value is still inside; each is dropped once.
    assert!(catch_unwind(AssertUnwindSafe(|| drop(router))).is_err());
    assert_eq!(drops.load(Ordering::Relaxed), 4);
}

#[test]
fn the_last_to_leave_drops_all_even_if_one_panics() {
    let drops = Arc::new(AtomicUsize::new(0));
    let (router, inlet) = with_bombs(&drops);
    drop(router);
    assert!(catch_unwind(AssertUnwindSafe(|| drop(inlet))).is_err());
    assert_eq!(drops.load(Ordering::Relaxed), 4);
}

#[test]
fn packets_are_offered_up_to_a_panic() {
    let drops = Drops::of(5);
    let mut router = LiveRouter::open("a :: Sender(0); q :: Queue(9); d :: ToDevice(link); a -> q -> d;", 4).unwrap();
    let mut inlet = router.inlet(0).unwrap();
    let mut packets = (0..5).map(|it| if it < 3 { (1, drops.value(it)) } else { panic!("the iterator panics") });
    assert!(catch_unwind(AssertUnwindSafe(|| inlet.offer_many(&mut packets))).is_err());
    assert_eq!(router.take_in(9, 9).len(), 3);
    let numbers: Vec<usize> = router.drain(0).unwrap().map(|it| it.value.number).collect();
    assert_eq!(numbers, [0, 1, 2]);
    assert_eq!(inlet.room(), 4);
}

#[test]
fn an_inlet_outlives_its_router() {
    let drops = Drops::of(5);
    let mut router = LiveRouter::open("a :: Sender(0); q :: Queue(4); d :: ToDevice(link); a -> q -> d;", 2).unwrap();
    let mut inlet = router.inlet(0).unwrap();
    inlet.offer(1, drops.value(0)).unwrap();
    drop(router);
    inlet.offer(1, drops.value(1)).unwrap();
    let rejected = inlet.offer(1, drops.value(2)).unwrap_err();
    assert_eq!((rejected.value.number, rejected.error), (2, Error::Full));
    drop(rejected.value);
    assert_eq!((drops.count(0), drops.count(1), drops.count(2)), (0, 0, 1));
    inlet.close();
    assert_eq!(drops.once(5), 3);
}

#[test]
fn handles_go_through_channels() {
    let (to_router, routers) = mpsc::channel::<(Router, LiveRouter<Box<u32>>)>();
    let (to_inlet, inlets) = mpsc::channel::<Inlet<Box<u32>>>();
    let owner = thread::spawn(move || {
        let (mut router, mut live) = routers.recv().unwrap();
        assert_eq!(router.pull(0, 0).unwrap().map(|it| it.length), Some(7));
        let mut sum = 0;
        while !(live.ended() && live.drained()) {
            assert!(live.take_in(4, 64).all(|it| it.into_lost().is_none()));
            sum += live.pull_many(0, 0, 64).unwrap().map(|it| *it.value).sum::<u32>();
            thread::yield_now();
        }
        sum
    });
    let sender = thread::spawn(move || {
        for mut inlet in inlets {
            inlet.offer(1, Box::new(30)).unwrap();
        }
    });
    let tree = "a :: Sender(0); q :: Queue(4); d :: ToDevice(link); a -> q -> d;";
    let (mut router, mut live) = (Router::open(tree).unwrap(), LiveRouter::open(tree, 4).unwrap());
    assert!(router.offer(0, 7).unwrap().is_accepted());
    let mut inlet = live.inlet(0).unwrap();
    inlet.offer(1, Box::new(12)).unwrap();
    to_inlet.send(inlet).unwrap();
    drop(to_inlet);
    to_router.send((router, live)).unwrap();
    sender.join().unwrap();
    assert_eq!(owner.join().unwrap(), 42);
}
