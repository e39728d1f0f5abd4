//! Tests of the table of values alone.

use std::sync::atomic::{AtomicU32, AtomicUsize, Ordering};
use std::sync::Arc;
use std::thread;

use crate::ffi::table;

/// Counts when it is dropped.
struct Counted(Arc<AtomicUsize>);

impl Drop for Counted {
    fn drop(&mut self) {
        self.0.fetch_add(1, Ordering::Relaxed);
    }
}

#[test]
fn a_full_table_returns_the_value() {
    let (mut filling, mut emptying) = table(2);
    let first = filling.put("first").unwrap();
    filling.put("second").unwrap();
    assert_eq!(filling.put("third"), Err("third"));
    assert_eq!(emptying.take(first), Some("first"));
    let third = filling.put("third").unwrap();
    assert_eq!(filling.put("fourth"), Err("fourth"));
    assert_eq!(emptying.take(third), Some("third"));
}

#[test]
fn a_wrong_number_takes_nothing() {
    let (mut filling, mut emptying) = table(3000);
    let number = filling.put(1).unwrap();
    for wrong in [number + 1, 2999, 3001, u32::MAX] {
        assert_eq!(emptying.take(wrong), None);
    }
    assert_eq!(emptying.take(number), Some(1));
    assert_eq!(emptying.take(number), None);
}

#[test]
fn places_are_used_again_in_any_order() {
    let (mut filling, mut emptying) = table(5);
    for round in 0..1000 {
        let mut numbers: Vec<u32> = (0..5).map(|it| filling.put(round * 5 + it).unwrap()).collect();
        assert!(filling.put(0).is_err());
        numbers.rotate_left(round as usize % 5);
        for number in numbers {
            assert!(number <= 5);
            assert!(emptying.take(number).is_some_and(|it| it / 5 == round));
        }
    }
}

#[test]
fn memory_is_taken_as_it_is_used() {
    let (mut filling, mut emptying) = table(1_000_000);
    // One value at a time goes through, so that two places do.
    let numbers = (0..10_000).map(|it| {
        let number = filling.put(it).unwrap();
        assert_eq!(emptying.take(number), Some(it));
        number
    });
    assert!(numbers.max().unwrap() < 2);
}

#[test]
fn each_value_is_dropped_once() {
    for filling_is_first in [true, false] {
        let drops = Arc::new(AtomicUsize::new(0));
        let (mut filling, mut emptying) = table(3000);
        let numbers: Vec<u32> = (0..2500).map(|_| filling.put(Counted(drops.clone())).ok().unwrap()).collect();
        for number in &numbers[..1000] {
            drop(emptying.take(*number));
        }
        assert_eq!(drops.load(Ordering::Relaxed), 1000);
        if filling_is_first {
            drop(filling);
            drop(emptying.take(numbers[1000]));
        } else {
            drop(emptying);
            assert!(filling.put(Counted(drops.clone())).is_ok());
            assert_eq!(drops.load(Ordering::Relaxed), 1000);
            drop(filling);
            assert_eq!(drops.load(Ordering::Relaxed), 2501);
            continue;
        }
        assert_eq!(drops.load(Ordering::Relaxed), 1001);
    }
}

/// Hands a number over in an order of memory that promises nothing.
fn hand_over(places: &[AtomicU32], turn: usize, number: u32) {
    let place = &places[turn % places.len()];
    while place.compare_exchange(0, number + 1, Ordering::Relaxed, Ordering::Relaxed).is_err() {
        thread::yield_now();
    }
}

/// The number that was handed over in a turn.
fn received(places: &[AtomicU32], turn: usize) -> u32 {
    loop {
        match places[turn % places.len()].swap(0, Ordering::Relaxed) {
            0 => thread::yield_now(),
            it => return it - 1,
        }
    }
}

/// The order of the halves is their own: it does not rest on the way by which numbers are told.
#[test]
fn halves_may_be_on_two_threads() {
    const VALUES: usize = 60_000;
    let (mut filling, mut emptying) = table(7);
    let places: Vec<AtomicU32> = (0..4).map(|_| AtomicU32::new(0)).collect();
    let sum: usize = thread::scope(|scope| {
        scope.spawn(|| {
            for it in 0..VALUES {
                let mut value = Box::new(it);
                let number = loop {
                    match filling.put(value) {
                        Ok(number) => break number,
                        Err(it) => value = it,
                    }
                    thread::yield_now();
                };
                hand_over(&places, it, number);
            }
        });
        // Of each three values the latest is taken first.
        let mut out = |first: usize| {
            let numbers: Vec<u32> = (first..first + 3).map(|it| received(&places, it)).collect();
            numbers.into_iter().rev().map(|it| *std::iter::repeat_with(|| emptying.take(it)).find_map(|it| it).unwrap()).sum::<usize>()
        };
        (0..VALUES).step_by(3).map(&mut out).sum()
    });
    assert_eq!(sum, VALUES * (VALUES - 1) / 2);
}
