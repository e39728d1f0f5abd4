//! What the tests share.
#![allow(dead_code)] // each test uses some of it

pub mod model;

use std::sync::atomic::{AtomicU8, Ordering};
use std::sync::Arc;

use clickpull::Packet;

/// A packet as the table of cases writes it.
pub fn shown(it: Packet) -> String {
    format!("{}/{}/{}", it.sender, it.number, it.length)
}

/// Random numbers of a seed: splitmix64.
pub struct Chance(pub u64);

impl Chance {
    /// The next 64 bits.
    pub fn bits(&mut self) -> u64 {
        self.0 = self.0.wrapping_add(0x9e37_79b9_7f4a_7c15);
        let it = (self.0 ^ (self.0 >> 30)).wrapping_mul(0xbf58_476d_1ce4_e5b9);
        let it = (it ^ (it >> 27)).wrapping_mul(0x94d0_49bb_1331_11eb);
        it ^ (it >> 31)
    }

    /// A number below `end`.
    pub fn below(&mut self, end: usize) -> usize {
        (self.bits() % end as u64) as usize
    }

    /// One of these.
    pub fn of<T: Copy>(&mut self, them: &[T]) -> T {
        them[self.below(them.len())]
    }

    /// True once in so many times.
    pub fn once_in(&mut self, times: usize) -> bool {
        self.below(times) == 0
    }
}

/// How often each of some values was dropped.
#[derive(Clone)]
pub struct Drops(Arc<[AtomicU8]>);

impl Drops {
    /// None of so many values was dropped yet.
    pub fn of(values: usize) -> Self {
        Drops((0..values).map(|_| AtomicU8::new(0)).collect())
    }

    /// The value with this number.
    pub fn value(&self, number: usize) -> Value {
        Value { number, drops: self.clone() }
    }

    /// How often a value was dropped.
    pub fn count(&self, number: usize) -> u8 {
        self.0[number].load(Ordering::Relaxed)
    }

    /// How many of the first `values` values were dropped once. Fails if one was dropped more often.
    pub fn once(&self, values: usize) -> usize {
        let counts = (0..values).map(|it| self.count(it)).inspect(|&it| assert!(it <= 1, "a value was dropped {it} times"));
        counts.map(usize::from).sum()
    }
}

/// A value that tells when it is dropped.
pub struct Value {
    pub number: usize,
    drops: Drops,
}

impl Drop for Value {
    fn drop(&mut self) {
        self.drops.0[self.number].fetch_add(1, Ordering::Relaxed);
    }
}
