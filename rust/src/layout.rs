//! Structs that calls fill or read, laid out as C has them, and which the crate does not show.

use crate::values::Packet;

/// A `clk_fault`.
#[repr(C)]
#[derive(Default)]
pub(crate) struct Fault {
    pub(crate) number: u32,
    pub(crate) offset: u32,
}

/// A `clk_queue`.
#[repr(C)]
#[derive(Default)]
pub(crate) struct RawQueue {
    pub(crate) capacity: u64,
    pub(crate) held: u64,
    pub(crate) device: u16,
    pub(crate) front_drop: u16,
}

/// A `clk_item`.
#[repr(C)]
#[derive(Clone, Copy, Default)]
pub(crate) struct Item {
    pub(crate) token: u64,
    pub(crate) length: u32,
}

/// A `clk_taken`.
#[repr(C)]
#[derive(Clone, Copy, Default)]
pub(crate) struct RawTaken {
    pub(crate) packet: Packet,
    pub(crate) token: u64,
    pub(crate) evicted: Packet,
    pub(crate) evicted_token: u64,
    pub(crate) outcome: u32,
}

/// A `clk_emitted`.
#[repr(C)]
#[derive(Clone, Copy, Default)]
pub(crate) struct RawEmitted {
    pub(crate) packet: Packet,
    pub(crate) token: u64,
}

/// A `clk_departed`.
#[repr(C)]
#[derive(Clone, Copy, Default)]
pub(crate) struct RawDeparted {
    pub(crate) moment: u64,
    pub(crate) packet: Packet,
    pub(crate) token: u64,
}
