//! Compares numbers and texts of the crate with those of `clickpull.h`.

use std::mem::size_of;

use crate::error::{Error, NAMES};
use crate::layout::{Fault, Item, RawDeparted, RawEmitted, RawQueue, RawTaken};
use crate::live::MOST_HELD;
use crate::record::MOST_LINE;
use crate::values::{Account, Departure, Offer, Offered, Packet, Total, EVICTED, REFUSED};
use crate::{status, END_OF_MOMENTS, END_OF_RECORDED_MOMENTS, MOST_LINES, MOST_ROOM, MOST_TAKEN};

const HEADER: &str = include_str!("../../include/clickpull.h");
const FORMATS: &str = include_str!("../../docs/FORMATS.md");

/// What follows a text in the header, up to an end.
fn after(text: &str, end: &str) -> &'static str {
    let rest = HEADER.split_once(text).unwrap_or_else(|| panic!("the header has no {text:?}")).1;
    rest.split_once(end).unwrap().0
}

/// The number of a constant of an enum.
fn constant(name: &str) -> u32 {
    after(&format!(" {name} = "), ",").split_whitespace().next().unwrap().parse().unwrap()
}

#[test]
fn statuses_are_those_of_the_header() {
    let all = [
        ("CLK_OK", status::OK),
        ("CLK_NONE", status::NONE),
        ("CLK_UNKNOWN_SENDER", status::UNKNOWN_SENDER),
        ("CLK_UNKNOWN_DEVICE", status::UNKNOWN_DEVICE),
        ("CLK_BAD_LENGTH", status::BAD_LENGTH),
        ("CLK_AT_END", status::AT_END),
        ("CLK_FAULT", status::FAULT),
        ("CLK_FULL", status::FULL),
        ("CLK_BAD_ROOM", status::BAD_ROOM),
        ("CLK_HANDED_OUT", status::HANDED_OUT),
        ("CLK_REFUSED", REFUSED),
    ];
    for (name, number) in all {
        assert_eq!(constant(name), number, "{name}");
    }
    // The last of an enum has no comma.
    assert_eq!(after(" CLK_EVICTED = ", " ").parse(), Ok(EVICTED));
}

#[test]
fn errors_have_the_texts_of_the_header() {
    use Error::*;
    for error in [UnknownSender, UnknownDevice, BadLength, AtEnd, Full, BadRoom, HandedOut] {
        assert!(HEADER.contains(&format!("return \"{error}\";")), "{error}");
    }
}

#[test]
fn faults_have_the_names_of_the_header() {
    let told = after("clk_fault_name(uint32_t number) {", "default:");
    let of_header: Vec<(u32, &str)> = told
        .split("case ")
        .skip(1)
        .map(|it| {
            let (number, rest) = it.split_once(':').unwrap();
            (number.parse().unwrap(), rest.split('"').nth(1).unwrap())
        })
        .collect();
    assert_eq!(of_header, NAMES);
}

#[test]
fn limits_are_those_of_the_header() {
    assert_eq!(after("#define CLK_END_OF_MOMENTS (UINT64_C(1) << ", ")").parse(), Ok(END_OF_MOMENTS.trailing_zeros()));
    assert_eq!(after("#define CLK_MOST_ROOM (UINT32_C(1) << ", ")").parse(), Ok(MOST_ROOM.trailing_zeros()));
    let end = after("#define CLK_END_OF_RECORDED_MOMENTS (UINT64_C(1) << ", ")");
    assert_eq!(end.parse(), Ok(END_OF_RECORDED_MOMENTS.trailing_zeros()));
    assert_eq!(after("#define CLK_MOST_TAKEN ", "\n").parse(), Ok(MOST_TAKEN));
    assert_eq!(after("#define CLK_MOST_LINE ", "\n").parse(), Ok(MOST_LINE));
    assert_eq!(after("#define CLK_MOST_LINES ", "\n").parse(), Ok(MOST_LINES));
    assert!([END_OF_MOMENTS, END_OF_RECORDED_MOMENTS, u64::from(MOST_ROOM)].iter().all(|it| it.is_power_of_two()));
    assert!(FORMATS.contains(&format!("a path at most {MOST_HELD} schedulers and Shapers")));
}

#[test]
fn structs_have_the_sizes_of_the_header() {
    let all = [
        ("clk_fault", size_of::<Fault>()),
        ("clk_packet", size_of::<Packet>()),
        ("clk_offered", size_of::<Offered>()),
        ("clk_offer_of", size_of::<Offer>()),
        ("clk_departure", size_of::<Departure>()),
        ("clk_total", size_of::<Total>()),
        ("clk_account", size_of::<Account>()),
        ("clk_queue", size_of::<RawQueue>()),
        ("clk_item", size_of::<Item>()),
        ("clk_taken", size_of::<RawTaken>()),
        ("clk_emitted", size_of::<RawEmitted>()),
        ("clk_departed", size_of::<RawDeparted>()),
    ];
    for (name, size) in all {
        assert_eq!(after(&format!("sizeof({name}) == "), ",").parse(), Ok(size), "{name}");
    }
}
