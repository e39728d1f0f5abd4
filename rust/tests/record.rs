//! Records: their lines, their limits, and what a record of a run on threads says.

use std::thread;

use clickpull::{Error, LiveRouter, Packet, Record, Router, END_OF_RECORDED_MOMENTS, MOST_LINES};

#[test]
fn lines_are_added_in_order() {
    let mut record = Record::new();
    assert_eq!((record.text(), record.lines()), (&b""[..], 0));
    record.send(&Packet { number: 7, sender: 3, length: 1500 }).unwrap();
    record.pulls(0, 5, 1).unwrap();
    record.pulls(65_535, END_OF_RECORDED_MOMENTS - 1, 2).unwrap();
    record.pulls(2, 9, 0).unwrap();
    record.drain(0).unwrap();
    let text = b"send 3 1500\npull 5\npull 1099511627775 65535\npull 1099511627775 65535\ndrain 0\n";
    assert_eq!((record.text(), record.lines()), (&text[..], 5));
    record.clear();
    assert_eq!((record.text(), record.lines()), (&b""[..], 5));
    record.drain(8).unwrap();
    assert_eq!((record.text(), record.lines()), (&b"drain 8\n"[..], 6));
}

#[test]
fn a_long_record_grows() {
    let (mut record, mut text) = (Record::new(), String::new());
    for it in 0..3000 {
        record.send(&Packet { number: 0, sender: it, length: 65_535 }).unwrap();
        text += &format!("send {it} 65535\n");
    }
    assert_eq!(record.text(), text.as_bytes());
    record.pulls(1, 23, 100_000).unwrap();
    text += &"pull 23 1\n".repeat(100_000);
    assert!(record.text() == text.as_bytes() && record.lines() == 103_000);
}

#[test]
fn what_cannot_be_added() {
    let mut record = Record::new();
    record.drain(END_OF_RECORDED_MOMENTS - 1).unwrap();
    for moment in [END_OF_RECORDED_MOMENTS, u64::MAX] {
        assert_eq!(record.pulls(0, moment, 1), Err(Error::AtEnd));
        assert_eq!(record.drain(moment), Err(Error::AtEnd));
    }
    for count in [u64::from(MOST_LINES), u64::MAX] {
        assert_eq!(record.pulls(0, 0, count), Err(Error::AtEnd));
    }
    assert_eq!((record.text(), record.lines()), (&b"drain 1099511627775\n"[..], 1));
}

#[test]
fn lines_have_an_end() {
    let mut record = Record::new();
    for _ in 0..4 {
        record.pulls(0, 7, u64::from(MOST_LINES) / 4).unwrap();
        record.clear();
    }
    assert_eq!(record.send(&Packet { number: 0, sender: 0, length: 1 }), Err(Error::AtEnd));
    assert_eq!(record.send(&Packet { number: 0, sender: 0, length: 0 }), Err(Error::BadLength));
    assert_eq!(record.drain(0), Err(Error::AtEnd));
    assert_eq!((record.text(), record.lines()), (&b""[..], MOST_LINES));
}

const TREE: &str = "a :: Sender(0); b :: Sender(1); p :: Queue(2); q :: FrontDropQueue(3); s :: DRRSched(500); d :: ToDevice(link);
a -> p -> s -> d; b -> q -> [1] s;";

/// The packets that the pulls of a script emit.
fn emitted(script: &[u8]) -> Vec<Packet> {
    let mut router = Router::open(TREE).unwrap();
    let mut emitted = Vec::new();
    for line in std::str::from_utf8(script).unwrap().lines() {
        let words: Vec<&str> = line.split(' ').collect();
        let number = |at: usize| words[at].parse::<u64>().unwrap();
        if words[0] == "send" {
            let _ = router.offer(number(1) as u32, number(2) as u32).unwrap();
        } else {
            emitted.extend(router.pull(0, number(1)).unwrap());
        }
    }
    emitted
}

#[test]
fn a_record_repeats_a_run_on_threads() {
    let mut router = LiveRouter::open(TREE, 8).unwrap();
    let (mut record, mut wanted) = (Record::new(), Vec::new());
    let inlets = [0, 1].map(|it| router.inlet(it).unwrap());
    thread::scope(|scope| {
        for mut inlet in inlets {
            scope.spawn(move || {
                for number in 0..3000 {
                    while inlet.offer(1 + number * 7 % 1500, ()).is_err() {
                        thread::yield_now();
                    }
                }
            });
        }
        let mut now = 0;
        while !(router.ended() && router.drained()) {
            router.take_in(3, 64).for_each(|it| record.send(&it.packet()).unwrap());
            // Pulls are made only where something is left, so that the record doesn't fill up while a sender pauses.
            if router.left(0).unwrap() == 0 {
                thread::yield_now();
                continue;
            }
            let before = wanted.len();
            wanted.extend(router.pull_many(0, now, 4).unwrap().map(|it| it.packet));
            record.pulls(0, now, 4.min(wanted.len() - before + 1) as u64).unwrap();
            now += 1;
        }
    });
    assert!(wanted.len() > 100 && emitted(record.text()) == wanted);
}
