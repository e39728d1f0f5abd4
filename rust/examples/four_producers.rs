//! Four producers on threads, and a thread that serves a link: `cargo run --example four_producers`
use std::error::Error;
use std::thread;
use std::time::Duration;

use clickpull::{Inlet, LiveRouter};

/// Sender 0 goes first. The others share by bytes what it leaves.
const TREE: &str = "calls :: Sender(0); mail :: Sender(1); web :: Sender(2); news :: Sender(3);
c :: Queue(64); m, w :: Queue(64); n :: FrontDropQueue(8); shares :: DRRSched(1500); s :: PrioSched; d :: ToDevice(eth0);
calls -> c -> s -> d; mail -> m -> shares -> [1] s; web -> w -> [1] shares; news -> n -> [2] shares;";

/// How many messages each producer sends.
const MESSAGES: usize = 1000;

/// How long a thread pauses that can't go on.
const PAUSE: Duration = Duration::from_micros(50);

fn produce(mut inlet: Inlet<String>) {
    for number in 0..MESSAGES {
        let mut message = format!("message {number} of sender {}", inlet.sender());
        // The message comes back while the inlet is full.
        while let Err(rejected) = inlet.offer(100, message) {
            message = rejected.value;
            thread::sleep(PAUSE);
        }
    }
}

fn main() -> Result<(), Box<dyn Error>> {
    let mut router = LiveRouter::open(TREE, 256)?;
    let producers = (0..4).map(|it| router.inlet(it)).collect::<Result<Vec<_>, _>>()?;
    let producers: Vec<_> = producers.into_iter().map(|it| thread::spawn(|| produce(it))).collect();
    let (mut sent, mut lost) = ([0; 4], [0; 4]);
    for now in 0.. {
        if router.ended() && router.drained() {
            break;
        }
        let taken = router.take_in(16, 64);
        let is_idle = taken.len() == 0;
        for (packet, _message) in taken.filter_map(|it| it.into_lost()) {
            lost[usize::from(packet.sender)] += 1;
        }
        for it in router.pull_many(0, now, 8)? {
            sent[usize::from(it.packet.sender)] += 1;
        }
        if is_idle {
            thread::sleep(PAUSE);
        }
    }
    for it in producers {
        it.join().expect("a producer does not panic");
    }
    for sender in 0..4 {
        eprintln!("sender {sender}: {} sent, {} lost", sent[sender], lost[sender]);
        println!("sender {sender}: {} messages came back", sent[sender] + lost[sender]);
    }
    Ok(())
}
