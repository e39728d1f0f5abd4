//! A link that two senders share by bytes, on one thread: `cargo run --example one_thread`
use clickpull::{Error, Outcome, Router};

const TREE: &str = "a :: Sender(0); b :: Sender(1); p, q :: Queue(3); s :: DRRSched(1500); d :: ToDevice(eth0);
a -> p -> s -> d; b -> q -> [1] s;";

fn main() -> Result<(), Error> {
    let mut router = Router::open(TREE)?;
    for number in 0..4 {
        for (sender, length) in [(0, 1500), (1, 500)] {
            if router.offer(sender, length)?.outcome() == Outcome::Refused {
                println!("packet {number} of sender {sender} is refused");
            }
        }
    }
    for it in router.drain(0)? {
        let packet = it.packet;
        println!("{}: packet {} of sender {}, {} bytes", it.moment, packet.number, packet.sender, packet.length);
    }
    for it in router.accounts() {
        println!("sender {}: {} bytes of {} packets", it.sender, it.emitted.bytes, it.emitted.packets);
    }
    Ok(())
}
