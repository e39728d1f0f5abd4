//! A model of live routers whose only scheduler is a RoundRobinSched or a PrioSched, by the rules of `clickpull.h`. Values are numbers.

use std::collections::VecDeque;

use clickpull::{Account, Error, Packet, Taken, Total, MOST_TAKEN};

use super::Chance;

/// A packet inside, with its value.
type Held = (Packet, usize);

/// A queue, and what it holds.
pub struct Queue {
    pub capacity: usize,
    pub front_drop: bool,
    pub held: VecDeque<Held>,
}

/// A sender: its queue, and what waits in its inlet. `None` stands for the end of its packets.
pub struct Sender {
    pub number: u16,
    pub queue: usize,
    ring: VecDeque<Option<(u16, usize)>>,
    has_ended: bool,
    accepted: u32,
    taken: u32,
    pub account: Account,
}

/// A live router and its inlets.
pub struct Model {
    is_round_robin: bool,
    /// The input that gave the latest packet.
    latest: Option<usize>,
    pub queues: Vec<Queue>,
    pub senders: Vec<Sender>,
    pub room: usize,
    turn: usize,
    pub moment: u64,
}

fn add(total: &mut Total, packet: Packet) {
    total.packets += 1;
    total.bytes += u64::from(packet.length);
}

impl Model {
    /// A small router at random.
    pub fn random(chance: &mut Chance) -> Self {
        let queue =
            |chance: &mut Chance| Queue { capacity: chance.of(&[1, 1, 2, 3, 8]), front_drop: chance.once_in(2), held: VecDeque::new() };
        let queues: Vec<Queue> = (0..1 + chance.below(4)).map(|_| queue(chance)).collect();
        let sender = |at: usize, chance: &mut Chance| Sender {
            number: (3 * at + chance.below(3)) as u16,
            queue: chance.below(queues.len()),
            ring: VecDeque::new(),
            has_ended: false,
            accepted: 0,
            taken: 0,
            account: Account::default(),
        };
        let mut senders: Vec<Sender> = (0..1 + chance.below(4)).map(|at| sender(at, chance)).collect();
        for it in &mut senders {
            (it.account.sender, it.account.queue) = (it.number, it.queue as u16);
        }
        Model { is_round_robin: chance.once_in(2), latest: None, queues, senders, room: chance.of(&[1, 2, 3, 9]), turn: 0, moment: 0 }
    }

    /// Its tree.
    pub fn text(&self) -> String {
        let mut text = format!("s :: {}; d :: ToDevice(link); s -> d;", if self.is_round_robin { "RoundRobinSched" } else { "PrioSched" });
        for (at, it) in self.queues.iter().enumerate() {
            let class = if it.front_drop { "FrontDropQueue" } else { "Queue" };
            text += &format!("q{at} :: {class}({}); q{at} -> [{at}] s;", it.capacity);
        }
        for it in &self.senders {
            text += &format!("a{0} :: Sender({0}); a{0} -> q{1};", it.number, it.queue);
        }
        text
    }

    /// Offers a packet to the inlet of a sender, which is open.
    pub fn offer(&mut self, sender: usize, length: u32, value: usize) -> Result<u32, Error> {
        let length = u16::try_from(length).ok().filter(|&it| it != 0).ok_or(Error::BadLength)?;
        if self.room(sender) == 0 {
            return Err(Error::Full);
        }
        let it = &mut self.senders[sender];
        it.ring.push_back(Some((length, value)));
        it.accepted += 1;
        Ok(it.accepted - 1)
    }

    /// How many packets fit into an inlet.
    pub fn room(&self, sender: usize) -> usize {
        self.room - self.senders[sender].ring.len()
    }

    /// Closes an inlet.
    pub fn close(&mut self, sender: usize) {
        self.senders[sender].ring.push_back(None);
    }

    /// Takes the next packet of a sender, or finds out that it has ended.
    fn take_one(&mut self, sender: usize) -> Option<Taken<usize>> {
        let it = &mut self.senders[sender];
        let Some((length, value)) = it.ring.pop_front()? else {
            it.has_ended = true;
            return None;
        };
        let packet = Packet { number: it.taken, sender: it.number, length };
        it.taken += 1;
        let queue = &mut self.queues[it.queue];
        let is_full = queue.held.len() == queue.capacity;
        if is_full && !queue.front_drop {
            add(&mut it.account.refused, packet);
            return Some(Taken::Refused(packet, value));
        }
        add(&mut it.account.accepted, packet);
        let front = if is_full { queue.held.pop_front() } else { None };
        queue.held.push_back((packet, value));
        let Some((evicted, value)) = front else { return Some(Taken::Accepted(packet)) };
        add(&mut self.account(evicted).evicted, evicted);
        Some(Taken::Evicting { packet, evicted, value })
    }

    /// The account of the sender of a packet.
    fn account(&mut self, packet: Packet) -> &mut Account {
        &mut self.senders.iter_mut().find(|it| it.number == packet.sender).unwrap().account
    }

    /// Takes packets of one sender.
    pub fn take(&mut self, sender: usize, count: usize) -> Vec<Taken<usize>> {
        std::iter::from_fn(|| self.take_one(sender)).take(count.min(MOST_TAKEN)).collect()
    }

    /// Takes packets in one round over the senders; with `what_fits` none that finds its queue full.
    pub fn take_in(&mut self, each: usize, count: usize, what_fits: bool) -> Vec<Taken<usize>> {
        let most = count.min(MOST_TAKEN);
        let mut taken = Vec::new();
        for _ in 0..self.senders.len() {
            if taken.len() == most {
                break;
            }
            for _ in 0..each.min(most - taken.len()) {
                let queue = &self.queues[self.senders[self.turn].queue];
                if what_fits && queue.held.len() == queue.capacity {
                    break;
                }
                let Some(it) = self.take_one(self.turn) else { break };
                taken.push(it);
            }
            self.turn = (self.turn + 1) % self.senders.len();
        }
        // After a round that took packets and left places free, the next one starts one sender later.
        if !taken.is_empty() && taken.len() < most {
            self.turn = (self.turn + 1) % self.senders.len();
        }
        taken
    }

    /// Pulls the device once.
    pub fn pull(&mut self, moment: u64) -> Option<Held> {
        self.moment = self.moment.max(moment);
        let count = self.queues.len();
        let first = self.latest.filter(|_| self.is_round_robin).map_or(0, |it| it + 1);
        let at = (first..first + count).map(|it| it % count).find(|&it| !self.queues[it].held.is_empty())?;
        self.latest = Some(at);
        let held = self.queues[at].held.pop_front()?;
        add(&mut self.account(held.0).emitted, held.0);
        Some(held)
    }

    /// How many packets are inside.
    pub fn left(&self) -> usize {
        self.queues.iter().map(|it| it.held.len()).sum()
    }

    /// Whether all senders have ended.
    pub fn ended(&self) -> bool {
        self.senders.iter().all(|it| it.has_ended)
    }
}
