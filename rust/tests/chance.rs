//! Random calls on live routers, beside a model of them. The seed is 1, or what `CLICKPULL_SEED` says.

mod common;

use std::env;
use std::mem;

use clickpull::{Inlet, LiveRouter, Taken};
use common::model::Model;
use common::{Chance, Drops, Value};

/// How many calls are made in all, and how many on one router at most.
const CALLS: usize = 100_000;
const CALLS_OF_ONE: usize = 300;

/// How many packets are offered at once.
const MANY: usize = 6;

/// A router with its inlets, beside the model of them.
struct Run {
    chance: Chance,
    model: Model,
    router: LiveRouter<Value>,
    inlets: Vec<Option<Inlet<Value>>>,
    drops: Drops,
    /// How many values were made.
    values: usize,
    /// Values that a leaked iterator of takes left behind.
    leaked: Vec<usize>,
}

/// The number of a value that comes back. It was not dropped before.
fn number(value: Value, drops: &Drops) -> usize {
    assert_eq!(drops.count(value.number), 0, "value {} was dropped inside", value.number);
    value.number
}

/// What was taken, with the numbers of values.
fn numbered(taken: Taken<Value>, drops: &Drops) -> Taken<usize> {
    match taken {
        Taken::Accepted(packet) => Taken::Accepted(packet),
        Taken::Refused(packet, value) => Taken::Refused(packet, number(value, drops)),
        Taken::Evicting { packet, evicted, value } => Taken::Evicting { packet, evicted, value: number(value, drops) },
    }
}

impl Run {
    fn new(seed: u64) -> Self {
        let mut chance = Chance(seed);
        let model = Model::random(&mut chance);
        let mut router = LiveRouter::open(&model.text(), model.room as u32).unwrap();
        let inlets = model.senders.iter().map(|it| Some(router.inlet(u32::from(it.number)).unwrap())).collect();
        Run { chance, model, router, inlets, drops: Drops::of(CALLS_OF_ONE * MANY), values: 0, leaked: Vec::new() }
    }

    /// Makes a call.
    fn call(&mut self) {
        match self.chance.below(16) {
            0..=5 => self.offer(),
            6 => self.offer_many(),
            7..=9 => self.take(),
            10 => self.pull(),
            11 => self.pull_many(),
            12 => self.drain(),
            13 => self.room(),
            14 => self.look(),
            _ if self.chance.once_in(10) => self.close(),
            _ => self.look_at_accounts(),
        }
    }

    fn offer(&mut self) {
        let at = self.chance.below(self.inlets.len());
        let Some(inlet) = &mut self.inlets[at] else { return };
        let length = self.chance.of(&[1, 1, 40, 1500, 1500, 65_535, 0, 65_536, u32::MAX]);
        let wanted = self.model.offer(at, length, self.values);
        let value = self.drops.value(self.values);
        let found = inlet.offer(length, value).map_err(|it| {
            assert_eq!(number(it.value, &self.drops), self.values);
            it.error
        });
        assert_eq!(found, wanted);
        self.values += 1;
    }

    fn offer_many(&mut self) {
        let at = self.chance.below(self.inlets.len());
        let Some(inlet) = &mut self.inlets[at] else { return };
        let bad = if self.chance.once_in(3) { self.chance.below(6) } else { MANY };
        let length = |it| if it == bad { 0 } else { 1 + it as u32 };
        let (first, drops) = (self.values, &self.drops);
        let mut packets = (0..MANY).map(|it| (length(it), drops.value(first + it)));
        let (count, end) = inlet.offer_many(&mut packets);
        let found = (count, end.map_err(|it| (number(it.value, drops), it.error)));
        self.values += MANY - packets.len();
        let mut wanted = (0, Ok(()));
        for it in 0..MANY {
            if self.model.room(at) == 0 {
                break;
            }
            if let Err(error) = self.model.offer(at, length(it), first + it) {
                wanted.1 = Err((first + it, error));
                break;
            }
            wanted.0 += 1;
        }
        assert_eq!(found, wanted);
    }

    fn room(&mut self) {
        let at = self.chance.below(self.inlets.len());
        if let Some(inlet) = &mut self.inlets[at] {
            assert_eq!(inlet.room(), self.model.room(at));
        }
    }

    fn close(&mut self) {
        let at = self.chance.below(self.inlets.len());
        if self.inlets[at].take().is_some() {
            self.model.close(at);
        }
    }

    fn take(&mut self) {
        let (each, count) = (self.chance.of(&[0, 1, 2, 64]), self.chance.of(&[0, 1, 2, 5, 64, 100]));
        let at = self.chance.below(self.inlets.len());
        let (wanted, mut takes) = match self.chance.below(3) {
            0 => (self.model.take(at, count), self.router.take(u32::from(self.model.senders[at].number), count).unwrap()),
            1 => (self.model.take_in(each, count, false), self.router.take_in(each, count)),
            _ => (self.model.take_in(each, count, true), self.router.take_what_fits(each, count)),
        };
        for it in self.leaked.drain(..) {
            assert_eq!(self.drops.count(it), 1, "value {it} was left behind by a leaked iterator");
        }
        assert_eq!(takes.len(), wanted.len());
        // Mostly all are asked for.
        let asked = if self.chance.once_in(4) { self.chance.below(wanted.len() + 1) } else { wanted.len() };
        let found: Vec<Taken<usize>> = takes.by_ref().take(asked).map(|it| numbered(it, &self.drops)).collect();
        assert_eq!(found, wanted[..asked]);
        let lost = wanted.into_iter().skip(asked).filter_map(|it| it.into_lost()).map(|it| it.1).collect::<Vec<_>>();
        assert!(lost.iter().all(|&it| self.drops.count(it) == 0));
        if self.chance.once_in(2) {
            mem::forget(takes);
            self.leaked = lost;
        } else {
            drop(takes);
            assert!(lost.iter().all(|&it| self.drops.count(it) == 1));
        }
    }

    /// A moment about that of the device.
    fn moment(&mut self) -> u64 {
        (self.model.moment + self.chance.of(&[0, 0, 1, 2, 30])).saturating_sub(self.chance.of(&[0, 0, 3]))
    }

    fn pull(&mut self) {
        let moment = self.moment();
        let found = self.router.pull(0, moment).unwrap().map(|it| (it.packet, number(it.value, &self.drops)));
        assert_eq!(found, self.model.pull(moment));
    }

    fn pull_many(&mut self) {
        let (moment, count, asked) = (self.moment(), self.chance.below(5), self.chance.below(6));
        let pulls = self.router.pull_many(0, moment, count).unwrap().take(asked);
        let found: Vec<_> = pulls.map(|it| (it.packet, number(it.value, &self.drops))).collect();
        let wanted: Vec<_> = (0..count.min(asked)).map_while(|_| self.model.pull(moment)).collect();
        assert_eq!(found, wanted);
    }

    fn drain(&mut self) {
        let (pulls, asked) = (self.chance.of(&[0, 1, 3, u64::MAX]), self.chance.below(5));
        let drain = self.router.drain(0).unwrap().pulls(pulls).take(asked);
        let found: Vec<_> = drain.map(|it| (it.moment, it.packet, number(it.value, &self.drops))).collect();
        let made = (asked.min(self.model.left()) as u64).min(pulls);
        // Below such a scheduler each pull emits a packet while one is left.
        let wanted: Vec<_> = (0..made)
            .map(|_| {
                let (packet, value) = self.model.pull(self.model.moment + 1).unwrap();
                (self.model.moment, packet, value)
            })
            .collect();
        assert_eq!(found, wanted);
    }

    fn look(&mut self) {
        let left = self.model.left() as u64;
        assert_eq!(self.router.left(0), Ok(left));
        assert_eq!(self.router.drained(), left == 0);
        assert_eq!(self.router.ended(), self.model.ended());
        assert_eq!(self.router.moment(0), Ok(self.model.moment));
        assert_eq!(self.router.due(0), Ok((left > 0).then_some(self.model.moment)));
    }

    fn look_at_accounts(&mut self) {
        assert!(self.router.accounts().eq(self.model.senders.iter().map(|it| it.account)));
        for (found, wanted) in self.router.queues().zip(&self.model.queues) {
            assert_eq!(found.capacity, wanted.capacity as u64);
            assert_eq!(found.held, wanted.held.len() as u64);
            assert_eq!(found.front_drop, wanted.front_drop);
        }
    }

    /// Leaves in some order. Each value is dropped once then.
    fn end(self) -> usize {
        let Run { mut chance, model, router, mut inlets, drops, values, leaked } = self;
        let mut router = Some(router);
        if chance.once_in(3) {
            let found: Vec<usize> = router.take().unwrap().reclaim().map(|it| number(it, &drops)).collect();
            assert!(found.into_iter().eq(model.queues.iter().flat_map(|it| &it.held).map(|it| it.1)));
        }
        let router_is_at = chance.below(inlets.len() + 1);
        for at in 0..=inlets.len() {
            if at == router_is_at {
                router = None;
            }
            let next = chance.below(inlets.len().max(1));
            if !inlets.is_empty() {
                inlets.swap_remove(next);
            }
        }
        drop((router, inlets, leaked));
        assert_eq!(drops.once(values), values);
        values
    }
}

#[test]
fn random_calls_do_what_the_model_does() {
    let seed: u64 = env::var("CLICKPULL_SEED").map_or(1, |it| it.parse().expect("CLICKPULL_SEED is a number"));
    let (mut calls, mut values, mut routers) = (0, 0, 0);
    while calls < CALLS {
        let mut run = Run::new(seed << 32 | routers);
        let count = 1 + run.chance.below(CALLS_OF_ONE);
        for _ in 0..count {
            run.call();
        }
        calls += count;
        values += run.end();
        routers += 1;
    }
    assert!(values > CALLS / 5, "{values} values in {calls} calls on {routers} routers");
}
