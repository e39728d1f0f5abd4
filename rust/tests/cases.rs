//! Carries out the table of cases of all bindings, `tests/bindings/cases` of the project.

mod common;

use std::collections::HashMap;

use clickpull::{Account, Error, Inlet, LiveRouter, Outcome, Packet, Queue, Record, Router, Stop, Taken, Total};
use common::shown;

const CASES: &str = include_str!("../../tests/bindings/cases");

/// A case: a tree, the room of inlets if its router is a live one, and steps.
struct Case {
    name: &'static str,
    tree: String,
    room: Option<u32>,
    steps: Vec<Step>,
}

/// A call with its numbers, and what it has to return.
struct Step {
    line: usize,
    call: &'static str,
    numbers: Vec<u64>,
    answer: &'static str,
}

fn cases() -> Vec<Case> {
    let mut cases: Vec<Case> = Vec::new();
    for (at, line) in CASES.lines().enumerate() {
        if line.is_empty() || line.starts_with('#') {
            continue;
        }
        if let Some(name) = line.strip_prefix("case ") {
            cases.push(Case { name, tree: String::new(), room: None, steps: Vec::new() });
            continue;
        }
        let case = cases.last_mut().expect("a line before the first case");
        if let Some((call, answer)) = line.split_once(" -> ").filter(|_| !line.starts_with("tree")) {
            let mut words = call.split(' ');
            let call = words.next().unwrap();
            case.steps.push(Step { line: at + 1, call, numbers: words.map(|it| it.parse().unwrap()).collect(), answer });
        } else if let Some(tree) = line.strip_prefix("tree") {
            case.tree = tree.trim_start().replace("\\n", "\n");
        } else {
            let room = line.strip_prefix("room ").unwrap_or_else(|| panic!("line {}: {line}", at + 1));
            case.room = Some(room.parse().unwrap());
        }
    }
    cases
}

/// What a failed call answers.
fn error(it: &Error) -> String {
    let status = match it {
        Error::Text(it) => return format!("fault {} {} {} {} {}", it.number(), it.name(), it.offset(), it.line(), it.column()),
        Error::Full => return "full".to_string(),
        Error::UnknownSender => "UNKNOWN_SENDER",
        Error::UnknownDevice => "UNKNOWN_DEVICE",
        Error::BadLength => "BAD_LENGTH",
        Error::AtEnd => "AT_END",
        Error::BadRoom => "BAD_ROOM",
        Error::HandedOut => "HANDED_OUT",
        it => panic!("{it}"),
    };
    format!("error {status}")
}

/// Answers that are separated, or `nothing`.
fn listed(them: Vec<String>, separator: &str) -> String {
    if them.is_empty() {
        "nothing".to_string()
    } else {
        them.join(separator)
    }
}

/// The answers of calls that both kinds of routers have.
macro_rules! looks {
    ($router:expr, $step:expr) => {{
        let (router, number) = (&*$router, $step.numbers[0]);
        match $step.call {
            "due" => router.due(number as u16).map(|it| it.map_or("none".to_string(), |it| it.to_string())),
            "moment" => router.moment(number as u16).map(|it| it.to_string()),
            "left" => router.left(number as u16).map(|it| it.to_string()),
            "account" => router.account(number as u32).map(account).ok_or(Error::UnknownSender),
            "queue" => Ok(router.queue(number as u16).map_or("error UNKNOWN_QUEUE".to_string(), queue)),
            call => panic!("there is no call {call}"),
        }
    }};
}

fn account(it: Account) -> String {
    let packets = it.accepted.packets + it.refused.packets;
    let offered = Total { packets, bytes: it.accepted.bytes + it.refused.bytes };
    let totals =
        [("offered", offered), ("accepted", it.accepted), ("refused", it.refused), ("evicted", it.evicted), ("emitted", it.emitted)];
    totals.map(|(word, it)| format!("{word} {}/{}", it.packets, it.bytes)).join(" ")
}

fn queue(it: Queue) -> String {
    format!("{} {} {} {}", it.capacity, it.held, it.device, u8::from(it.front_drop))
}

/// What a pull answers.
fn pulled(it: Option<Packet>) -> String {
    it.map_or("none".to_string(), |it| format!("packet {} {} {}", it.sender, it.number, it.length))
}

/// What a drain answers that emitted these, and stopped so; `left` is what is left for its device.
fn drained(emitted: Vec<String>, stop: Option<Stop>, left: u64) -> Result<String, Error> {
    if emitted.is_empty() && stop == Some(Stop::AtEnd) {
        return Err(Error::AtEnd);
    }
    let word = if left == 0 { "all" } else { "more" };
    Ok([vec![word.to_string()], emitted].concat().join(" "))
}

fn ok() -> Result<String, Error> {
    Ok("ok".to_string())
}

/// What a call answers on a router that is shut.
fn shut() -> Result<String, Error> {
    Ok("error SHUT".to_string())
}

/// The record of what a case has done, and why it couldn't have one of the lines.
#[derive(Default)]
struct Recorded {
    record: Record,
    error: Option<Error>,
}

impl Recorded {
    /// Adds lines, up to the first that the record can't have.
    fn note(&mut self, add: impl FnOnce(&mut Record) -> Result<(), Error>) {
        if self.error.is_none() {
            self.error = add(&mut self.record).err();
        }
    }

    fn send(&mut self, packet: Packet) {
        self.note(|it| it.send(&packet));
    }

    /// A pull, or a call for many pulls that emitted so many packets.
    fn pulls(&mut self, step: &Step, emitted: usize) {
        let most = step.numbers.get(2).copied().unwrap_or(1);
        self.note(|it| it.pulls(step.numbers[0] as u16, step.numbers[1], most.min(emitted as u64 + 1)));
    }

    /// The pulls of a drain, which went from one moment to another.
    fn drain(&mut self, device: u16, before: u64, after: u64) {
        (before + 1..=after).for_each(|moment| self.note(|it| it.pulls(device, moment, 1)));
    }

    /// What the step `record` answers.
    fn told(&self) -> Result<String, Error> {
        self.error.clone().map_or(Ok(()), Err)?;
        let lines: Vec<String> = std::str::from_utf8(self.record.text()).unwrap().lines().map(str::to_string).collect();
        assert_eq!(self.record.lines() as usize, lines.len());
        Ok(listed(lines, "; "))
    }
}

/// A router of one thread, which may be shut.
#[derive(Default)]
struct One {
    router: Option<Router>,
    record: Recorded,
}

impl One {
    fn answer(&mut self, case: &Case, step: &Step) -> Result<String, Error> {
        let numbers = &step.numbers;
        match step.call {
            "open" => {
                self.router = Some(Router::open(&case.tree)?);
                return ok();
            }
            "record" => return self.record.told(),
            _ => {}
        }
        let Some(router) = &mut self.router else { return shut() };
        match step.call {
            "shut" => {
                self.router = None;
                ok()
            }
            "offer" => {
                let offered = router.offer(numbers[0] as u32, numbers[1] as u32)?;
                self.record.send(offered.packet());
                let number = offered.packet().number;
                Ok(match offered.outcome() {
                    Outcome::Accepted => format!("accepted {number}"),
                    Outcome::Refused => format!("refused {number}"),
                    Outcome::Evicting(it) => format!("evicting {number} {} {} {}", it.sender, it.number, it.length),
                })
            }
            "pull" => {
                let emitted = router.pull(numbers[0] as u16, numbers[1])?;
                self.record.pulls(step, 0);
                Ok(pulled(emitted))
            }
            "pull_many" => {
                let mut packets = vec![Packet::default(); numbers[2] as usize];
                let pulled = router.pull_many(numbers[0] as u16, numbers[1], &mut packets)?;
                self.record.pulls(step, pulled.len());
                Ok(listed(pulled.iter().map(|it| shown(*it)).collect(), " "))
            }
            "drain" => {
                let device = numbers[0] as u16;
                let before = router.moment(device)?;
                let mut drain = router.drain(device)?.pulls(numbers[1]);
                let emitted = drain.by_ref().take(numbers[2] as usize);
                let emitted = emitted.map(|it| format!("{}:{}", it.moment, shown(it.packet))).collect();
                let stop = drain.stop();
                self.record.drain(device, before, router.moment(device)?);
                drained(emitted, stop, router.left(device)?)
            }
            _ => looks!(router, step),
        }
    }
}

/// A live router, which may be shut, with the inlets that it handed out, which may be closed, and the values of the packets that are under way.
#[derive(Default)]
struct Live {
    router: Option<LiveRouter<u64>>,
    inlets: HashMap<u64, Option<Inlet<u64>>>,
    values: HashMap<(u16, u32), u64>,
    puts: u64,
    record: Recorded,
}

impl Live {
    fn answer(&mut self, case: &Case, step: &Step) -> Result<String, Error> {
        match step.call {
            "open" => {
                self.router = Some(LiveRouter::open(&case.tree, case.room.unwrap())?);
                return ok();
            }
            "put" => return self.put(step.numbers[0], step.numbers[1] as u32),
            "room" | "close" => return self.of_inlet(step),
            "record" => return self.record.told(),
            _ => {}
        }
        let Some(router) = &mut self.router else { return shut() };
        let yes_or_no = |it| Ok(if it { "yes" } else { "no" }.to_string());
        match step.call {
            "shut" => {
                self.router = None;
                ok()
            }
            "inlet" => {
                let inlet = router.inlet(step.numbers[0] as u32)?;
                assert_eq!(u64::from(inlet.sender()), step.numbers[0]);
                self.inlets.insert(step.numbers[0], Some(inlet));
                ok()
            }
            "take" | "take_in" | "take_what_fits" => self.take(step),
            "pull" | "pull_many" | "drain" => self.emit(step),
            "ended" => yes_or_no(router.ended()),
            "drained" => yes_or_no(router.drained()),
            _ => looks!(router, step),
        }
    }

    /// An offer to a sender's inlet, with the number of puts before it as its value.
    fn put(&mut self, sender: u64, length: u32) -> Result<String, Error> {
        let value = self.puts;
        self.puts += 1;
        let inlet = self.inlets.get_mut(&sender).expect("the inlet was handed out");
        let Some(inlet) = inlet else { return Ok("shut".to_string()) };
        let number = inlet.offer(length, value).map_err(|it| {
            assert_eq!(it.value, value);
            it.error
        })?;
        self.values.insert((inlet.sender(), number), value);
        Ok(format!("number {number}"))
    }

    fn of_inlet(&mut self, step: &Step) -> Result<String, Error> {
        let place = self.inlets.get_mut(&step.numbers[0]).expect("the inlet was handed out");
        let Some(inlet) = place else { return shut() };
        if step.call == "room" {
            return Ok(inlet.room().to_string());
        }
        place.take().unwrap().close();
        ok()
    }

    /// A packet whose value comes back, which has to be the one that went in.
    fn back(&mut self, packet: Packet, value: u64) -> String {
        assert_eq!(self.values.remove(&(packet.sender, packet.number)), Some(value), "the value of {packet:?}");
        shown(packet)
    }

    fn take(&mut self, step: &Step) -> Result<String, Error> {
        let (first, count) = (step.numbers[0], step.numbers[1] as usize);
        let router = self.router.as_mut().unwrap();
        let taken: Vec<Taken<u64>> = match step.call {
            "take" => router.take(first as u32, count)?.collect(),
            "take_in" => router.take_in(first as usize, count).collect(),
            _ => router.take_what_fits(first as usize, count).collect(),
        };
        taken.iter().for_each(|it| self.record.send(it.packet()));
        let answer = |it| match it {
            Taken::Accepted(packet) => format!("accepted {}", shown(packet)),
            Taken::Refused(packet, value) => format!("refused {}", self.back(packet, value)),
            Taken::Evicting { packet, evicted, value } => format!("evicting {} by {}", self.back(evicted, value), shown(packet)),
        };
        Ok(listed(taken.into_iter().map(answer).collect(), "; "))
    }

    fn emit(&mut self, step: &Step) -> Result<String, Error> {
        let (device, numbers) = (step.numbers[0] as u16, &step.numbers);
        let router = self.router.as_mut().unwrap();
        if step.call == "pull" {
            let emitted = router.pull(device, numbers[1])?;
            self.record.pulls(step, 0);
            return Ok(pulled(emitted.map(|it| {
                self.back(it.packet, it.value);
                it.packet
            })));
        }
        if step.call == "pull_many" {
            let emitted: Vec<_> = router.pull_many(device, numbers[1], numbers[2] as usize)?.collect();
            self.record.pulls(step, emitted.len());
            return Ok(listed(emitted.into_iter().map(|it| self.back(it.packet, it.value)).collect(), " "));
        }
        let before = router.moment(device)?;
        let mut drain = router.drain(device)?.pulls(numbers[1]);
        let emitted: Vec<_> = drain.by_ref().take(numbers[2] as usize).collect();
        let (stop, left) = (drain.stop(), router.left(device)?);
        self.record.drain(device, before, router.moment(device)?);
        drained(emitted.into_iter().map(|it| format!("{}:{}", it.moment, self.back(it.packet, it.value))).collect(), stop, left)
    }
}

#[test]
fn each_case_is_as_the_table_says() {
    let mut steps = 0;
    for case in cases() {
        let (mut one, mut live) = (One::default(), Live::default());
        for step in &case.steps {
            let answer = if case.room.is_some() { live.answer(&case, step) } else { one.answer(&case, step) };
            let answer = answer.unwrap_or_else(|it| error(&it));
            assert_eq!(answer, step.answer, "case {}, line {}: {} {:?}", case.name, step.line, step.call, step.numbers);
            steps += 1;
        }
    }
    assert!(steps > 500, "the table has {steps} steps");
}
