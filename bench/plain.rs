//! Does what clickpull does, in plain Rust: the yardstick of bench/run --compare.
//!
//! It reads its whole input, checks every line, runs the commands over two queues and a priority scheduler, logs each
//! visit, and writes all lines at the end at once. Unlike clickpull it aborts where memory is refused.

use std::collections::VecDeque;
use std::hint::black_box;
use std::io::{self, Read, Write};
use std::process::ExitCode;

const MAX_BYTES: usize = 33_554_432;
const MAX_LINES: u32 = 1_000_000;
const MAX_MOMENT: u64 = (1 << 40) - 1;
const CAPACITY: usize = 2;

/// The line that tells why a script is refused.
type Fault = String;

#[derive(Clone, Copy)]
struct Packet {
    number: u32,
    sender: u16,
    length: u16,
}

/// One look of a node at one of its inputs. Node 0 is the device, and node 1 the scheduler.
#[allow(dead_code)] // The log is kept, and nothing reads it.
struct Visit {
    pull: u64,
    moment: u64,
    got: Option<Packet>,
    node: u16,
    input: u16,
    fresh: bool,
    passed: bool,
}

enum Command {
    Send(u16, u16),
    Pull(u64),
}

/// The number that digits stand for, where it is in this range.
fn number(digits: &[u8], least: u64, most: u64) -> Option<u64> {
    let mut number: u64 = 0;
    for digit in digits {
        if !digit.is_ascii_digit() {
            return None;
        }
        number = number.checked_mul(10)?.checked_add(u64::from(digit - b'0'))?;
    }
    (!digits.is_empty() && least <= number && number <= most).then_some(number)
}

/// The command of a line, if it has one. Lines are counted from 1.
fn command_at(count: u32, line: &[u8]) -> Result<Option<Command>, Fault> {
    if count > MAX_LINES {
        return Err("fault 18: TooLarge\n".to_string());
    }
    let mut fields = line.split(|byte| matches!(byte, b' ' | b'\t')).filter(|field| !field.is_empty());
    let command = match (fields.next(), fields.next(), fields.next(), fields.next()) {
        (None, ..) => return Ok(None),
        (Some(b"pull"), Some(moment), None, _) => number(moment, 0, MAX_MOMENT).map(Command::Pull),
        (Some(b"send"), Some(sender), Some(length), None) => {
            match (number(sender, 0, 65_535), number(length, 1, 65_535)) {
                (Some(sender @ 2..), Some(_)) => return Err(format!("fault 15: UnknownSender {sender}\n")),
                (Some(sender), Some(length)) => Some(Command::Send(sender as u16, length as u16)),
                _ => None,
            }
        }
        _ => None,
    };
    command.map(Some).ok_or_else(|| format!("fault 16: BadScript {count}\n"))
}

fn read_commands(script: &[u8]) -> Result<Vec<Command>, Fault> {
    if script.len() > MAX_BYTES {
        return Err("fault 18: TooLarge\n".to_string());
    }
    let mut commands = Vec::new();
    let mut count = 0;
    for line in script.split_inclusive(|byte| *byte == b'\n') {
        // A carriage return goes only with the line feed after it.
        let ([line @ .., b'\r', b'\n'] | [line @ .., b'\n'] | line) = line;
        count += 1;
        commands.extend(command_at(count, line)?);
    }
    Ok(commands)
}

#[derive(Default)]
struct Router {
    sent: [u32; 2],
    queues: [VecDeque<Packet>; 2],
    log: Vec<Visit>,
    pulls: u64,
    now: u64,
}

impl Router {
    /// Offers the sender's next packet to its queue, and says whether it was taken.
    fn send(&mut self, sender: u16, length: u16) -> (Packet, bool) {
        let at = usize::from(sender);
        let packet = Packet { number: self.sent[at], sender, length };
        self.sent[at] += 1;
        let is_taken = self.queues[at].len() < CAPACITY;
        if is_taken {
            self.queues[at].push_back(packet);
        }
        (packet, is_taken)
    }

    fn pull(&mut self, moment: u64) -> Option<Packet> {
        self.now = self.now.max(moment);
        let mut got = None;
        for input in 0..2 {
            got = self.queues[usize::from(input)].pop_front();
            self.visit(1, input, got);
            if got.is_some() {
                break;
            }
        }
        self.visit(0, 0, got);
        self.pulls += 1;
        got
    }

    fn visit(&mut self, node: u16, input: u16, got: Option<Packet>) {
        let (pull, moment, passed) = (self.pulls, self.now, got.is_some());
        self.log.push(Visit { pull, moment, got, node, input, fresh: true, passed });
    }
}

fn push_number(text: &mut Vec<u8>, mut number: u64) {
    let mut digits = [0; 20];
    let mut at = digits.len();
    loop {
        at -= 1;
        digits[at] = b'0' + (number % 10) as u8;
        number /= 10;
        if number == 0 {
            return text.extend_from_slice(&digits[at..]);
        }
    }
}

fn push_packet(text: &mut Vec<u8>, packet: Packet) {
    push_number(text, u64::from(packet.sender));
    text.push(b'#');
    push_number(text, u64::from(packet.number));
    text.push(b' ');
    push_number(text, u64::from(packet.length));
}

fn answer(commands: &[Command]) -> Vec<u8> {
    let mut router = Router::default();
    let mut text = Vec::new();
    for command in commands {
        match *command {
            Command::Send(sender, length) => {
                let (packet, is_taken) = router.send(sender, length);
                push_packet(&mut text, packet);
                text.extend_from_slice(if is_taken { b" accepted\n" } else { b" refused\n" });
            }
            Command::Pull(moment) => {
                text.extend_from_slice(b"pull ");
                push_number(&mut text, moment);
                text.extend_from_slice(b": ");
                match router.pull(moment) {
                    Some(packet) => push_packet(&mut text, packet),
                    None => text.extend_from_slice(b"none"),
                }
                text.push(b'\n');
            }
        }
    }
    // Keeps the compiler from leaving out the log.
    black_box(&router.log);
    text
}

fn run() -> Result<(), Fault> {
    let mut script = Vec::new();
    let mut input = io::stdin().lock().take(MAX_BYTES as u64 + 1);
    input.read_to_end(&mut script).map_err(|_| "fault 19: Read\n")?;
    let text = answer(&read_commands(&script)?);
    io::stdout().write_all(&text).map_err(|_| "fault 20: Write\n".to_string())
}

fn main() -> ExitCode {
    match run() {
        Ok(()) => ExitCode::SUCCESS,
        Err(fault) => {
            let _ = io::stderr().write_all(fault.as_bytes());
            ExitCode::FAILURE
        }
    }
}
