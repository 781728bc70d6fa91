// Random boards, programs, lines and runs that often reach the edges of frames and of the tick.
// Paper: A1, "A serial board above the core".
// R4 to R6 of both banks hold the address of device 0 at the start; a frame's clocks are few from an edge of interest.
use super::call::Run;
use super::declared::{Board, Devices, Serial};
use super::side::Lent;
use crate::programs::{self, branch, jump, literal, load, register, status, store};
use crate::random::Random;
use crate::records;
use crate::side::zeros;

const FIRST: u32 = 0xFFC0;

/// A number from just before a place to just after it, within 0 to `limit`.
fn near(random: &mut Random, place: u64, limit: u64) -> u64 {
    (place + 4).saturating_sub(random.below(70)).min(limit)
}

fn left(random: &mut Random) -> u64 {
    match random.below(8) {
        0 | 1 => 0,
        2 | 3 => random.below(40),
        4 => random.below(10_121),
        5 => near(random, 10_120, 10_120),
        _ => {
            let place = 1012 * random.below(11);
            near(random, place, 10_120)
        }
    }
}

fn passed(random: &mut Random) -> u64 {
    match random.below(8) {
        0 | 1 => 0,
        2 | 3 => near(random, 9613, 9613),
        4 => random.below(9614),
        _ => {
            let place = 1012 * random.below(10) + 506;
            near(random, place, 9613)
        }
    }
}

/// Devices in range, whether a board can come to them or not.
pub fn devices(random: &mut Random) -> Devices {
    let serial = Serial {
        left: left(random),
        sent: random.below(256),
        passed: passed(random),
        bits: random.below(256),
        byte: random.below(256),
        ready: random.below(2),
    };
    Devices { serial, tick: random.below(2), lamps: random.below(1024) }
}

/// A clock count: small, any, just before a rise of the tick, or near its end.
fn clock_count(random: &mut Random) -> u64 {
    match random.below(8) {
        0 => random.below(1000),
        1 => random.below(0xFFFF_FFFF),
        2 => 0xFFFF_FFFF - random.below(200),
        _ => {
            let multiple = random.pick(&[1, 2, 3, 1000, 36_834]);
            near(random, 116_600 * multiple, 0xFFFF_FFFF)
        }
    }
}

/// An access to a device, mostly to one of the board.
fn access(random: &mut Random) -> u32 {
    let (d, s) = (random.bits(2), random.between(4, 6) as u32);
    match random.below(20) {
        0..=4 => load(d, s, 4),
        5..=7 => load(d, s, 5),
        8 | 9 => load(d, s, 6),
        10 => load(d, s, 7),
        11 => load(d, s, random.bits(6)),
        12..=14 => store(d, s, 4),
        15 | 16 => store(d, s, 6),
        17 => store(d, s, 7),
        18 => store(d, s, random.bits(6)),
        _ => store(d, s, random.pick(&[3, 5, 8])),
    }
}

fn word(random: &mut Random) -> u32 {
    let d = random.bits(2);
    match random.below(30) {
        0 => literal(random.pick(&[0, 2, 7, 10]), d, random.bits(10)),
        1 => register(random.pick(&[0, 2, 8]), d, random.bits(3)),
        2 => branch(random.bits(4), random.below(5) as i32 - 2),
        3 => status(random.pick(&[1, 3, 3, 8, 9, 11])),
        4 => programs::load(d, 7, random.bits(8)),
        5 => programs::store(d, 7, random.bits(8)),
        _ => access(random),
    }
}

/// Accesses in a loop, with handlers at 2 (it clears the tick) and 3.
fn accesses(random: &mut Random) -> Vec<u32> {
    let length = random.between(8, 30) as usize;
    let mut words: Vec<u32> = (0..length).map(|_| word(random)).collect();
    words[0] = branch(14, 4);
    words[2] = if random.percent(80) { store(0, 6, 6) } else { jump(1, 0, 7) };
    words[3] = jump(1, 0, 7);
    words[5] = status(random.bits(2));
    words[length - 1] = branch(14, 5 - length as i32);
    words
}

/// Polls device 5; a byte received is read and sent back, with or without waiting for the transmitter.
fn echo(random: &mut Random) -> Vec<u32> {
    let mut words = vec![load(0, 6, 5), literal(4, 0, 1), branch(0, -3), load(1, 6, 4)];
    if random.percent(60) {
        words.extend([load(0, 6, 5), literal(4, 0, 2), branch(0, -3)]);
    }
    words.push(store(1, 6, 4));
    words.extend((0..random.below(3)).map(|_| access(random)));
    words.push(branch(14, -1 - words.len() as i32));
    words
}

fn program(random: &mut Random) -> Vec<u32> {
    match random.below(10) {
        0 => programs::program(random),
        1..=3 => echo(random),
        _ => accesses(random),
    }
}

/// A board in the middle of its work, lent with a program.
pub fn lent(random: &mut Random) -> Lent {
    if random.percent(20) {
        return any(random);
    }
    let size = random.pick(&[64, 64, 128, 256, 512]);
    let mut machine = zeros();
    machine.size = size as u32;
    machine.clocks = clock_count(random);
    machine.held = random.below(machine.clocks + 1);
    machine.status = random.pick(&[0, 1, 1, 2, 3, 3, 8, 11]);
    machine.regs = std::array::from_fn(|number| match number % 8 {
        4..=6 => FIRST,
        _ => random.word(),
    });
    let program = program(random);
    machine.pc = random.below(program.len() as u64);
    Lent { board: Board { machine, devices: devices(random) }, program, store: random.words(size) }
}

/// A machine in any phase.
fn any(random: &mut Random) -> Lent {
    let kind = random.pick(&records::KINDS);
    let lent = records::accepted(random, kind);
    let board = Board { machine: lent.machine, devices: devices(random) };
    Lent { board, program: lent.program, store: lent.store }
}

/// A sender of frames: bits of some length, a stop bit of some length, noise.
struct Sender {
    bit: u64,
    stop: u64,
    noise: u64,
    byte: u64,
    /// Clocks of the frame that are over.
    at: u64,
}

impl Sender {
    fn new(random: &mut Random) -> Sender {
        let (bit, stop) =
            random.pick(&[(1012, 1012), (1012, 506), (1012, 507), (1013, 1013), (1000, 510), (1030, 400)]);
        let noise = random.pick(&[0, 0, 5, 50]);
        Sender { bit, stop, noise, byte: random.below(256), at: random.below(9 * bit + stop) }
    }

    fn level(&mut self, random: &mut Random) -> u8 {
        if self.at == 9 * self.bit + self.stop {
            (self.at, self.byte) = (0, random.below(256));
        }
        let frame = 0x200 | self.byte << 1;
        let level = frame >> (self.at / self.bit).min(9) & 1;
        self.at += 1;
        level as u8 ^ u8::from(random.below(1000) < self.noise)
    }
}

/// Levels of the line: a sender, all high, all low, coins, mostly high.
fn line(random: &mut Random, count: usize, sender: bool) -> Vec<u8> {
    let kind = if sender { random.below(2) } else { random.below(8) };
    let mut from = Sender::new(random);
    (0..count)
        .map(|_| match kind {
            0 | 1 => from.level(random),
            2 => 1,
            3 => 0,
            4 => u8::from(random.percent(95)),
            _ => random.bits(1) as u8,
        })
        .collect()
}

/// A run of `count` clocks; `sender` if the line should have frames.
pub fn run(random: &mut Random, count: usize, sender: bool) -> Run {
    let lines = line(random, count, sender);
    let others = programs::line_bytes(random, count);
    let quiet = random.percent(60);
    let mask = if quiet { 4 } else { 6 };
    let given = lines.iter().zip(&others).map(|(line, other)| line | other & mask).collect();
    let switches = (0..count).map(|_| random.bits(8) as u8).collect();
    Run::new(random.percent(30), given, switches)
}
