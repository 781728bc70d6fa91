// Part 2: random records that row 5 accepts, of every phase and every row of the phase rule, built directly.
// Paper: "The record holds phase and count", the closed formulas, row 5.
// They are built from the paper's words and not by running; what the paper leaves open (words of cache lines, counts) is random.
use crate::call::{Call, Lent};
use crate::check::Check;
use crate::library::Machine;
use crate::lists::run_of;
use crate::programs;
use crate::random::Random;
use crate::side::zeros;
use crate::tally::holds;

/// The rows of the phase rule.
#[derive(Clone, Copy, PartialEq, Eq, Debug)]
pub enum Kind {
    Ready,
    Multiply,
    Divide,
    WriteBack,
    EmptyingBack,
    Refill,
    UncachedLoad,
    UncachedStore,
    LastBranch,
    LastCall,
    LastJump,
    LastEmptying,
    LastDevice,
    LastAccess,
}

pub const KINDS: [Kind; 14] = [
    Kind::Ready,
    Kind::Multiply,
    Kind::Divide,
    Kind::WriteBack,
    Kind::EmptyingBack,
    Kind::Refill,
    Kind::UncachedLoad,
    Kind::UncachedStore,
    Kind::LastBranch,
    Kind::LastCall,
    Kind::LastJump,
    Kind::LastEmptying,
    Kind::LastDevice,
    Kind::LastAccess,
];

/// One record of each kind, accepted by both sides, then some clocks from it.
pub fn records(check: &mut Check, random: &mut Random) {
    for kind in KINDS {
        let mut lent = accepted(random, kind);
        for step in 0..random.between(1, 4) {
            let call = if random.percent(50) {
                Call::Clock { line_byte: programs::line_bytes(random, 1)[0], input: random.word() }
            } else {
                let count = random.below(70) as usize;
                run_of(random, count)
            };
            let outcome = if step == 0 {
                check.expect(&lent, &call, 0, &format!("S2.27 a record made for {kind:?}"))
            } else {
                check.call(&lent, &call)
            };
            (lent.machine, lent.store) = (outcome.machine, outcome.store);
        }
    }
}

pub fn accepted(random: &mut Random, kind: Kind) -> Lent {
    let conflicts = kind == Kind::WriteBack;
    let size = if conflicts { 256 << random.below(8) } else { programs::size(random) };
    let mut machine = scalars(random, size);
    machine.status = random.bits(4).into();
    match kind {
        Kind::WriteBack | Kind::EmptyingBack | Kind::Refill | Kind::LastEmptying => machine.status |= 8,
        Kind::LastAccess => machine.status |= 8,
        Kind::UncachedLoad | Kind::UncachedStore => machine.status &= 7,
        _ => (),
    }
    if machine.status & 8 != 0 {
        fill(random, &mut machine, size);
    }
    let word = put(random, &mut machine, size, kind);
    let beyond = kind == Kind::Ready && random.percent(20);
    let program = if beyond { programs::program(random) } else { around(random, machine.pc as usize, word) };
    Lent { machine, program, store: random.words(size) }
}

/// Random registers, flags and counts, the rest zero.
fn scalars(random: &mut Random, size: usize) -> Machine {
    let mut m = zeros();
    m.size = size as u32;
    m.h = random.word();
    m.pc = match random.below(20) {
        0 => random.below(4096),
        1 => 4095,
        _ => random.below(40),
    };
    m.regs = std::array::from_fn(|_| random.word());
    [m.n, m.z, m.c, m.v] = std::array::from_fn(|_| random.below(2));
    m.clocks = match random.below(3) {
        0 => random.below(300),
        1 => random.below(0xFFFF_FFFF - 400),
        _ => 0xFFFF_FFFF - 400,
    };
    let part = |random: &mut Random| if random.percent(20) { m.clocks } else { random.below(m.clocks + 1) };
    [m.held, m.refills, m.writebacks] = std::array::from_fn(|_| part(random));
    m.words = std::array::from_fn(|_| random.next() as u32);
    m
}

/// The blocks of the store that belong to a cache line.
fn blocks(size: usize, line: usize) -> u64 {
    ((size / 8).saturating_sub(line) as u64).div_ceil(16)
}

fn fill(random: &mut Random, m: &mut Machine, size: usize) {
    let (full, dirty) = (random.below(101), random.below(101));
    for line in 0..16 {
        let choice = blocks(size, line);
        if choice > 0 && random.percent(full) {
            m.full[line] = 1;
            m.dirty[line] = u8::from(random.percent(dirty));
            m.block[line] = (line as u64 + 16 * random.below(choice)) as u16;
        }
    }
}

fn make_empty(m: &mut Machine, line: usize) {
    (m.full[line], m.dirty[line], m.block[line]) = (0, 0, 0);
}

/// An LD or ST of this address: a random offset and a base register to match.
fn access(random: &mut Random, m: &mut Machine, load: bool, address: u32) -> u32 {
    let d = random.bits(3);
    let make = if load { programs::load } else { programs::store };
    if address < 256 && random.percent(30) {
        return make(d, 7, address);
    }
    let (s, offset) = (random.below(7) as u32, random.bits(8));
    let bank = if m.status & 4 != 0 { 8 } else { 0 };
    let high = if random.percent(50) { random.bits(16) << 16 } else { 0 };
    m.regs[bank + s as usize] = (address.wrapping_sub(offset) & 0xFFFF) | high;
    make(d, s, offset)
}

/// A 16-bit address below the devices that is `word` modulo the store's length.
fn alias(random: &mut Random, word: usize, size: usize) -> u32 {
    let copies = (0xFFC0 - word as u64).div_ceil(size as u64);
    (word as u64 + random.below(copies) * size as u64) as u32
}

/// Brings the record into the phase and returns the word at PC.
fn put(random: &mut Random, m: &mut Machine, size: usize, kind: Kind) -> u32 {
    let target = random.below(size as u64) as usize;
    let line = target / 8 % 16;
    match kind {
        Kind::Ready => random.bits(18),
        Kind::Multiply => multiply(random, m),
        Kind::Divide => divide(random, m),
        Kind::WriteBack => {
            let (load, address) = (random.percent(50), alias(random, target, size));
            let word = access(random, m, load, address);
            let other = (blocks(size, line) - 1).max(1);
            let step = 1 + random.below(other);
            let block = (target as u64 / 8 + 16 * step) % (size as u64 / 8);
            (m.full[line], m.dirty[line], m.block[line]) = (1, 1, block as u16);
            (m.phase, m.count) = (2, random.below(10));
            word
        }
        Kind::EmptyingBack => {
            let line = random.below(16.min(size as u64 / 8)) as usize;
            if m.dirty.iter().all(|dirty| *dirty == 0) {
                let block = line as u64 + 16 * random.below(blocks(size, line));
                (m.full[line], m.dirty[line], m.block[line]) = (1, 1, block as u16);
            }
            (m.phase, m.count) = (2, random.below(10));
            programs::status(random.bits(3)) | random.bits(6) << 4 | random.bits(3) << 11
        }
        Kind::Refill => {
            let (load, address) = (random.percent(50), alias(random, target, size));
            make_empty(m, line);
            (m.phase, m.count) = (3, random.below(10));
            access(random, m, load, address)
        }
        Kind::UncachedLoad | Kind::UncachedStore => {
            let load = kind == Kind::UncachedLoad;
            (m.phase, m.count) = (4, random.between(1, if load { 5 } else { 4 }));
            let address = alias(random, target, size);
            access(random, m, load, address)
        }
        _ => {
            m.phase = 5;
            last(random, m, size, kind, target)
        }
    }
}

fn last(random: &mut Random, m: &mut Machine, size: usize, kind: Kind, target: usize) -> u32 {
    match kind {
        Kind::LastBranch => loop {
            let condition = random.bits(4);
            if holds(condition, m.n == 1, m.z == 1, m.c == 1, m.v == 1) {
                return programs::branch(condition, random.below(1024) as i32 - 512);
            }
        },
        Kind::LastCall => programs::call(random.bits(12)) | random.bits(2) << 12,
        Kind::LastJump => programs::jump(random.bits(2), random.bits(3), random.bits(3)) | random.bits(5) << 3,
        Kind::LastEmptying => {
            m.dirty = [0; 16];
            programs::status(random.bits(3)) | random.bits(6) << 4
        }
        Kind::LastDevice => {
            let device = 0xFFC0 + random.bits(6);
            access(random, m, true, device)
        }
        _ => {
            let line = target / 8 % 16;
            (m.full[line], m.block[line]) = (1, (target / 8) as u16);
            m.dirty[line] = u8::from(random.percent(50));
            let (load, address) = (random.percent(50), alias(random, target, size));
            access(random, m, load, address)
        }
    }
}

/// A or B of a MUL or DIV at PC, after the word was chosen.
fn operands(m: &Machine, word: u32) -> (u32, u32) {
    let bank = if m.status & 4 != 0 { 8 } else { 0 };
    let register = |number: u32| m.regs[bank + (number & 7) as usize];
    let a = if word & 0x400 != 0 { register(word) } else { word & 0x3FF };
    (register(word >> 11), a)
}

fn serial_word(random: &mut Random, operation: u32) -> u32 {
    let (d, s) = (random.bits(3), random.bits(3));
    if random.percent(70) {
        programs::register(operation, d, s) | random.bits(7) << 3
    } else {
        programs::literal(operation, d, random.bits(10))
    }
}

fn multiply(random: &mut Random, m: &mut Machine) -> u32 {
    let word = serial_word(random, 8);
    let (b, a) = operands(m, word);
    m.phase = 1;
    m.count = random.between(1, 32);
    m.product = product(b, a, m.count as u32);
    word
}

fn divide(random: &mut Random, m: &mut Machine) -> u32 {
    let word = serial_word(random, 9);
    let (b, a) = operands(m, word);
    m.phase = 1;
    m.count = random.between(1, 32);
    (m.remainder, m.quotient) = divider(b, a, m.count as u32);
    word
}

/// The multiplier's register after k steps, in wide integers as in the paper.
pub fn product(b: u32, a: u32, k: u32) -> u64 {
    let (signed, unsigned, two) = (i128::from(b as i32), i128::from(a), 2i128);
    let value = match k {
        32 => signed * i128::from(a as i32),
        _ => signed * unsigned.rem_euclid(two.pow(k)) * two.pow(32 - k) + unsigned.div_euclid(two.pow(k)),
    };
    i64::try_from(value).expect("64 bits") as u64
}

/// Remainder and quotient register after k steps.
pub fn divider(b: u32, a: u32, k: u32) -> (u64, u64) {
    let (size, a, two) = (i128::from(b as i32).abs(), i128::from(a as i32), 2i128);
    if a <= 0 {
        return (0, 0);
    }
    let t = size / two.pow(32 - k);
    ((t % a) as u64, (size % two.pow(32 - k) * two.pow(k) + t / a) as u64)
}

/// A program with the word at PC.
fn around(random: &mut Random, pc: usize, word: u32) -> Vec<u32> {
    let mut program = programs::program(random);
    if program.len() <= pc {
        program.resize(pc + 1, 0x3BC00);
    }
    program[pc] = word;
    program
}
