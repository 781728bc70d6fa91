// Random programs, line bytes and input words that often reach rare paths.
// Paper: "What a programmer sees" for the formats; "Clock by clock" for what makes a clock rare.
// Bias: few cache lines with many blocks, devices, short loops, interrupts with returns, cache on and off.
use crate::random::Random;

pub fn literal(operation: u32, d: u32, value: u32) -> u32 {
    operation << 14 | d << 11 | (value & 0x3FF)
}

pub fn register(operation: u32, d: u32, s: u32) -> u32 {
    operation << 14 | d << 11 | 1 << 10 | s
}

pub fn status(bits: u32) -> u32 {
    11 << 14 | bits
}

/// `kind` is bits 9-8: 0 jump, 2 jump and link, 1 and 3 return from interrupt.
pub fn jump(kind: u32, d: u32, s: u32) -> u32 {
    11 << 14 | d << 11 | 1 << 10 | kind << 8 | s
}

pub fn load(d: u32, s: u32, offset: u32) -> u32 {
    12 << 14 | d << 11 | (offset & 255) << 3 | s
}

pub fn store(d: u32, s: u32, offset: u32) -> u32 {
    13 << 14 | d << 11 | (offset & 255) << 3 | s
}

pub fn branch(condition: u32, offset: i32) -> u32 {
    14 << 14 | condition << 10 | (offset as u32 & 0x3FF)
}

pub fn call(offset: u32) -> u32 {
    15 << 14 | (offset & 0xFFF)
}

/// A legal store length, small ones more often.
pub fn size(random: &mut Random) -> usize {
    match random.below(20) {
        0..=2 => 64,
        3 => 128,
        4..=9 => 256,
        10..=12 => 512,
        13..=14 => 1024,
        15..=16 => 2048,
        _ => 64 << random.below(10),
    }
}

/// An offset in one of few cache lines.
fn offset(random: &mut Random) -> u32 {
    let line = random.pick(&[0, 0, 0, 0, 1, 5, 15]);
    let other = random.pick(&[0, 0, 16]);
    (line + other) * 8 + random.bits(3)
}

/// Registers 0-3 are mostly results, 4-6 mostly bases.
fn result(random: &mut Random) -> u32 {
    if random.percent(90) {
        random.bits(2)
    } else {
        random.bits(3)
    }
}

fn access(random: &mut Random) -> u32 {
    let s = match random.below(10) {
        0 => random.bits(3),
        1..=3 => 7,
        _ => random.between(4, 6) as u32,
    };
    let d = result(random);
    let make = if random.percent(45) { load } else { store };
    make(d, s, if random.percent(80) { offset(random) } else { random.bits(8) })
}

/// Sets a register to a value useful as a base: a block of a few cache lines, the devices, an edge.
fn base(random: &mut Random, d: u32) -> u32 {
    match random.below(12) {
        0 | 1 => literal(1, d, 0x3F),
        2 => literal(1, d, random.bits(8)),
        3..=6 => literal(0, d, 128 * random.bits(3)),
        7..=9 => literal(2, d, 128 * (1 + random.bits(2))),
        10 => literal(3, d, 256),
        _ => literal(random.pick(&[0, 10]), d, random.bits(10)),
    }
}

/// The value of a register useful as a base.
pub fn base_value(random: &mut Random) -> u32 {
    match random.below(6) {
        0 => 0xFFC0 + random.bits(6),
        1 => 0xFFB0 + random.bits(4),
        2 => random.word(),
        _ => 128 * random.bits(8),
    }
}

fn arithmetic(random: &mut Random) -> u32 {
    let operation = random.pick(&[0, 1, 2, 3, 4, 5, 6, 7, 10]);
    let (d, s) = (result(random), random.bits(3));
    match random.below(8) {
        0 => register(0, d, s) | 8,
        1..=3 => literal(operation, d, random.bits(10)),
        _ => register(operation, d, s),
    }
}

fn serial(random: &mut Random) -> u32 {
    let (operation, d) = (8 + random.bits(1), result(random));
    if random.percent(30) {
        literal(operation, d, random.bits(10))
    } else {
        register(operation, d, random.bits(3))
    }
}

fn near(random: &mut Random) -> u32 {
    let condition = random.pick(&[0, 1, 2, 3, 4, 5, 6, 7, 8, 9, 10, 11, 12, 13, 14, 14, 15]);
    branch(condition, random.below(9) as i32 - 5)
}

fn status_word(random: &mut Random) -> u32 {
    let cache = if random.percent(75) { 8 } else { 0 };
    let mode = if random.percent(15) { 4 } else { 0 };
    status(cache | mode | random.bits(2)) | random.pick(&[0, 0, 0, 0x10, 0x200, 0x3800])
}

/// Calls and jumps, mostly by R7, so that execution rarely leaves the program.
fn far(random: &mut Random, length: usize) -> u32 {
    let (d, s) = (random.bits(3), random.bits(3));
    match random.below(12) {
        0..=2 => call(random.bits(3)),
        3..=4 => call((4096 - random.below(length as u64 + 1)) as u32),
        5 => jump(random.pick(&[1, 3]), d, 7),
        6..=7 => jump(0, 0, 7),
        8..=9 => jump(2, 7, 7),
        10 => jump(2, d, 7),
        _ => jump(random.bits(2), d, s) | random.bits(5) << 3,
    }
}

fn word(random: &mut Random, length: usize) -> u32 {
    match random.below(80) {
        0..=31 => access(random),
        32..=37 => {
            let d = random.between(4, 6) as u32;
            base(random, d)
        }
        38..=53 => arithmetic(random),
        54..=59 => serial(random),
        60..=69 => near(random),
        70..=74 => status_word(random),
        75..=77 => far(random, length),
        _ => random.bits(18),
    }
}

/// A program of 1 to 4,096 words, mostly short, with interrupt handlers at 2 and 3 and a branch back at its end.
pub fn program(random: &mut Random) -> Vec<u32> {
    let length = match random.below(50) {
        0 => 4096,
        1 => random.between(65, 4095) as usize,
        2..=5 => random.between(1, 6) as usize,
        _ => random.between(7, 60) as usize,
    };
    let mut words: Vec<u32> = (0..length).map(|_| word(random, length)).collect();
    if length >= 8 {
        words[0] = branch(14, 3);
        words[1] = status_word(random);
        words[2] = if random.percent(60) { jump(1, 0, 7) } else { branch(14, random.below(5) as i32) };
        words[3] = jump(random.pick(&[1, 3]), 0, 7);
        words[4] = status(8 | random.bits(2));
        words[5] = base(random, 4);
        words[6] = base(random, 5);
        let back = (length as i32).min(500);
        words[length - 1] = branch(14, -back + random.pick(&[0, 0, 1, 4]));
    }
    words
}

/// Line bytes: all 0; single stalls or series of them; single interrupts or series; all mixed.
pub fn line_bytes(random: &mut Random, count: usize) -> Vec<u8> {
    let kind = random.below(6);
    let mut burst = (0u64, 0u8);
    (0..count)
        .map(|_| match kind {
            0 => 0,
            1 => random.pick(&[0, 0, 0, 4]),
            2 => random.pick(&[0, 0, 0, 0, 0, 0, 0, 0, 0, 1, 2, 3, 4, 5]),
            3 => random.pick(&[1, 2, 3]),
            4 => random.bits(3) as u8,
            _ => {
                if burst.0 == 0 {
                    burst = (random.between(1, 30), random.pick(&[0, 0, 0, 1, 2, 3, 4, 7]));
                }
                burst.0 -= 1;
                burst.1
            }
        })
        .collect()
}
