// Part 1: random lists of calls from a reset, good and refused ones mixed.
// Paper: all calls; every row of "Where calls are turned down" from 3 to 9.
// After each call everything is compared; a refused call must change nothing, and the list continues from there.
use crate::call::{Call, Lent};
use crate::check::Check;
use crate::damage;
use crate::programs;
use crate::random::Random;
use crate::side::zeros;

pub fn list(check: &mut Check, random: &mut Random) {
    let size = programs::size(random);
    let mut lent = Lent { machine: zeros(), program: programs::program(random), store: random.words(size) };
    lent.machine = check.call(&lent, &Call::Reset).machine;
    let mut bytes = Vec::new();
    for _ in 0..random.between(10, 60) {
        prepare(check, random, &mut lent);
        let mut call = good(random, &lent, &bytes);
        let mut given = lent.clone();
        let faulty = random.percent(20);
        if faulty {
            spoil(random, &mut given, &mut call);
            if random.percent(25) {
                spoil(random, &mut given, &mut call);
            }
        }
        let outcome = check.call(&given, &call);
        if !faulty {
            (lent.machine, lent.store) = (outcome.machine, outcome.store);
        }
        if matches!(call, Call::Run { .. }) && outcome.number == 0 {
            bytes = outcome.bytes;
        }
        if outcome.number == 8 {
            let m = &mut lent.machine;
            m.clocks = m.held.max(m.refills).max(m.writebacks) + random.below(1000);
        }
    }
}

/// What a caller may do between two calls: another program, other registers, a clock count near its end.
fn prepare(check: &mut Check, random: &mut Random, lent: &mut Lent) {
    let before = lent.clone();
    let length = lent.program.len() as u64;
    let beyond = lent.machine.pc >= length && random.percent(80);
    match random.below(40) {
        _ if beyond => lent.machine.pc = random.below(length),
        0 => lent.program = programs::program(random),
        1 => lent.machine.regs = std::array::from_fn(|_| random.word()),
        2 => lent.machine.regs = std::array::from_fn(|_| programs::base_value(random)),
        3 => lent.machine.clocks = 0xFFFF_FFFF - random.below(300),
        4 => lent.machine.pc = random.below(length + 2) & 0xFFF,
        _ => return,
    }
    let none = Call::Run { line_bytes: vec![], inputs: vec![], bytes: vec![], words: vec![] };
    if check.call(lent, &none).number != 0 {
        *lent = before;
    }
}

fn good(random: &mut Random, lent: &Lent, bytes: &[u8]) -> Call {
    match random.below(100) {
        0..=28 => Call::Clock { line_byte: programs::line_bytes(random, 1)[0], input: random.word() },
        29..=77 => run(random),
        78..=79 => Call::Reset,
        80..=88 => Call::Look { address: random.below(0xFFC0) as u32 },
        89..=91 => Call::Copy { buffer: random.words(lent.store.len()) },
        _ => watch(random, bytes),
    }
}

fn run(random: &mut Random) -> Call {
    let count = match random.below(400) {
        0..=19 => 0,
        20..=150 => random.between(1, 20),
        151..=360 => random.between(20, 200),
        361..=398 => random.between(200, 1500),
        _ => random.pick(&[65536, 65535, 20000]),
    };
    run_of(random, count as usize)
}

pub fn run_of(random: &mut Random, count: usize) -> Call {
    let line_bytes = programs::line_bytes(random, count);
    let bytes = (0..count).map(|_| random.bits(8) as u8 | 1).collect();
    Call::Run { line_bytes, inputs: random.words(count), bytes, words: random.words(count) }
}

/// A watch on the bytes of the last run, or on any bytes.
fn watch(random: &mut Random, bytes: &[u8]) -> Call {
    let device = random.below(64) as u32;
    let written: Vec<&u8> = bytes.iter().filter(|byte| **byte & 2 != 0).collect();
    if !written.is_empty() && random.percent(50) {
        let device = u32::from(*random.pick(&written) >> 2);
        return Call::Watch { bytes: bytes.to_vec(), device };
    }
    if random.percent(50) {
        return Call::Watch { bytes: bytes.to_vec(), device };
    }
    let count = random.pick(&[0, 1, 2, 3, 7, 8, 9, 60, 300, 70000]);
    Call::Watch { bytes: (0..count).map(|_| random.bits(8) as u8).collect(), device }
}

/// Adds one fault, of a row that the call checks (or a harmless one if it does not).
fn spoil(random: &mut Random, given: &mut Lent, call: &mut Call) {
    match random.below(6) {
        0 => spoil_program(random, &mut given.program),
        1 => spoil_store(random, &mut given.store),
        2 => damage::random_damage(random, &mut given.machine),
        3 => given.machine.clocks = 0xFFFF_FFFF - random.below(3),
        _ => spoil_call(random, call),
    }
}

fn spoil_program(random: &mut Random, program: &mut Vec<u32>) {
    match random.below(4) {
        0 => program.clear(),
        1 => program.resize(4097, 0),
        _ => {
            let at = random.below(program.len().max(1) as u64) as usize;
            let bad = random.pick(&[0x40000, 0x7FFFF, 0x8000_0000, 0xFFFF_FFFF]);
            program.resize(program.len().max(1), 0);
            program[at] = bad;
        }
    }
}

fn spoil_store(random: &mut Random, store: &mut Vec<u32>) {
    let size = store.len();
    let other = random.pick(&[0, 1, 63, 65, 96, size.saturating_sub(1), size + 1, size / 2, 64, 128, 32768, 65536]);
    store.resize(other, 5);
}

pub fn spoil_call(random: &mut Random, call: &mut Call) {
    match call {
        Call::Clock { line_byte, .. } => *line_byte = random.between(8, 255) as u8,
        Call::Run { line_bytes, inputs, bytes, words } => match random.below(8) {
            0 if !line_bytes.is_empty() => {
                let at = random.below(line_bytes.len() as u64) as usize;
                line_bytes[at] = random.between(8, 255) as u8;
            }
            1 => inputs.push(7),
            2 => drop(inputs.pop()),
            3 => bytes.push(7),
            4 => drop(bytes.pop()),
            5 => words.push(7),
            6 => drop(words.pop()),
            _ => {
                line_bytes.resize(65537, 0);
                inputs.resize(65537, 0);
            }
        },
        Call::Look { address } => *address = random.pick(&[0xFFC0, 0xFFFF, 0x10000, 0x1_0003, 0xFFFF_FFFF]),
        Call::Copy { buffer } => {
            let size = buffer.len();
            buffer.resize(random.pick(&[0, size.saturating_sub(1), size + 1, size + 64]), 3);
        }
        Call::Watch { device, .. } => *device = random.pick(&[64, 65, 128, 256, 1 << 20, 0xFFFF_FFFF]),
        Call::Reset => (),
    }
}
