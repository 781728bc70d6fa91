// Part 9: random calls of the board, from records near the edges of frames and of the tick.
// Paper: A1, "A serial board above the core".
// Each accepted run is repeated clock by clock; some calls have a fault, and all numbers and records are compared.
use super::call::{field, Call, Run, FIELDS};
use super::make;
use super::side::Lent;
use super::walk;
use crate::check::Check;
use crate::damage::random_damage;
use crate::random::Random;

pub fn round(check: &mut Check, random: &mut Random, seed: u64) {
    for _ in 0..10 {
        calls(check, random);
    }
    if seed.is_multiple_of(16) {
        long(check, random, seed.is_multiple_of(64));
    }
}

/// Some calls from one board.
fn calls(check: &mut Check, random: &mut Random) {
    let mut lent = make::lent(random);
    for _ in 0..random.between(1, 3) {
        if random.percent(20) {
            faulty(check, random, &lent);
        }
        let count = random.between(1, 80) as usize;
        let run = make::run(random, count, false);
        let outcome = if random.percent(10) {
            let call = Call::Clock { joined: run.joined, given: run.given[0], switches: run.switches[0] };
            walk::call(check, &lent, &call)
        } else {
            walk::run(check, &lent, run, true)
        };
        (lent.board, lent.store) = (outcome.board, outcome.store);
        if outcome.number == 8 {
            lent.board.machine.clocks = 233_200 - random.below(60);
            lent.board.machine.held = 0;
            (lent.board.machine.refills, lent.board.machine.writebacks) = (0, 0);
        }
    }
}

/// A run of some frames.
fn long(check: &mut Check, random: &mut Random, every: bool) {
    let mut lent = make::lent(random);
    lent.board.machine.clocks = lent.board.machine.clocks.min(4_000_000_000);
    let machine = &mut lent.board.machine;
    for count in [&mut machine.held, &mut machine.refills, &mut machine.writebacks] {
        *count = (*count).min(machine.clocks);
    }
    let count = random.between(10_000, 50_000) as usize;
    let run = make::run(random, count, true);
    walk::run(check, &lent, run, every);
}

/// One or two faults in a call.
fn faulty(check: &mut Check, random: &mut Random, lent: &Lent) {
    let mut lent = lent.clone();
    let mut run = make::run(random, 5, false);
    spoil(random, &mut lent, &mut run);
    if random.percent(30) {
        spoil(random, &mut lent, &mut run);
    }
    let given = run.given.iter().copied().max().unwrap_or(0);
    walk::call(check, &lent, &Call::Clock { joined: run.joined, given, switches: 3 });
    walk::call(check, &lent, &Call::Run(run));
}

fn spoil(random: &mut Random, lent: &mut Lent, run: &mut Run) {
    match random.below(12) {
        0..=3 => {
            let number = random.below(8) as usize;
            let limit = FIELDS[number].1;
            *field(&mut lent.board.devices, number) = damaged(random, limit);
        }
        4 | 5 => random_damage(random, &mut lent.board.machine),
        6 => lent.program[0] |= 0x40000,
        7 => drop(lent.store.pop()),
        8 => run.given[2] = random.between(8, 255) as u8,
        9 => drop(run.switches.pop()),
        10 => match random.below(3) {
            0 => drop(run.levels.pop()),
            1 => run.bytes.push(1),
            _ => drop(run.words.pop()),
        },
        _ => lent.board.machine.clocks = 0xFFFF_FFFF - random.below(5),
    }
}

/// The limit, or a value above it.
fn damaged(random: &mut Random, limit: u64) -> u64 {
    match random.below(6) {
        0 => limit,
        1 => limit + 1,
        2 => limit + 1 + random.below(1 << 16),
        3 => 1 << 32 | random.below(limit + 1),
        4 => u64::MAX,
        _ => random.next(),
    }
}
