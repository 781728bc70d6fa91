// Part 10: a line joined to itself, from a board reset, at the paper's own timing.
// Paper: A1, "From reset, a line joined to itself must hand every accepted byte to reads that find the bit set".
// Bytes accepted, received and handed over are taken from the records and answers of single clocks.
use super::call::{Call, Outcome, Run};
use super::side::{no_board, Lent, Side};
use super::walk;
use crate::check::Check;
use crate::programs::{branch, literal, load, register, store};
use crate::random::Random;

/// What a run of single clocks showed.
#[derive(Default)]
struct Traffic {
    accepted: Vec<u8>,
    /// Each byte received, with the number of bytes handed over before it.
    received: Vec<(u8, usize)>,
    handed: Vec<u8>,
}

/// Sends 1, 38, 75, .. whenever the transmitter is free; reads when a byte is received, after `delay` rounds of a loop.
fn program(delay: u32) -> Vec<u32> {
    vec![
        literal(1, 6, 0x3F),
        literal(0, 1, 1),
        literal(0, 5, delay),
        load(2, 6, 5),
        register(0, 3, 2),
        literal(4, 2, 2),
        branch(0, 2),
        store(1, 6, 4),
        literal(2, 1, 37),
        literal(4, 3, 1),
        branch(0, -8),
        literal(3, 5, 1),
        branch(1, -10),
        load(4, 6, 4),
        branch(14, -13),
    ]
}

pub fn timing(check: &mut Check) -> usize {
    let random = &mut Random::new(10);
    let mut handed = 0;
    for held in [0, 0, 20, 60] {
        let traffic = traffic(check, random, &program(1), held, 140_000);
        every_byte(check, &traffic);
        handed += traffic.handed.len();
    }
    let traffic = traffic(check, random, &program(3000), 0, 260_000);
    replaced(check, &traffic);
    check.pass();
    handed
}

/// Runs a program over the joined line, `held` of 100 clocks being held.
fn traffic(check: &mut Check, random: &mut Random, program: &[u32], held: u64, clocks: usize) -> Traffic {
    let mut lent = Lent { board: no_board(), program: program.to_vec(), store: vec![0; 64] };
    lent.board = walk::expect(check, &lent, &Call::Reset, 0, "board reset").board;
    let mut traffic = Traffic::default();
    let mut left = clocks;
    while left > 0 {
        let count = left.min(random.between(1, 65_536) as usize);
        let given = (0..count).map(|_| random.bits(1) as u8 | u8::from(random.percent(held)) << 2).collect();
        let run = Run::new(true, given, vec![0; count]);
        let outcome = walk::run(check, &lent, run.clone(), true);
        note(&mut traffic, &lent, &run, &outcome);
        (lent.board, lent.store) = (outcome.board, outcome.store);
        left -= count;
    }
    traffic
}

/// Follows the record clock by clock in the library and notes what the devices do.
fn note(traffic: &mut Traffic, lent: &Lent, run: &Run, outcome: &Outcome) {
    let mut at = lent.clone();
    for (clock, &given) in run.given.iter().enumerate() {
        let before = at.board.devices.serial;
        let answer = Side::Library.clock(true, &at.board, &at.program, &mut at.store, given, 0);
        at.board = answer.board;
        let after = at.board.devices.serial;
        if outcome.bytes[clock] == 0x12 && before.left == 0 {
            traffic.accepted.push(outcome.words[clock] as u8);
        }
        if outcome.bytes[clock] == 0x11 && before.ready == 1 {
            traffic.handed.push(outcome.words[clock] as u8);
        }
        if before.passed == 9613 {
            traffic.received.push((after.byte as u8, traffic.handed.len()));
        }
    }
}

fn every_byte(check: &mut Check, traffic: &Traffic) {
    let Traffic { accepted, received, handed } = traffic;
    let read_in_time = received.iter().enumerate().all(|(number, (_, before))| number <= *before);
    if accepted.len() < 12 || !read_in_time {
        check.fail(&format!("A1 the program of part 10 accepts {} bytes or reads too late", accepted.len()));
    }
    let whole = handed.len() + 1 == accepted.len() && handed[..] == accepted[..handed.len()];
    if !whole {
        check.fail(&format!("A1 accepted {accepted:?}, handed over {handed:?}"));
    }
    check.pass();
}

/// With a slow reader: bytes are received as they were accepted, and each read gives the last one received.
fn replaced(check: &mut Check, traffic: &Traffic) {
    let Traffic { accepted, received, handed } = traffic;
    let bytes: Vec<u8> = received.iter().map(|(byte, _)| *byte).collect();
    let in_order = bytes[..] == accepted[..bytes.len()] && bytes.len() + 1 >= accepted.len();
    let last = |number: usize| received.iter().rev().find(|(_, before)| *before <= number).map(|(byte, _)| *byte);
    let latest = handed.iter().enumerate().all(|(number, byte)| last(number) == Some(*byte));
    let lost = bytes.len() > handed.len() + 2;
    if !in_order || !latest || !lost || handed.len() < 3 {
        check.fail(&format!("A1 accepted {accepted:?}, received {received:?}, handed over {handed:?}"));
    }
}
