// Part 8: the refusals of the board's calls, their edges and their order, with the expected numbers written here.
// Paper: A1, "A board field outside its range is refused with 5"; "Where calls are turned down", rows 3 to 8.
// Fields are judged one by one, the record's row is before the bytes' row, and combinations of fields are accepted.
use super::call::{field, Call, Run, FIELDS};
use super::declared::Board;
use super::make;
use super::side::{no_board, Lent};
use super::walk::{call, expect, walk};
use crate::check::Check;
use crate::damage::values;
use crate::fields::{self, Field};
use crate::programs::literal;
use crate::random::Random;
use crate::records::{accepted, Kind, KINDS};

/// Checks limits and orders; returns their number.
pub fn table(check: &mut Check) -> usize {
    let before = check.passed;
    resets(check);
    ranges(check);
    clocks(check);
    runs(check);
    orders(check);
    kinds(check);
    records(check);
    (check.passed - before) as usize
}

fn ready() -> Lent {
    let mut board = no_board();
    board.machine.size = 64;
    Lent { board, program: vec![literal(2, 0, 5)], store: (1..=64).collect() }
}

/// A run of lengths: given, switches, levels, bytes, words.
fn run(joined: bool, lengths: [usize; 5]) -> Call {
    let [given, switches, levels, bytes, words] = lengths;
    let (given, switches) = (vec![1; given], vec![0x5A; switches]);
    let (levels, bytes, words) = (vec![0xEE; levels], vec![0xEE; bytes], vec![0xEEEE; words]);
    Call::Run(Run { joined, given, switches, levels, bytes, words })
}

/// The four calls that take a board, with legal arguments.
fn all_calls() -> Vec<Call> {
    let of = |joined| [Call::Clock { joined, given: 1, switches: 9 }, run(joined, [3; 5]), run(joined, [0; 5])];
    of(false).into_iter().chain(of(true)).collect()
}

fn edge(check: &mut Check, lent: &Lent, call: &Call, number: u32, why: &str) {
    expect(check, lent, call, number, why);
    check.pass();
}

fn resets(check: &mut Check) {
    let sizes = [(64, 0), (128, 0), (2048, 0), (32768, 0), (0, 4), (1, 4), (63, 4), (65, 4), (100, 4), (65536, 4)];
    for (size, number) in sizes {
        let lent = Lent { store: vec![7; size], ..ready() };
        let outcome = expect(check, &lent, &Call::Reset, number, &format!("board reset with {size} words"));
        let mut after = no_board();
        after.machine.size = if number == 0 { size as u32 } else { 0 };
        if outcome.board != after {
            check.fail("A1 a board after its reset is not zero");
        }
        check.pass();
    }
}

/// Each field at its limit and above it.
fn ranges(check: &mut Check) {
    for (number, (name, limit)) in FIELDS.into_iter().enumerate() {
        let above =
            [limit + 1, limit + 2, 2 * limit + 2, 1 << 16, 1 << 31, 1 << 32, (1 << 32) + limit, 1 << 63, u64::MAX];
        for (value, refusal) in [(0, 0), (limit, 0)].into_iter().chain(above.map(|value| (value, 5))) {
            let mut lent = ready();
            *field(&mut lent.board.devices, number) = value;
            for call in all_calls() {
                edge(check, &lent, &call, refusal, &format!("{name} of {value}"));
            }
        }
    }
}

fn clocks(check: &mut Check) {
    for joined in [false, true] {
        for given in 0..=255 {
            let call = Call::Clock { joined, given, switches: given };
            edge(check, &ready(), &call, if given > 7 { 6 } else { 0 }, "given of a clock");
        }
        for clocks in 0xFFFF_FFFB..=0xFFFF_FFFFu64 {
            let mut lent = ready();
            lent.board.machine.clocks = clocks;
            for given in [1, 5] {
                let number = if clocks == 0xFFFF_FFFF { 8 } else { 0 };
                edge(check, &lent, &Call::Clock { joined, given, switches: 0 }, number, "the last clock");
            }
            for count in 0..6 {
                let number = if clocks + count as u64 > 0xFFFF_FFFF { 8 } else { 0 };
                edge(check, &lent, &run(joined, [count; 5]), number, &format!("run of {count} from {clocks}"));
            }
        }
    }
}

fn runs(check: &mut Check) {
    for joined in [false, true] {
        for (count, number) in [(0, 0), (1, 0), (65536, 0), (65537, 6), (131072, 6)] {
            edge(check, &ready(), &run(joined, [count; 5]), number, &format!("run of {count}"));
        }
        for (given, switches) in [(0, 1), (1, 0), (5, 4), (5, 6), (65536, 65537), (65537, 65536)] {
            let call = run(joined, [given, switches, given, given, given]);
            edge(check, &ready(), &call, 6, &format!("{given} bytes given and {switches} switches"));
        }
        for lengths in [[4, 5, 5], [6, 5, 5], [5, 4, 5], [5, 6, 5], [5, 5, 4], [5, 5, 6], [0, 0, 0], [0, 5, 5]] {
            let [levels, bytes, words] = lengths;
            let call = run(joined, [5, 5, levels, bytes, words]);
            edge(check, &ready(), &call, 7, &format!("buffers of {lengths:?} for a run of 5"));
        }
        for (at, bad) in [(0, 8), (1, 9), (15, 16), (16, 128), (29, 255)] {
            let mut given = vec![0; 30];
            given[at] = bad;
            let call = Call::Run(Run::new(joined, given, vec![0; 30]));
            edge(check, &ready(), &call, 6, &format!("byte {at} given is {bad}"));
        }
    }
}

/// A fault of one row, added to what is lent or to the call.
type Fault = (u32, fn(&mut Lent, &mut Call));

const ROWS: [&[Fault]; 7] = [
    &[(3, |lent, _| lent.program[0] = 0x40000)],
    &[(4, |lent, _| lent.store.resize(128, 0)), (4, |lent, _| lent.board.machine.size = 0)],
    &[(5, |lent, _| lent.board.machine.pc = 4096), (5, |lent, _| lent.board.machine.phase = 5)],
    &[
        (5, |lent, _| lent.board.devices.serial.left = 10_121),
        (5, |lent, _| lent.board.devices.tick = 2),
        (5, |lent, _| lent.board.devices.lamps = 1024),
    ],
    &[
        (6, |_, call| match call {
            Call::Clock { given, .. } => *given = 8,
            Call::Run(run) => run.given[1] = 8,
            Call::Reset => (),
        }),
        (6, |_, call| match call {
            Call::Clock { given, .. } => *given = 255,
            Call::Run(run) => run.switches.push(0),
            Call::Reset => (),
        }),
    ],
    &[(7, |_, call| {
        if let Call::Run(run) = call {
            run.levels.pop();
        }
    })],
    &[(8, |lent, _| lent.board.machine.clocks = 0xFFFF_FFFF)],
];

/// Every choice of at most one fault per row: the number is that of the first row.
fn orders(check: &mut Check) {
    for joined in [false, true] {
        choose(check, &run(joined, [3; 5]), &ROWS, &mut Vec::new());
        let clock = Call::Clock { joined, given: 1, switches: 9 };
        let rows: Vec<&[Fault]> = ROWS.into_iter().filter(|row| row[0].0 != 7).collect();
        choose(check, &clock, &rows, &mut Vec::new());
    }
}

fn choose(check: &mut Check, call: &Call, rows: &[&[Fault]], chosen: &mut Vec<Fault>) {
    let Some((row, rest)) = rows.split_first() else {
        let (mut lent, mut call) = (ready(), call.clone());
        chosen.iter().for_each(|fault| fault.1(&mut lent, &mut call));
        let numbers: Vec<u32> = chosen.iter().map(|fault| fault.0).collect();
        let first = numbers.first().copied().unwrap_or(0);
        edge(check, &lent, &call, first, &format!("faults of rows {numbers:?}"));
        return;
    };
    choose(check, call, rest, chosen);
    for fault in *row {
        chosen.push(*fault);
        choose(check, call, rest, chosen);
        chosen.pop();
    }
}

/// A machine of this kind under devices of any values in their ranges.
fn made(random: &mut Random, kind: Kind) -> Lent {
    let core = accepted(random, kind);
    let board = Board { machine: core.machine, devices: make::devices(random) };
    Lent { board, program: core.program, store: core.store }
}

/// A machine in every phase, then with one field of the devices out of its range.
fn kinds(check: &mut Check) {
    let random = &mut Random::new(81);
    for kind in KINDS {
        for (number, (name, limit)) in FIELDS.into_iter().enumerate() {
            let mut lent = made(random, kind);
            let steps = make::run(random, 4, false);
            let outcome = expect(check, &lent, &Call::Run(steps.clone()), 0, &format!("a machine of {kind:?}"));
            walk(check, &lent, &steps, &outcome);
            *field(&mut lent.board.devices, number) = limit + 1 + random.below(3);
            for joined in [false, true] {
                let clock = Call::Clock { joined, given: steps.given[0], switches: 0 };
                edge(check, &lent, &clock, 5, &format!("{name} of {kind:?}"));
            }
            edge(check, &lent, &Call::Run(steps), 5, &format!("{name} of {kind:?}"));
        }
    }
}

/// Each field of the machine's record damaged in turn, under devices in their ranges.
fn records(check: &mut Check) {
    let random = &mut Random::new(82);
    for kind in KINDS {
        let lent = made(random, kind);
        let mut damaged = lent.clone();
        for field in fields::all().into_iter().filter(|field| !matches!(field, Field::Word(_))) {
            for value in values(random, field, &lent.board.machine) {
                damaged.board.machine = lent.board.machine;
                field.set(&mut damaged.board.machine, value);
                let (joined, given) = (random.percent(50), random.bits(3) as u8);
                call(check, &damaged, &Call::Clock { joined, given, switches: 0 });
            }
        }
        check.pass();
    }
}
