// Part 5: the edges of the refusal table and the order of its rows, with the expected numbers written here.
// Paper: "Where calls are turned down", rows 3 to 9, and the accepted and refused sizes of "Bench cases".
// For the order: every set of faults that a call can have at once; the number must be that of the lowest row.
use crate::call::{Call, Lent};
use crate::check::Check;
use crate::programs::literal;
use crate::side::zeros;

/// Checks limits and orders; returns their number.
pub fn table(check: &mut Check) -> usize {
    let before = check.passed;
    resets(check);
    programs(check);
    stores(check);
    clocks(check);
    runs(check);
    looks(check);
    copies(check);
    watches(check);
    orders(check);
    (check.passed - before) as usize
}

fn ready(size: usize) -> Lent {
    let mut machine = zeros();
    machine.size = size as u32;
    Lent { machine, program: vec![literal(2, 0, 5)], store: (1..=size as u32).collect() }
}

fn clock(line_byte: u8) -> Call {
    Call::Clock { line_byte, input: 0x1234 }
}

/// A run with old contents in its buffers.
fn run(line_bytes: usize, inputs: usize, bytes: usize, words: usize) -> Call {
    Call::Run {
        line_bytes: vec![0; line_bytes],
        inputs: vec![3; inputs],
        bytes: vec![0xEE; bytes],
        words: vec![0xEEEE; words],
    }
}

fn even(count: usize) -> Call {
    run(count, count, count, count)
}

/// All calls that take a record, with legal arguments.
fn all_calls(size: usize) -> Vec<Call> {
    let mut calls = vec![clock(0), even(0), even(3)];
    calls.extend([Call::Look { address: 1 }, Call::Copy { buffer: vec![0xEEEE; size] }]);
    calls
}

fn edge(check: &mut Check, lent: &Lent, call: &Call, number: u32, why: &str) {
    check.expect(lent, call, number, why);
    check.pass();
}

fn resets(check: &mut Check) {
    let good = [64, 128, 256, 512, 1024, 2048, 4096, 8192, 16384, 32768];
    for size in good {
        edge(check, &ready(size), &Call::Reset, 0, "S3.6 reset, a power of two from 64 to 32,768");
    }
    for size in [0, 1, 2, 32, 63, 65, 96, 127, 129, 192, 255, 2047, 2049, 24576, 32767, 32769, 65536, 131072] {
        edge(check, &ready(size), &Call::Reset, 4, &format!("S3.6 reset with {size} words"));
    }
}

fn programs(check: &mut Check) {
    for call in all_calls(64) {
        for (length, number) in [(0, 3), (1, 0), (2, 0), (4095, 0), (4096, 0), (4097, 3), (8192, 3)] {
            let lent = Lent { program: vec![0x3FFFF; length], ..ready(64) };
            edge(check, &lent, &call, number, &format!("S3.5 program of {length} words"));
        }
        for word in [0x40000, 0x7FFFF, 0x80000, 0x8000_0000, 0xFFFF_FFFF] {
            for (length, at) in [(1, 0), (9, 0), (9, 4), (9, 8), (4096, 0), (4096, 4095)] {
                let mut lent = Lent { program: vec![0x3FFFF; length], ..ready(64) };
                lent.program[at] = word;
                edge(check, &lent, &call, 3, &format!("S3.5 program word {at} of {length} above 3FFFFH"));
            }
        }
    }
}

fn stores(check: &mut Check) {
    for call in all_calls(64) {
        for size in [0, 1, 63, 65, 96, 65536] {
            let mut lent = ready(64);
            lent.store.resize(size, 7);
            edge(check, &lent, &call, 4, &format!("S3.6 a store of {size} words, 64 at reset"));
            lent.machine.size = size as u32;
            edge(check, &lent, &call, 4, &format!("S3.6 a store of {size} words, the same at reset"));
        }
        for other in [0, 32, 63, 65, 128, 32768, 1 << 31, 64 + (1 << 31), u32::MAX] {
            let mut lent = ready(64);
            lent.machine.size = other;
            edge(check, &lent, &call, 4, &format!("S3.6 a store of 64 words, {other} at reset"));
        }
    }
    for size in [64, 128, 256, 512, 1024, 2048, 4096, 8192, 16384, 32768] {
        for call in all_calls(size) {
            edge(check, &ready(size), &call, 0, &format!("S3.6 a store of {size} words"));
        }
    }
}

fn at_clock(clocks: u64) -> Lent {
    let mut lent = ready(64);
    lent.machine.clocks = clocks;
    lent
}

fn clocks(check: &mut Check) {
    for line in 0..=255 {
        edge(check, &ready(64), &clock(line), if line > 7 { 6 } else { 0 }, "S3.8 line byte of a clock");
    }
    for (clocks, number) in [(0, 0), (0xFFFF_FFFD, 0), (0xFFFF_FFFE, 0), (0xFFFF_FFFF, 8)] {
        edge(check, &at_clock(clocks), &clock(0), number, &format!("S3.10 clock {clocks:X}H"));
        edge(check, &at_clock(clocks), &clock(4), number, &format!("S3.10 held clock {clocks:X}H"));
    }
}

fn runs(check: &mut Check) {
    let lent = ready(64);
    for (count, number) in [(0, 0), (1, 0), (65535, 0), (65536, 0), (65537, 6), (131072, 6)] {
        edge(check, &lent, &even(count), number, &format!("S3.8 run of {count}"));
    }
    for (lines, inputs) in [(0, 1), (1, 0), (5, 4), (5, 6), (65536, 65537), (65537, 65536)] {
        let call = run(lines, inputs, lines, lines);
        edge(check, &lent, &call, 6, &format!("S3.8 {lines} line bytes and {inputs} input words"));
    }
    for (bytes, words) in [(4, 5), (6, 5), (5, 4), (5, 6), (0, 5), (5, 0), (0, 0), (4, 6)] {
        edge(check, &lent, &run(5, 5, bytes, words), 7, &format!("S3.9 buffers of {bytes} and {words} for a run of 5"));
    }
    for (bytes, words) in [(1, 0), (0, 1)] {
        edge(check, &lent, &run(0, 0, bytes, words), 7, "S3.9 a buffer for a run of 0");
    }
    for at in [0, 1, 6, 7, 15, 16, 29] {
        for bad in [8, 9, 16, 128, 255] {
            let mut call = even(30);
            if let Call::Run { line_bytes, .. } = &mut call {
                line_bytes[at] = bad;
            }
            edge(check, &lent, &call, 6, &format!("S3.8 line byte {at} is {bad}"));
        }
    }
    let last = 0xFFFF_FFFF;
    for (clocks, count, number) in [
        (last, 0, 0),
        (last, 1, 8),
        (last - 1, 1, 0),
        (last - 1, 2, 8),
        (last - 40, 40, 0),
        (last - 40, 41, 8),
        (last - 65536, 65536, 0),
        (last - 65535, 65536, 8),
    ] {
        edge(check, &at_clock(clocks), &even(count), number, &format!("S3.10 run of {count} from clock {clocks:X}H"));
        let mut held = even(count);
        if let Call::Run { line_bytes, .. } = &mut held {
            line_bytes.fill(4);
        }
        edge(check, &at_clock(clocks), &held, number, &format!("S3.10 held run of {count} from clock {clocks:X}H"));
    }
}

fn looks(check: &mut Check) {
    let good = [0, 63, 64, 65, 0x8000, 0xFFBE, 0xFFBF];
    let bad = [0xFFC0, 0xFFC1, 0xFFFF, 0x10000, 0x10001, 0x8000_0000, 0xFFFF_FFFF];
    for size in [64, 2048, 32768] {
        for address in good {
            edge(check, &ready(size), &Call::Look { address }, 0, &format!("S3.11 look at {address:X}H"));
        }
        for address in bad {
            edge(check, &ready(size), &Call::Look { address }, 9, &format!("S3.11 look at {address:X}H"));
        }
    }
    edge(check, &at_clock(0xFFFF_FFFF), &Call::Look { address: 0 }, 0, "S3.10 look at the last clock");
}

fn copies(check: &mut Check) {
    for size in [64, 2048, 32768] {
        for (length, number) in [(size, 0), (size - 1, 7), (size + 1, 7), (0, 7), (size / 2, 7), (size * 2, 7)] {
            let call = Call::Copy { buffer: vec![0xEEEE; length] };
            edge(check, &ready(size), &call, number, &format!("S3.9 copy of {size} words into {length}"));
        }
    }
}

fn watches(check: &mut Check) {
    let lent = ready(64);
    for bytes in [vec![], vec![0], vec![2], vec![0xFE], vec![1, 2, 3, 4], vec![0xFF; 70000]] {
        for (device, number) in
            [(0, 0), (1, 0), (62, 0), (63, 0), (64, 9), (65, 9), (255, 9), (1 << 30, 9), (u32::MAX, 9)]
        {
            let call = Call::Watch { bytes: bytes.clone(), device };
            edge(check, &lent, &call, number, &format!("S3.11 watch for device {device}"));
        }
    }
    for byte in 0..=255 {
        for device in 0..64 {
            check.expect(&lent, &Call::Watch { bytes: vec![0, byte, 0], device }, 0, "S2.37 watch for one byte");
        }
    }
    check.pass();
}

/// A fault of one row, added to what is lent or to the call.
type Fault = (u32, fn(&mut Lent, &mut Call));

const PROGRAM: [Fault; 3] = [
    (3, |lent, _| lent.program.clear()),
    (3, |lent, _| lent.program.resize(4097, 0)),
    (3, |lent, _| lent.program[0] = 0x40000),
];

const STORE: [Fault; 3] = [
    (4, |lent, _| lent.store.resize(128, 0)),
    (4, |lent, _| lent.store.resize(65, 0)),
    (4, |lent, _| lent.machine.size = 0),
];

const RECORD: [Fault; 4] = [
    (5, |lent, _| lent.machine.pc = 4096),
    (5, |lent, _| lent.machine.phase = 5),
    (5, |lent, _| lent.machine.dirty[15] = 1),
    (5, |lent, _| lent.machine.quotient = 1),
];

const LINE_BYTES: [Fault; 3] = [
    (6, |_, call| match call {
        Call::Clock { line_byte, .. } => *line_byte = 8,
        Call::Run { line_bytes, .. } => line_bytes[29] = 8,
        _ => (),
    }),
    (6, |_, call| match call {
        Call::Clock { line_byte, .. } => *line_byte = 255,
        Call::Run { inputs, .. } => drop(inputs.pop()),
        _ => (),
    }),
    (6, |_, call| match call {
        Call::Clock { line_byte, .. } => *line_byte = 16,
        Call::Run { line_bytes, inputs, .. } => {
            line_bytes.resize(65537, 0);
            inputs.resize(65537, 0);
        }
        _ => (),
    }),
];

const BUFFERS: [Fault; 2] = [
    (7, |_, call| match call {
        Call::Run { bytes, .. } => drop(bytes.pop()),
        Call::Copy { buffer } => drop(buffer.pop()),
        _ => (),
    }),
    (7, |_, call| match call {
        Call::Run { words, .. } => words.push(1),
        Call::Copy { buffer } => buffer.push(1),
        _ => (),
    }),
];

const COUNT: [Fault; 1] = [(8, |lent, _| lent.machine.clocks = 0xFFFF_FFFF)];

const ADDRESS: [Fault; 2] = [
    (9, |_, call| {
        if let Call::Look { address } = call {
            *address = 0xFFC0
        }
    }),
    (9, |_, call| {
        if let Call::Look { address } = call {
            *address = 0xFFFF_FFFF
        }
    }),
];

/// Every choice of at most one fault per row: the number is that of the first row, 0 without a fault.
fn orders(check: &mut Check) {
    let clock_rows: [&[Fault]; 5] = [&PROGRAM, &STORE, &RECORD, &LINE_BYTES, &COUNT];
    let run_rows: [&[Fault]; 6] = [&PROGRAM, &STORE, &RECORD, &LINE_BYTES, &BUFFERS, &COUNT];
    choose(check, &clock(0), &clock_rows, &mut Vec::new());
    choose(check, &even(30), &run_rows, &mut Vec::new());
    let look_rows: [&[Fault]; 4] = [&PROGRAM, &STORE, &RECORD, &ADDRESS];
    let copy_rows: [&[Fault]; 4] = [&PROGRAM, &STORE, &RECORD, &BUFFERS];
    choose(check, &Call::Look { address: 3 }, &look_rows, &mut Vec::new());
    choose(check, &Call::Copy { buffer: vec![0xEEEE; 64] }, &copy_rows, &mut Vec::new());
}

fn choose(check: &mut Check, call: &Call, rows: &[&[Fault]], chosen: &mut Vec<Fault>) {
    let Some((row, rest)) = rows.split_first() else {
        let (mut lent, mut call) = (ready(64), call.clone());
        chosen.iter().for_each(|fault| fault.1(&mut lent, &mut call));
        let numbers: Vec<u32> = chosen.iter().map(|fault| fault.0).collect();
        let first = numbers.first().copied().unwrap_or(0);
        edge(check, &lent, &call, first, &format!("S3.1 {} with faults of rows {numbers:?}", call.name()));
        return;
    };
    choose(check, call, rest, chosen);
    for fault in *row {
        chosen.push(*fault);
        choose(check, call, rest, chosen);
        chosen.pop();
    }
}
