// Part 7: arithmetic of 0-10 on all pairs of edge words, compared with the plain machine's wide integers.
// Paper: operations 0-10 and their flags; the starred "Bench cases" are among the pairs.
// One word is executed from ready, in one run; then registers, H and flags are compared.
use crate::call::{Call, Lent};
use crate::check::Check;
use crate::plain::Plain;
use crate::programs::{literal, register};
use crate::sentences;
use crate::side::zeros;

const WORDS: [u32; 24] = [
    0,
    1,
    2,
    3,
    7,
    31,
    32,
    33,
    0x3FF,
    0x8000,
    0xFFFF,
    0x1_0000,
    0x3FFF_FFFF,
    0x4000_0000,
    0x5555_5555,
    0x7FFF_FFFE,
    0x7FFF_FFFF,
    0x8000_0000,
    0x8000_0001,
    0xAAAA_AAAA,
    0xC000_0000,
    0xFFFF_FFF9,
    0xFFFF_FFFE,
    0xFFFF_FFFF,
];

/// Checks all pairs; returns their number.
pub fn edges(check: &mut Check) -> usize {
    let mut pairs = 0;
    for operation in 0..=10 {
        for b in WORDS {
            for a in WORDS {
                execute(check, register(operation, 1, 2), b, a);
                pairs += 1;
                if a < 1024 {
                    execute(check, literal(operation, 1, a), b, !a);
                    pairs += 1;
                }
            }
        }
        check.pass();
    }
    pairs
}

fn execute(check: &mut Check, word: u32, b: u32, a: u32) {
    let label = sentences::operation(word >> 14);
    let clocks = if matches!(word >> 14, 8 | 9) { 33 } else { 1 };
    let store = vec![0; 64];
    let mut plain = Plain::new(&store);
    let mut machine = zeros();
    (machine.size, machine.c, machine.v) = (64, u64::from(a & 1), u64::from(b & 1));
    (machine.regs[1], machine.regs[2], machine.h) = (b, a, 0x1234_5678);
    plain.flags = [false, false, a & 1 == 1, b & 1 == 1];
    (plain.registers, plain.h) = (machine.regs, machine.h);
    let lent = Lent { machine, program: vec![word], store };
    let bytes = vec![0xEE; clocks];
    let call = Call::Run { line_bytes: vec![0; clocks], inputs: vec![0; clocks], bytes, words: vec![0xEE; clocks] };
    let outcome = check.expect(&lent, &call, 0, &format!("{label} one word of arithmetic"));
    for _ in 0..clocks {
        plain.clock(&lent.program, 0, 0);
    }
    let m = &outcome.machine;
    let seen = (m.regs, m.h, [m.n, m.z, m.c, m.v].map(|flag| flag == 1), m.pc as usize, outcome.answers[2].1);
    if seen != (plain.registers, plain.h, plain.flags, plain.pc, plain.finished) {
        let (ours, plains) = ((m.regs[1], m.h), (plain.registers[1], plain.h));
        let pair = format!("{label} word {word:05X}H with B {b:X}H and A {a:X}H");
        check.fail(&format!("{pair}: R1 and H {ours:X?}, plain machine {plains:X?}; or the flags differ"));
    }
}
