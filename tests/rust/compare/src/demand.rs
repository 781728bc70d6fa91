// Part 6: a list of calls after one reset, compared with the plain machine of demand 3.
// Paper: "The plain machine of demand 3", "Demand 3 is one statement on the whole list".
// Clocks and runs of any length with refused calls between them; no list may meet the number 5.
use crate::call::{Call, Lent, Outcome};
use crate::check::Check;
use crate::library::Machine;
use crate::lists::{run_of, spoil_call};
use crate::plain::Plain;
use crate::programs;
use crate::random::Random;
use crate::side::zeros;

pub fn demand(check: &mut Check, random: &mut Random) {
    let size = programs::size(random).min(2048);
    let mut lent = Lent { machine: zeros(), program: programs::program(random), store: random.words(size) };
    lent.machine = check.call(&lent, &Call::Reset).machine;
    let mut plain = Plain::new(&lent.store);
    for _ in 0..random.between(5, 25) {
        let mut call = match random.below(3) {
            0 => Call::Clock { line_byte: programs::line_bytes(random, 1)[0], input: random.word() },
            _ => {
                let count = random.pick(&[0, 1, 2, 10, 40, 100, 300]);
                let count = random.below(count + 1) as usize;
                run_of(random, count)
            }
        };
        let faulty = random.percent(10);
        if faulty {
            spoil_call(random, &mut call);
        }
        let outcome = check.call(&lent, &call);
        if outcome.number == 5 || (outcome.number != 0 && !faulty) {
            check.fail(&format!("S2.45 a call of the list is answered with {}", outcome.number));
        }
        if outcome.number == 0 {
            follow(check, &lent, &call, &outcome, &mut plain);
        }
        (lent.machine, lent.store) = (outcome.machine, outcome.store);
        compare(check, &lent, &plain);
    }
}

/// Runs the clocks of an accepted call on the plain machine and compares the answers.
fn follow(check: &Check, lent: &Lent, call: &Call, outcome: &Outcome, plain: &mut Plain) {
    let before = plain.finished;
    match call {
        Call::Clock { line_byte, input } => {
            let moved = plain.clock(&lent.program, *line_byte, *input);
            let answer = (outcome.answers[0].1 as u8, outcome.answers[1].1 as u32);
            if moved != answer {
                check.fail(&format!("S2.43 clock answer {answer:?}, plain machine {moved:?}"));
            }
        }
        Call::Run { line_bytes, inputs, .. } => {
            for (clock, (&line_byte, &input)) in line_bytes.iter().zip(inputs).enumerate() {
                let moved = plain.clock(&lent.program, line_byte, input);
                let answer = (outcome.bytes[clock], outcome.words[clock]);
                if moved != answer {
                    check.fail(&format!("S2.43 clock {clock} of a run answers {answer:?}, plain machine {moved:?}"));
                }
            }
            if outcome.answers[3].1 != line_bytes.len() as u64 {
                check.fail(&format!("S2.47 clocks used {} for {} line bytes", outcome.answers[3].1, line_bytes.len()));
            }
        }
        _ => (),
    }
    let finished = plain.finished - before;
    if outcome.answers[2].1 != finished {
        check.fail(&format!("S2.47 instructions finished {}, plain machine {finished}", outcome.answers[2].1));
    }
}

fn compare(check: &mut Check, lent: &Lent, plain: &Plain) {
    let m = &lent.machine;
    let [n, z, c, v] = plain.flags.map(u64::from);
    let numbers = [
        ("S2.43 PC", m.pc, plain.pc as u64),
        ("S2.43 H", m.h.into(), plain.h.into()),
        ("S2.43 status", m.status.into(), plain.status.into()),
        ("S2.43 N", m.n, n),
        ("S2.43 Z", m.z, z),
        ("S2.43 C", m.c, c),
        ("S2.43 V", m.v, v),
        ("S2.40 clock count", m.clocks, plain.clocks),
        ("S2.40 held count", m.held, plain.held),
        ("S2.44 refill count", m.refills, plain.refills),
        ("S2.44 write-back count", m.writebacks, plain.writebacks),
    ];
    for (name, left, right) in numbers {
        if left != right {
            check.fail(&format!("{name}: {left:X}H in the record, {right:X}H in the plain machine"));
        }
    }
    if m.regs != plain.registers {
        check
            .fail(&format!("S2.43 registers {:X?} in the record, {:X?} in the plain machine", m.regs, plain.registers));
    }
    memory(check, lent, m, plain);
}

/// Data memory by a copy, or computed by the paper's sentence on looks.
fn memory(check: &mut Check, lent: &Lent, m: &Machine, plain: &Plain) {
    let mut seen = lent.store.clone();
    for line in (0..16).filter(|&line| m.full[line] == 1) {
        let first = usize::from(m.block[line]) * 8;
        seen[first..first + 8].copy_from_slice(&m.words[line * 8..line * 8 + 8]);
    }
    if seen != plain.memory {
        check.fail("S2.43 data memory differs from the plain machine's");
    }
    let copied = check.call(lent, &Call::Copy { buffer: vec![0xEEEE; lent.store.len()] });
    if copied.number != 0 || copied.words != plain.memory {
        check.fail("S2.35 a copy differs from the plain machine's memory");
    }
}
