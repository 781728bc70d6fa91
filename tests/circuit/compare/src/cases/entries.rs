// Programs for IRQ1: when an interrupt line is sampled, and how many clocks the interrupt takes.
// Source: "Interrupts", sampling before the acknowledge clock. Paper: "An unheld clock with no instruction in flight".
// Every other switch is on Paper. The entry of interrupt line 0 is word 2.
use super::{listing, quiet, Case, Row::Irq, Row::Word, Step, LONG};
use circuit::words::*;
use circuit::Switch;

/// Clocks with interrupt line 0 high.
const fn high(count: u32) -> Step {
    Step::Clocks(count, 1, 0)
}

const AROUND: u32 = branch(ALWAYS, 3);
const ENTRY: u32 = literal(MOV, 1, 2);
const FIRST: u32 = literal(MOV, 0, 1);
const SECOND: u32 = literal(MOV, 0, 2);

/// A case of IRQ1 alone.
const fn case(
    what: &'static str,
    program: &'static [u32],
    steps: &'static [Step],
    published: &'static [super::Row],
    paper: &'static [super::Row],
) -> Case {
    let (published, paper) = (listing(published), listing(paper));
    Case { switch: Switch::Irq1, what, program, base: &[], steps, published, paper }
}

pub const CASES: &[Case] = &[
    case(
        "line 0 rises inside MUL and stays: the same saved PC, the handler one clock later",
        &[AROUND, LONG, ENTRY, LONG, ldpsr(1), literal(MUL, 0, 3), FIRST],
        &[quiet(9), high(30)],
        &[Word(2, 0, 2), Word(3, 4, 1), Word(36, 5, 33), Irq(38, 6, 0, 2), Word(39, 2, 1)],
        &[Word(2, 0, 2), Word(3, 4, 1), Word(36, 5, 33), Irq(37, 6, 0, 1), Word(38, 2, 1)],
    ),
    case(
        "line 0 rises in the clock in which a word of one clock begins",
        &[AROUND, LONG, ENTRY, LONG, ldpsr(1), FIRST, SECOND],
        &[quiet(3), high(4)],
        &[Word(2, 0, 2), Word(3, 4, 1), Word(4, 5, 1), Irq(6, 6, 0, 2), Word(7, 2, 1)],
        &[Word(2, 0, 2), Word(3, 4, 1), Irq(4, 5, 0, 1), Word(5, 2, 1)],
    ),
    case(
        "line 0 rises in the first clock of a taken branch: its target is saved, one clock follows",
        &[AROUND, LONG, ENTRY, LONG, ldpsr(1), branch(ALWAYS, 1), LONG, FIRST],
        &[quiet(3), high(4)],
        &[Word(2, 0, 2), Word(3, 4, 1), Word(5, 5, 2), Irq(6, 7, 0, 1), Word(7, 2, 1)],
        &[Word(2, 0, 2), Word(3, 4, 1), Irq(4, 5, 0, 1), Word(5, 2, 1)],
    ),
    case(
        "line 0 rises in the second clock of a taken branch",
        &[AROUND, LONG, ENTRY, LONG, ldpsr(1), branch(ALWAYS, 1), LONG, FIRST, SECOND],
        &[quiet(4), high(5)],
        &[Word(2, 0, 2), Word(3, 4, 1), Word(5, 5, 2), Word(6, 7, 1), Irq(8, 8, 0, 2), Word(9, 2, 1)],
        &[Word(2, 0, 2), Word(3, 4, 1), Word(5, 5, 2), Irq(6, 7, 0, 1), Word(7, 2, 1)],
    ),
    case(
        "line 0 always high, a handler of RTI alone: one word of the program a round, or none",
        &[AROUND, LONG, rti(7), LONG, ldpsr(1), FIRST, SECOND, FIRST],
        &[high(12)],
        &[Word(2, 0, 2), Word(3, 4, 1), Word(4, 5, 1), Irq(6, 6, 0, 2), Word(8, 2, 2), Word(9, 6, 1), Irq(11, 7, 0, 2)],
        &[
            Word(2, 0, 2),
            Word(3, 4, 1),
            Irq(4, 5, 0, 1),
            Word(6, 2, 2),
            Irq(7, 5, 0, 1),
            Word(9, 2, 2),
            Irq(10, 5, 0, 1),
            Word(12, 2, 2),
        ],
    ),
    case(
        "line 0 high only in the first clock of MUL",
        &[AROUND, LONG, ENTRY, LONG, ldpsr(1), literal(MUL, 0, 3), FIRST],
        &[quiet(3), high(1), quiet(33)],
        &[Word(2, 0, 2), Word(3, 4, 1), Word(36, 5, 33), Word(37, 6, 1)],
        &[Word(2, 0, 2), Word(3, 4, 1), Irq(4, 5, 0, 1), Word(5, 2, 1)],
    ),
    case(
        "line 0 high only in the last clock of MUL",
        &[AROUND, LONG, ENTRY, LONG, ldpsr(1), literal(MUL, 0, 3), FIRST, LONG],
        &[quiet(35), high(1), quiet(2)],
        &[Word(2, 0, 2), Word(3, 4, 1), Word(36, 5, 33), Irq(38, 6, 0, 2)],
        &[Word(2, 0, 2), Word(3, 4, 1), Word(36, 5, 33), Word(37, 6, 1)],
    ),
];
