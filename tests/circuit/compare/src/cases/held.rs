// Programs for the switches about held clocks: MUL33, HOLDLD, HOLDMUL, HOLDRTI and HOLDREG.
// Source: "Stalling the processor", "The Multiplier", "Interrupts"; regwr is elided there. Paper: "A clock with stall set is held".
// A line byte of 4 is a held clock; 5 is one with interrupt line 0 high.
use super::{listing, quiet, Case, Expect, Row::Irq, Row::Word, State, Step, LONG};
use circuit::words::*;
use circuit::Switch;

/// Held clocks.
const fn hold(count: u32) -> Step {
    Step::Clocks(count, 4, 0)
}

pub const CASES: &[Case] = &[
    Case {
        switch: Switch::Mul33,
        what: "MUL held in clock 33: 32 clocks, then 33 again",
        program: &[literal(MOV, 0, 5), literal(MUL, 0, 3), literal(MOV, 1, 1), LONG],
        base: &[],
        steps: &[quiet(33), hold(1), quiet(34)],
        published: Expect {
            rows: &[Word(1, 0, 1), Word(67, 1, 65), Word(68, 2, 1)],
            accesses: &[],
            state: &[State::Register(0, 15)],
        },
        paper: Expect {
            rows: &[Word(1, 0, 1), Word(35, 1, 33), Word(36, 2, 1)],
            accesses: &[],
            state: &[State::Register(0, 15)],
        },
    },
    Case {
        switch: Switch::Mul33,
        what: "DIV held in clock 33",
        program: &[literal(MOV, 0, 17), literal(DIV, 0, 5), literal(MOV, 1, 1), LONG],
        base: &[],
        steps: &[quiet(33), hold(1), quiet(34)],
        published: Expect {
            rows: &[Word(1, 0, 1), Word(67, 1, 65), Word(68, 2, 1)],
            accesses: &[],
            state: &[State::Register(0, 3), State::High(2)],
        },
        paper: Expect {
            rows: &[Word(1, 0, 1), Word(35, 1, 33), Word(36, 2, 1)],
            accesses: &[],
            state: &[State::Register(0, 3), State::High(2)],
        },
    },
    Case {
        switch: Switch::HoldLd,
        what: "LD held in its first clock",
        program: &[literal(NOT, 5, 63), load(0, 5, 0), literal(MOV, 1, 1), LONG],
        base: &[],
        steps: &[quiet(1), hold(1), Step::Clocks(3, 0, 6)],
        published: Expect {
            rows: &[Word(1, 0, 1), Word(3, 1, 1), Word(4, 2, 1)],
            accesses: &[(3, 1, 6)],
            state: &[State::Register(0, 6)],
        },
        paper: Expect {
            rows: &[Word(1, 0, 1), Word(4, 1, 2), Word(5, 2, 1)],
            accesses: &[(4, 1, 6)],
            state: &[State::Register(0, 6)],
        },
    },
    Case {
        switch: Switch::HoldLd,
        what: "LD held in its second clock",
        program: &[literal(NOT, 5, 63), load(0, 5, 0), literal(MOV, 1, 1), LONG],
        base: &[],
        steps: &[quiet(2), hold(1), Step::Clocks(3, 0, 6)],
        published: Expect {
            rows: &[Word(1, 0, 1), Word(5, 1, 3), Word(6, 2, 1)],
            accesses: &[(5, 1, 6)],
            state: &[State::Register(0, 6)],
        },
        paper: Expect {
            rows: &[Word(1, 0, 1), Word(4, 1, 2), Word(5, 2, 1)],
            accesses: &[(4, 1, 6)],
            state: &[State::Register(0, 6)],
        },
    },
    Case {
        switch: Switch::HoldMul,
        what: "four held clocks inside MUL: the same last clock as without them, took 29",
        program: &[literal(MOV, 0, 5), literal(MUL, 0, 3), literal(MOV, 1, 1), LONG],
        base: &[],
        steps: &[quiet(11), hold(4), quiet(24)],
        published: Expect {
            rows: &[Word(1, 0, 1), Word(34, 1, 29), Word(35, 2, 1)],
            accesses: &[],
            state: &[State::Register(0, 15)],
        },
        paper: Expect {
            rows: &[Word(1, 0, 1), Word(38, 1, 33), Word(39, 2, 1)],
            accesses: &[],
            state: &[State::Register(0, 15)],
        },
    },
    Case {
        switch: Switch::HoldRti,
        what: "RTI R3 held once: bank 0's R3 is 9, bank 1's is 6",
        program: &[
            literal(MOV, 3, 9),
            ldpsr(4),
            literal(MOV, 3, 6),
            rti(3),
            LONG,
            LONG,
            literal(MOV, 0, 1),
            LONG,
            LONG,
            literal(MOV, 0, 2),
        ],
        base: &[],
        steps: &[quiet(3), hold(1), quiet(3)],
        published: listing(&[Word(1, 0, 1), Word(2, 1, 1), Word(3, 2, 1), Word(6, 3, 2), Word(7, 9, 1)]),
        paper: listing(&[Word(1, 0, 1), Word(2, 1, 1), Word(3, 2, 1), Word(6, 3, 2), Word(7, 6, 1)]),
    },
    Case {
        switch: Switch::HoldRti,
        what: "LDPSR held once with line 0 high: enabled early, its own clock is interrupted",
        program: &[branch(ALWAYS, 3), LONG, literal(MOV, 1, 2), LONG, ldpsr(1), LONG],
        base: &[],
        steps: &[quiet(2), Step::Clocks(1, 5, 0), Step::Clocks(3, 1, 0)],
        published: listing(&[Word(2, 0, 2), Irq(4, 4, 0, 1), Word(5, 2, 1)]),
        paper: listing(&[Word(2, 0, 2), Word(4, 4, 1), Irq(5, 5, 0, 1), Word(6, 2, 1)]),
    },
    Case {
        switch: Switch::HoldReg,
        what: "ADD held once adds twice",
        program: &[
            literal(MOV, 0, 1),
            literal(ADD, 0, 1),
            literal(SUB, 0, 2),
            branch(EQ, 1),
            literal(MOV, 1, 1),
            literal(MOV, 1, 2),
        ],
        base: &[],
        steps: &[quiet(1), hold(1), quiet(5)],
        published: listing(&[Word(1, 0, 1), Word(3, 1, 1), Word(4, 2, 1), Word(5, 3, 1), Word(6, 4, 1), Word(7, 5, 1)]),
        paper: listing(&[Word(1, 0, 1), Word(3, 1, 1), Word(4, 2, 1), Word(6, 3, 2), Word(7, 5, 1)]),
    },
];
