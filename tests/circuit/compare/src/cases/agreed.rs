// Programs on which the published circuit agrees as it is: every switch on Published but FILL.
// Source: Part 1. Paper: the clock table, "R7 as a base read as a register" and "32 clocks for MUL" of its misreadings.
// These two misreadings come from the source's prose; its circuit has 33 clocks and a base of zero, like document 01.
use super::{listing, quiet, Expect, Row::Word, State, Step, LONG};
use circuit::words::*;

pub struct Agreed {
    pub what: &'static str,
    pub program: &'static [u32],
    pub steps: &'static [Step],
    pub expect: Expect,
}

pub const AGREED: &[Agreed] = &[
    Agreed {
        what: "S6.1 MUL and DIV take 33 clocks; a taken branch, BL and BR take 2",
        program: &[
            literal(MOV, 0, 7),
            literal(MUL, 0, 6),
            literal(DIV, 0, 5),
            branch(ALWAYS, 0),
            call(1),
            LONG,
            literal(MOV, 3, 9),
            jump(3),
            LONG,
            literal(MOV, 4, 1),
        ],
        steps: &[quiet(75)],
        expect: Expect {
            rows: &[
                Word(1, 0, 1),
                Word(34, 1, 33),
                Word(67, 2, 33),
                Word(69, 3, 2),
                Word(71, 4, 2),
                Word(72, 6, 1),
                Word(74, 7, 2),
                Word(75, 9, 1),
            ],
            accesses: &[],
            state: &[State::Register(0, 8), State::High(2), State::Register(7, 5)],
        },
    },
    Agreed {
        what: "S6.5 R7 is no base: with FFFFFFC0H in it LD R7 0 reads no device",
        program: &[literal(NOT, 7, 63), load(0, 7, 0), LONG],
        steps: &[Step::Clocks(3, 0, 9)],
        expect: Expect { rows: &[Word(1, 0, 1), Word(3, 1, 2)], accesses: &[], state: &[State::Register(0, 0)] },
    },
    Agreed {
        what: "S2.9 ST and LD of a device take 1 clock and 2; IO1 on Published shows the read in both",
        program: &[literal(NOT, 5, 63), store(5, 5, 2), load(0, 5, 3), LONG],
        steps: &[Step::Clocks(4, 0, 9)],
        expect: Expect {
            rows: &[Word(1, 0, 1), Word(2, 1, 1), Word(4, 2, 2)],
            accesses: &[(2, 10, 0xFFFF_FFC0), (3, 13, 9), (4, 13, 9)],
            state: &[State::Register(0, 9)],
        },
    },
    Agreed {
        what: "S5.2 A2.5 7FFFFFFFH + 1 sets N and V and not C: the branches on N and V are taken, that on C is not",
        program: &[
            literal(MOV, 0, 1),
            literal(ROR, 0, 1),
            register(NOT, 0, 0),
            literal(ADD, 0, 1),
            branch(MI, 0),
            branch(VS, 0),
            branch(CS, 0),
            LONG,
        ],
        steps: &[quiet(9)],
        expect: Expect {
            rows: &[
                Word(1, 0, 1),
                Word(2, 1, 1),
                Word(3, 2, 1),
                Word(4, 3, 1),
                Word(6, 4, 2),
                Word(8, 5, 2),
                Word(9, 6, 1),
            ],
            accesses: &[],
            state: &[State::Register(0, 0x8000_0000)],
        },
    },
    Agreed {
        what: "S5.3 A2.6 80000000H + 80000000H sets C and V, and the branches on both are taken",
        program: &[literal(MOV, 0, 1), literal(ROR, 0, 1), register(ADD, 0, 0), branch(CS, 0), branch(VS, 0), LONG],
        steps: &[quiet(7)],
        expect: listing(&[Word(1, 0, 1), Word(2, 1, 1), Word(3, 2, 1), Word(5, 3, 2), Word(7, 4, 2)]),
    },
];
