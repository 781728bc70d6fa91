// Shared by the tests: words of the instruction set, and a test machine (`Bench`) with a record, a program and a store.
// Paper: "What a programmer sees" for the formats.
// It sets registers and status directly in the record, so that a test needs only the words it is about.
#![allow(dead_code)]
use simulator::{clock, reset, Answer, Record};

pub fn literal(operation: u32, d: u32, value: u32) -> u32 {
    assert!(value < 1024);
    operation << 14 | d << 11 | value
}

pub fn register(operation: u32, d: u32, s: u32) -> u32 {
    operation << 14 | d << 11 | 1 << 10 | s
}

pub const MOV: u32 = 0;
pub const ADD: u32 = 2;
pub const SUB: u32 = 3;
pub const MUL: u32 = 8;
pub const DIV: u32 = 9;
pub const ROR: u32 = 10;

pub fn status(bits: u32) -> u32 {
    11 << 14 | bits
}

pub fn jump(s: u32) -> u32 {
    11 << 14 | 1 << 10 | s
}

pub fn jump_link(d: u32, s: u32) -> u32 {
    jump(s) | d << 11 | 1 << 9
}

pub fn rti(s: u32) -> u32 {
    jump(s) | 1 << 8
}

pub fn ld(d: u32, s: u32, offset: u32) -> u32 {
    12 << 14 | d << 11 | offset << 3 | s
}

pub fn st(d: u32, s: u32, offset: u32) -> u32 {
    13 << 14 | d << 11 | offset << 3 | s
}

pub fn branch(condition: u32, offset: i32) -> u32 {
    14 << 14 | condition << 10 | (offset as u32 & 0x3FF)
}

pub fn call(offset: u32) -> u32 {
    15 << 14 | offset
}

pub const ALWAYS: u32 = 14;

pub struct Bench {
    pub record: Record,
    pub program: Vec<u32>,
    pub store: Vec<u32>,
}

impl Bench {
    pub fn new(program: &[u32], size: usize) -> Bench {
        let store: Vec<u32> = (0..size as u32).map(|index| 0x5000_0000 + index).collect();
        let record = reset(&store).unwrap();
        Bench { record, program: program.to_vec(), store }
    }

    pub fn tick(&mut self, line_byte: u8, input: u32) -> Answer {
        clock(&mut self.record, &self.program, &mut self.store, line_byte, input).unwrap()
    }

    /// Runs until an instruction has finished; at most 400 clocks.
    pub fn finish(&mut self) -> (u64, Answer) {
        for spent in 1..=400 {
            let answer = self.tick(0, 0);
            if answer.finished == 1 {
                return (spent, answer);
            }
        }
        panic!("no end: {:?}", self.record.state);
    }

    pub fn charge(&mut self) -> u64 {
        self.finish().0
    }
}

/// A small generator of test words.
pub struct Random(pub u64);

impl Random {
    pub fn next(&mut self) -> u64 {
        self.0 = self.0.wrapping_add(0x9E37_79B9_7F4A_7C15);
        let mut z = self.0;
        z = (z ^ z >> 30).wrapping_mul(0xBF58_476D_1CE4_E5B9);
        z = (z ^ z >> 27).wrapping_mul(0x94D0_49BB_1331_11EB);
        z ^ z >> 31
    }

    /// A 32-bit word, often near an edge.
    pub fn word(&mut self) -> u32 {
        let edges = [0, 1, 2, 0x7FFF_FFFF, 0x8000_0000, 0x8000_0001, 0xFFFF_FFFF, 0xFFFF_FFFE, 7, 0xFFFF_FFF9];
        match self.next() % 4 {
            0 => edges[(self.next() % 10) as usize],
            1 => self.next() as u32 & 0x3FF,
            _ => self.next() as u32,
        }
    }
}
