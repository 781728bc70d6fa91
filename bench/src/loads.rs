// The loads: endless programs with one kind of work each, and the line byte of every clock.
// Paper: the rows of the clock table.
// Each ends in a branch back; what is before the loop runs once.
use crate::words::{branch, literal, load, register, status, store};

pub struct Load {
    pub name: &'static str,
    pub program: Vec<u32>,
    pub line_byte: u8,
}

pub fn loads() -> Vec<Load> {
    let of = |name, program, line_byte| Load { name, program, line_byte };
    vec![
        of("arithmetic", arithmetic(), 0),
        of("MUL and DIV", serial(), 0),
        of("memory hits", hits(), 0),
        of("misses, dirty", misses(), 0),
        of("uncached", uncached(), 0),
        of("device polling", polling(), 0),
        of("held", arithmetic(), 4),
    ]
}

/// Arithmetic in longer programs: every call checks each word of its program.
pub fn lengths() -> Vec<Load> {
    let of = |name, words| {
        let mut program = arithmetic();
        program.resize(words, 0);
        Load { name, program, line_byte: 0 }
    };
    vec![of("256 words", 256), of("1,024 words", 1024), of("4,096 words", 4096)]
}

fn arithmetic() -> Vec<u32> {
    vec![
        literal(2, 0, 3),
        register(3, 1, 0),
        register(7, 2, 1),
        literal(10, 3, 5),
        register(6, 4, 2),
        register(4, 5, 4),
        register(2, 6, 5),
        literal(1, 7, 9),
        register(5, 1, 3),
        literal(2, 2, 77),
        register(0, 3, 6),
        branch(14, -12),
    ]
}

fn serial() -> Vec<u32> {
    vec![literal(0, 0, 1000), literal(0, 1, 7), register(8, 0, 1), register(9, 0, 1), register(2, 1, 0), branch(14, -4)]
}

/// Two cache lines, with loads and stores that hit.
fn hits() -> Vec<u32> {
    vec![
        status(8),
        literal(0, 1, 64),
        load(0, 1, 0),
        literal(2, 0, 1),
        store(0, 1, 1),
        load(2, 1, 2),
        store(2, 1, 3),
        load(3, 1, 4),
        register(2, 3, 2),
        store(3, 1, 5),
        branch(14, -9),
    ]
}

/// Two blocks of one cache line, each stored to before the other is accessed.
fn misses() -> Vec<u32> {
    vec![status(8), literal(0, 1, 0), store(0, 1, 0), store(0, 1, 128), literal(2, 0, 1), branch(14, -4)]
}

fn uncached() -> Vec<u32> {
    vec![literal(0, 1, 64), load(0, 1, 0), literal(2, 0, 1), store(0, 1, 1), branch(14, -4)]
}

/// Device 3 is read until its bit 0 is clear, which it never is.
fn polling() -> Vec<u32> {
    vec![literal(0, 1, 0), literal(3, 1, 64), load(0, 1, 3), literal(4, 0, 1), branch(1, -3), branch(14, -4)]
}
