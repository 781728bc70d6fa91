// The words of the loads.
// Paper: "What a programmer sees": operation = bits 17-14, d = bits 13-11, s = bits 2-0.
// Negative branch offsets are reduced to ten bits.

pub fn literal(operation: u32, d: u32, value: u32) -> u32 {
    operation << 14 | d << 11 | value
}

pub fn register(operation: u32, d: u32, s: u32) -> u32 {
    operation << 14 | d << 11 | 1 << 10 | s
}

pub fn status(bits: u32) -> u32 {
    11 << 14 | bits
}

pub fn load(d: u32, s: u32, offset: u32) -> u32 {
    12 << 14 | d << 11 | offset << 3 | s
}

pub fn store(d: u32, s: u32, offset: u32) -> u32 {
    13 << 14 | d << 11 | offset << 3 | s
}

pub fn branch(condition: u32, offset: i32) -> u32 {
    14 << 14 | condition << 10 | (offset as u32 & 1023)
}

/// RTI R7.
pub const RETURN: u32 = 11 << 14 | 1 << 10 | 1 << 8 | 7;
