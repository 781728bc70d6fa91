// Words of the instruction set, built from their fields.
// Paper: "What a programmer sees". Source: "The Tiny Register Machine TRM-3", its formats.
// Fields are not checked beyond their width; nothing here reads a word.

pub const MOV: u32 = 0;
pub const NOT: u32 = 1;
pub const ADD: u32 = 2;
pub const SUB: u32 = 3;
pub const MUL: u32 = 8;
pub const DIV: u32 = 9;
pub const ROR: u32 = 10;

/// Branch never, the source's NOP.
pub const NEVER: u32 = 0x3BC00;

pub const EQ: u32 = 0;
pub const CS: u32 = 2;
pub const MI: u32 = 4;
pub const VS: u32 = 6;
/// Higher: C and not Z.
pub const HI: u32 = 8;
/// Lower or same.
pub const LS: u32 = 9;
pub const ALWAYS: u32 = 14;

/// Operation 0-10 with a literal of ten bits.
pub const fn literal(operation: u32, d: u32, value: u32) -> u32 {
    assert!(value < 1024 && d < 8);
    operation << 14 | d << 11 | value
}

/// Operation 0-10 with a register.
pub const fn register(operation: u32, d: u32, s: u32) -> u32 {
    operation << 14 | d << 11 | 1 << 10 | s
}

/// MOV d, H.
pub const fn high(d: u32) -> u32 {
    d << 11 | 1 << 10 | 1 << 3
}

/// 11 with bit 10 clear.
pub const fn ldpsr(status: u32) -> u32 {
    11 << 14 | status
}

/// 11 with bit 10 set: a jump to R.s.
pub const fn jump(s: u32) -> u32 {
    11 << 14 | 1 << 10 | s
}

pub const fn jump_link(d: u32, s: u32) -> u32 {
    jump(s) | d << 11 | 1 << 9
}

pub const fn rti(s: u32) -> u32 {
    jump(s) | 1 << 8
}

pub const fn load(d: u32, s: u32, offset: u32) -> u32 {
    assert!(offset < 256);
    12 << 14 | d << 11 | offset << 3 | s
}

pub const fn store(d: u32, s: u32, offset: u32) -> u32 {
    assert!(offset < 256);
    13 << 14 | d << 11 | offset << 3 | s
}

pub const fn branch(condition: u32, offset: i32) -> u32 {
    14 << 14 | condition << 10 | (offset as u32 & 0x3FF)
}

/// 15: branch and link.
pub const fn call(offset: u32) -> u32 {
    15 << 14 | offset & 0xFFF
}
