// Fields of a program word: operation, registers, literals, offsets, conditions.
// Paper: "What a programmer sees", from "Operation = bits 17-14" to operation 15.
// Pure functions of the word; program words past the lent ones are NEVER.
use crate::record::CACHE_ON;

/// Branch never, the word past the lent program.
pub const NEVER: u32 = 0x3BC00;

// Operations named here; 0-7 and 10 are the one-clock arithmetic.
pub const MUL: u32 = 8;
pub const DIV: u32 = 9;
pub const CONTROL: u32 = 11;
pub const LD: u32 = 12;
pub const ST: u32 = 13;
pub const BRANCH: u32 = 14;
pub const CALL: u32 = 15;

/// Where an LD or ST goes: the address reduced to the store, or a device.
#[derive(Clone, Copy, PartialEq, Eq, Debug)]
pub enum Place {
    Memory(usize),
    Device(u8),
}

#[inline(always)]
pub fn fetch(program: &[u32], pc: usize) -> u32 {
    program.get(pc).copied().unwrap_or(NEVER)
}

#[inline(always)]
pub fn operation(word: u32) -> u32 {
    (word >> 14) & 15
}

#[inline(always)]
pub fn d(word: u32) -> u32 {
    (word >> 11) & 7
}

#[inline(always)]
pub fn s(word: u32) -> u32 {
    word & 7
}

/// Bit 10: register form of 0-10, and the jumps of operation 11.
#[inline(always)]
pub fn bit10(word: u32) -> bool {
    word & 0x400 != 0
}

/// Operand A, `register` being R.s.
#[inline(always)]
pub fn operand(word: u32, register: u32) -> u32 {
    if bit10(word) {
        register
    } else {
        word & 0x3FF
    }
}

/// MOV whose operand is H.
#[inline(always)]
pub fn moves_h(word: u32) -> bool {
    word & 0x408 == 0x408
}

/// Operation 11 with bit 10 clear that turns off a cache that is on.
#[inline(always)]
pub fn clears_cache(word: u32, status: u32) -> bool {
    status & !word & CACHE_ON != 0
}

/// Address of an LD or ST, 16 bits, `register` being R.s; base register 7 means zero.
#[inline(always)]
pub fn address(word: u32, register: u32) -> usize {
    let base = if s(word) == 7 { 0 } else { register };
    (base.wrapping_add((word >> 3) & 0xFF) & 0xFFFF) as usize
}

/// The address as memory (reduced to a store of `size` words) or device.
#[inline(always)]
pub fn place(word: u32, register: u32, size: usize) -> Place {
    let address = address(word, register);
    if address >= 0xFFC0 {
        Place::Device((address & 63) as u8)
    } else {
        Place::Memory(address & (size - 1))
    }
}

/// One bit for each NZCV (N is bit 3 of the index), by condition; the odd conditions are opposites.
const fn table(condition: u32) -> u16 {
    let mut bits = 0;
    let mut index = 0;
    while index < 16 {
        let (n, z, c, v) = (index & 8 != 0, index & 4 != 0, index & 2 != 0, index & 1 != 0);
        let holds = match condition >> 1 {
            0 => z,
            1 => c,
            2 => n,
            3 => v,
            4 => c && !z,
            5 => n == v,
            6 => n == v && !z,
            _ => true,
        };
        if holds != (condition & 1 == 1) {
            bits |= 1 << index;
        }
        index += 1;
    }
    bits
}

const CONDITIONS: [u16; 16] = {
    let mut all = [0; 16];
    let mut condition = 0;
    while condition < 16 {
        all[condition] = table(condition as u32);
        condition += 1;
    }
    all
};

/// Whether the branch word's condition, bits 13-10, holds for the flags in four bits.
#[inline(always)]
pub fn taken(word: u32, nzcv: u32) -> bool {
    CONDITIONS[(word >> 10) as usize & 15] >> (nzcv & 15) & 1 == 1
}

/// PC+1 plus the signed offset of bits 9-0.
#[inline(always)]
pub fn branch_target(word: u32, pc: usize) -> usize {
    let offset = ((word << 22) as i32 >> 22) as usize;
    pc.wrapping_add(1).wrapping_add(offset) & 0xFFF
}

/// PC+1 plus bits 11-0.
#[inline(always)]
pub fn call_target(word: u32, pc: usize) -> usize {
    (pc + 1 + (word & 0xFFF) as usize) & 0xFFF
}

#[inline(always)]
pub fn next(pc: usize) -> usize {
    (pc + 1) & 0xFFF
}
