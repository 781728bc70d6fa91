// Program words for the examples, by the instructions of the package.
// Paper: "What a programmer sees", the formats.
// Used by the examples of the board.
#![allow(dead_code)]
use trm::Instruction::{self, Arithmetic, Branch, Load, Store};
use trm::{Operand, Operation, Refusal};

/// Conditions of a branch.
pub const IF_ZERO: u32 = 0;
pub const ALWAYS: u32 = 14;

pub fn literal(operation: Operation, d: u32, value: u32) -> Instruction {
    Arithmetic { operation, d, operand: Operand::Literal(value) }
}

/// A load by a register as the base; by R7 the base is zero.
pub fn load(d: u32, s: u32, offset: u8) -> Instruction {
    Load { d, s, offset: offset.into() }
}

/// A store by a register as the base; by R7 the base is zero.
pub fn store(d: u32, s: u32, offset: u8) -> Instruction {
    Store { d, s, offset: offset.into() }
}

/// A branch at one address to another.
pub fn branch(condition: u32, at: u32, to: u32) -> Instruction {
    Branch { condition, offset: to.wrapping_sub(at + 1) & 0x3FF }
}

pub fn encoded(program: &[Instruction]) -> Result<Vec<u32>, Refusal> {
    program.iter().map(|instruction| instruction.encode()).collect()
}
