//! Instructions as text.
//! Paper: the names of the operations in "What a programmer sees"; those of the conditions are Wirth's.
//! Fields outside their width are printed too, a condition above 15 as `?`.
use crate::instruction::{Instruction, Operand, Operation};
use std::fmt::{Display, Formatter, Result as Written};

impl Display for Operation {
    /// The mnemonic.
    fn fmt(&self, to: &mut Formatter) -> Written {
        to.write_str(match self {
            Operation::Mov => "MOV",
            Operation::Not => "NOT",
            Operation::Add => "ADD",
            Operation::Sub => "SUB",
            Operation::And => "AND",
            Operation::Bic => "BIC",
            Operation::Or => "OR",
            Operation::Xor => "XOR",
            Operation::Mul => "MUL",
            Operation::Div => "DIV",
            Operation::Ror => "ROR",
        })
    }
}

impl Display for Operand {
    /// `R3`, or a decimal number.
    fn fmt(&self, to: &mut Formatter) -> Written {
        match self {
            Operand::Register(s) => write!(to, "R{s}"),
            Operand::Literal(value) => write!(to, "{value}"),
        }
    }
}

/// The conditions 0-15 after the `B` of a branch.
const CONDITIONS: [&str; 16] =
    ["EQ", "NE", "CS", "CC", "MI", "PL", "VS", "VC", "HI", "LS", "GE", "LT", "GT", "LE", "", "F"];

impl Display for Instruction {
    /// The notation is described at [`Instruction`].
    fn fmt(&self, to: &mut Formatter) -> Written {
        match *self {
            Instruction::Arithmetic { operation, d, operand } => write!(to, "{operation} R{d}, {operand}"),
            Instruction::MoveHigh { d } => write!(to, "MOV R{d}, H"),
            Instruction::SetStatus { status } => write!(to, "LDPSR {status}"),
            Instruction::Jump { s } => write!(to, "BR R{s}"),
            Instruction::JumpAndLink { d, s } => write!(to, "BR R{d}, R{s}"),
            Instruction::ReturnFromInterrupt { s } => write!(to, "RTI R{s}"),
            Instruction::Load { d, s, offset } => write_access(to, "LD", d, s, offset),
            Instruction::Store { d, s, offset } => write_access(to, "ST", d, s, offset),
            Instruction::Branch { condition: 15, offset: 0 } => write!(to, "NOP"),
            Instruction::Branch { condition, offset } => {
                let name = CONDITIONS.get(condition as usize).unwrap_or(&"?");
                let signed = (offset as i32) << 22 >> 22;
                write!(to, "B{name} ")?;
                write_target(to, i64::from(signed) + 1)
            }
            Instruction::Call { offset } => {
                write!(to, "BL ")?;
                write_target(to, i64::from(offset) + 1)
            }
        }
    }
}

fn write_access(to: &mut Formatter, name: &str, d: u32, s: u32, offset: u32) -> Written {
    match (s, offset) {
        (7, _) => write!(to, "{name} R{d}, [{offset}]"),
        (_, 0) => write!(to, "{name} R{d}, [R{s}]"),
        _ => write!(to, "{name} R{d}, [R{s}+{offset}]"),
    }
}

/// A target address as its distance from the instruction.
fn write_target(to: &mut Formatter, distance: i64) -> Written {
    match distance {
        0 => write!(to, "."),
        _ => write!(to, ".{distance:+}"),
    }
}
