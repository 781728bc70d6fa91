//! An instruction as the plain numbers of the C interface, and back.
//! Paper: "What a programmer sees", the format of each operation; row 10 of the refusals.
//! A field that a form does not have is 0.
use crate::instruction::{Instruction, Operand, Operation};
use crate::raw;
use crate::refusal::Refusal;

impl From<Instruction> for raw::Instruction {
    fn from(instruction: Instruction) -> raw::Instruction {
        let none = raw::Instruction::default();
        match instruction {
            Instruction::Arithmetic { operation, d, operand } => {
                let (form, s, value) = match operand {
                    Operand::Register(s) => (raw::FORM_REGISTER, s, 0),
                    Operand::Literal(value) => (raw::FORM_LITERAL, 0, value),
                };
                raw::Instruction { form, operation: operation.number(), d, s, value, ..none }
            }
            Instruction::MoveHigh { d } => raw::Instruction { form: raw::FORM_MOVE_H, d, ..none },
            Instruction::SetStatus { status } => raw::Instruction { form: raw::FORM_STATUS, value: status, ..none },
            Instruction::Jump { s } => raw::Instruction { form: raw::FORM_JUMP, s, ..none },
            Instruction::JumpAndLink { d, s } => raw::Instruction { form: raw::FORM_LINK, d, s, ..none },
            Instruction::ReturnFromInterrupt { s } => raw::Instruction { form: raw::FORM_RTI, s, ..none },
            Instruction::Load { d, s, offset } => {
                raw::Instruction { form: raw::FORM_LOAD, d, s, value: offset, ..none }
            }
            Instruction::Store { d, s, offset } => {
                raw::Instruction { form: raw::FORM_STORE, d, s, value: offset, ..none }
            }
            Instruction::Branch { condition, offset } => {
                raw::Instruction { form: raw::FORM_BRANCH, condition, value: offset, ..none }
            }
            Instruction::Call { offset } => raw::Instruction { form: raw::FORM_CALL, value: offset, ..none },
        }
    }
}

impl TryFrom<raw::Instruction> for Instruction {
    type Error = Refusal;

    /// Refused: [`Refusal::Instruction`] for a form or operation above 10, or for a field that the form does not have and that is not 0.
    fn try_from(fields: raw::Instruction) -> Result<Instruction, Refusal> {
        let raw::Instruction { form, operation, condition, d, s, value } = fields;
        let arithmetic = |operand| {
            let operation = Operation::from_number(operation).ok_or(Refusal::Instruction)?;
            Ok(Instruction::Arithmetic { operation, d, operand })
        };
        let instruction = match form {
            raw::FORM_REGISTER => arithmetic(Operand::Register(s))?,
            raw::FORM_LITERAL => arithmetic(Operand::Literal(value))?,
            raw::FORM_MOVE_H => Instruction::MoveHigh { d },
            raw::FORM_STATUS => Instruction::SetStatus { status: value },
            raw::FORM_JUMP => Instruction::Jump { s },
            raw::FORM_LINK => Instruction::JumpAndLink { d, s },
            raw::FORM_RTI => Instruction::ReturnFromInterrupt { s },
            raw::FORM_LOAD => Instruction::Load { d, s, offset: value },
            raw::FORM_STORE => Instruction::Store { d, s, offset: value },
            raw::FORM_BRANCH => Instruction::Branch { condition, offset: value },
            raw::FORM_CALL => Instruction::Call { offset: value },
            _ => return Err(Refusal::Instruction),
        };
        if raw::Instruction::from(instruction) != fields {
            return Err(Refusal::Instruction);
        }
        Ok(instruction)
    }
}
