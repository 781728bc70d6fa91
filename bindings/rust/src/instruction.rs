//! Instructions as values, and the calls that decode words and encode instructions.
//! Paper: "What a programmer sees", the format of each operation; rows 3 and 10 of the refusals.
//! Every field is a u32 with the number that the word holds; encode checks its width.
use crate::raw;
use crate::refusal::{accepted, Refusal};

/// The operations 0-10, in the order of their numbers. B is R.d, A the operand; the result goes to R.d.
#[derive(Clone, Copy, PartialEq, Eq, Hash, Debug)]
pub enum Operation {
    /// A.
    Mov,
    /// Not A.
    Not,
    /// B + A.
    Add,
    /// B - A.
    Sub,
    /// B and A.
    And,
    /// B and not A.
    Bic,
    /// B or A.
    Or,
    /// B exclusive-or A.
    Xor,
    /// The low word of B * A, signed; the high word goes to H.
    Mul,
    /// B / A rounded down, signed; the remainder goes to H.
    Div,
    /// B rotated right by A.
    Ror,
}

impl Operation {
    /// Every operation, in the order of their numbers.
    pub const ALL: [Operation; 11] = [
        Operation::Mov,
        Operation::Not,
        Operation::Add,
        Operation::Sub,
        Operation::And,
        Operation::Bic,
        Operation::Or,
        Operation::Xor,
        Operation::Mul,
        Operation::Div,
        Operation::Ror,
    ];

    /// The number, 0 to 10.
    pub const fn number(self) -> u32 {
        self as u32
    }

    /// The operation of this number; none above 10.
    pub fn from_number(number: u32) -> Option<Operation> {
        Operation::ALL.into_iter().find(|operation| operation.number() == number)
    }
}

/// The operand A of operations 0-10.
#[derive(Clone, Copy, PartialEq, Eq, Hash, Debug)]
pub enum Operand {
    /// R.s, 0 to 7.
    Register(u32),
    /// The literal, unsigned, 0 to 1,023.
    Literal(u32),
}

/// An instruction. Registers are 0 to 7.
///
/// As text it is assembly in the notation of `examples/README.md`: `ADD R1, R2`, `MOV R1, 5`, `MOV R1, H`, `LDPSR 8` (status),
/// `BR R1`, `BR R2, R1` (PC+1 to R2), `RTI R7`, `LD R1, [R2+3]`, `LD R1, [3]` (no base), `BNE .-4`, `B .`, `BL .+9`. Numbers
/// are decimal, and `.` is the instruction's own address. Branch never is `NOP`, or `BF` where it has an offset other than 0.
///
/// ```
/// use trm::{decode, Instruction, Operand, Operation};
///
/// let multiply = Instruction::Arithmetic { operation: Operation::Mul, d: 0, operand: Operand::Literal(3) };
/// assert_eq!(multiply.encode(), Ok(0x20003));
/// assert_eq!(decode(0x20003), Ok(multiply));
/// assert_eq!(multiply.to_string(), "MUL R0, 3");
/// ```
#[derive(Clone, Copy, PartialEq, Eq, Hash, Debug)]
pub enum Instruction {
    /// Operations 0-10: R.d := R.d operation A.
    Arithmetic {
        /// The operation.
        operation: Operation,
        /// The destination, and the operand B.
        d: u32,
        /// The operand A.
        operand: Operand,
    },
    /// R.d := H.
    MoveHigh {
        /// The destination.
        d: u32,
    },
    /// Operation 11 with bit 10 clear.
    SetStatus {
        /// The new status, 0 to 15.
        status: u32,
    },
    /// PC := R.s.
    Jump {
        /// The register with the target.
        s: u32,
    },
    /// PC := R.s, and PC+1 to R.d.
    JumpAndLink {
        /// The register for PC+1.
        d: u32,
        /// The register with the target.
        s: u32,
    },
    /// PC and flags from R.s, and mode 0.
    ReturnFromInterrupt {
        /// The register with flags and target.
        s: u32,
    },
    /// R.d := the word at R.s + offset; for s = 7 at offset alone.
    Load {
        /// The destination.
        d: u32,
        /// The base register, or 7 for none.
        s: u32,
        /// 0 to 255.
        offset: u32,
    },
    /// The word at R.s + offset := R.d; for s = 7 at offset alone.
    Store {
        /// The register with the word.
        d: u32,
        /// The base register, or 7 for none.
        s: u32,
        /// 0 to 255.
        offset: u32,
    },
    /// PC := PC + 1 + offset if the condition holds.
    Branch {
        /// 0 to 15: Z; not Z; C; not C; N; not N; V; not V; C and not Z; its opposite; N = V; N other than V; N = V and not Z;
        /// its opposite; always; never.
        condition: u32,
        /// The ten bits of the offset, 0 to 1,023, which the machine reads as signed.
        offset: u32,
    },
    /// R7 := PC + 1, PC := PC + 1 + offset.
    Call {
        /// 0 to 4,095.
        offset: u32,
    },
}

/// Decodes a word. Refused: [`Refusal::Program`] for a word above 3FFFFH.
pub fn decode(word: u32) -> Result<Instruction, Refusal> {
    let answer = raw::decode(word);
    accepted(answer.number)?;
    Instruction::try_from(answer.instruction)
}

impl Instruction {
    /// Encodes the instruction, with its unused bits zero. Refused: [`Refusal::Instruction`] for a field outside its width.
    pub fn encode(self) -> Result<u32, Refusal> {
        let answer = raw::encode(self.into());
        accepted(answer.number)?;
        Ok(answer.word)
    }
}
