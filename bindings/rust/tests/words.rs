// Every word of 18 bits decoded and encoded, the typed calls compared with the raw ones, and instructions as text.
// Paper: "What a programmer sees"; "Unused bits encode as zero; RTI encodes as 01".
// The unused bits are written here from the paper a second time.
use trm::{decode, raw, Instruction, Operand, Operation, Refusal};

/// The bits that the format of a word uses.
fn used(word: u32) -> u32 {
    let (operation, register) = (word >> 14, word & 0x400 != 0);
    match operation {
        0 if word & 0x408 == 0x408 => 0x3FC08,
        0..=10 if register => 0x3FC07,
        11 if !register => 0x3C40F,
        11 if word & 0x100 != 0 => 0x3C507,
        11 if word & 0x200 != 0 => 0x3FF07,
        11 => 0x3C707,
        15 => 0x3CFFF,
        _ => 0x3FFFF,
    }
}

#[test]
fn s1_30_decode_and_encode_are_inverse_on_every_word() {
    let mut canonical = 0;
    for word in 0..0x40000 {
        let fields = raw::decode(word).instruction;
        let instruction = decode(word).unwrap();
        assert_eq!(raw::Instruction::from(instruction), fields, "{word:05X}H");
        assert_eq!(Instruction::try_from(fields), Ok(instruction), "{word:05X}H");
        let encoded = instruction.encode().unwrap();
        assert_eq!(encoded, word & used(word), "{word:05X}H");
        assert_eq!(raw::encode(fields).word, encoded, "{word:05X}H");
        assert_eq!(decode(encoded), Ok(instruction), "{word:05X}H");
        canonical += u32::from(encoded == word);
    }
    // Operations 0-10 with register and literal, MOV H, status, jump, link, RTI, LD and ST, branch, call.
    let instructions = 11 * 8 * (8 + 1024) + 8 + 16 + 8 + 64 + 8 + 2 * 8 * 8 * 256 + 16 * 1024 + 4096;
    assert_eq!(canonical, instructions);
}

#[test]
fn s1_4_numbers_and_operations() {
    for (number, operation) in (0..).zip(Operation::ALL) {
        assert_eq!((operation.number(), Operation::from_number(number)), (number, Some(operation)));
        let moved = Instruction::Arithmetic { operation, d: 3, operand: Operand::Register(5) };
        assert_eq!(moved.encode(), Ok(number << 14 | 3 << 11 | 1 << 10 | 5));
    }
    assert_eq!(Operation::from_number(11), None);
}

#[test]
fn s3_12_fields_that_no_instruction_has_are_refused() {
    let none = raw::Instruction::default();
    for fields in [
        raw::Instruction { form: 11, ..none },
        raw::Instruction { form: raw::FORM_REGISTER, operation: 11, ..none },
        raw::Instruction { form: raw::FORM_JUMP, d: 1, ..none },
        raw::Instruction { form: raw::FORM_CALL, condition: 14, ..none },
    ] {
        assert_eq!(Instruction::try_from(fields), Err(Refusal::Instruction), "{fields:?}");
    }
}

#[test]
fn instructions_as_text() {
    let texts = [
        (0x00005, "MOV R0, 5"),
        (0x20003, "MUL R0, 3"),
        (0x2BC07, "ROR R7, R7"),
        (0x00C08, "MOV R1, H"),
        (0x2C008, "LDPSR 8"),
        (0x2C401, "BR R1"),
        (0x2D601, "BR R2, R1"),
        (0x2C507, "RTI R7"),
        (0x3081A, "LD R1, [R2+3]"),
        (0x34801, "ST R1, [R1]"),
        (0x3081F, "LD R1, [3]"),
        (0x387FB, "BNE .-4"),
        (0x38001, "BEQ .+2"),
        (0x3BBFF, "B ."),
        (0x3BC00, "NOP"),
        (0x3BE00, "BF .-511"),
        (0x3C008, "BL .+9"),
        (0x3CFFF, "BL .+4096"),
    ];
    for (word, text) in texts {
        assert_eq!(decode(word).unwrap().to_string(), text, "{word:05X}H");
    }
}

/// Instructions that do not encode have text too.
#[test]
fn fields_outside_their_width_have_a_text() {
    let branch = Instruction::Branch { condition: u32::MAX, offset: u32::MAX };
    assert_eq!(branch.to_string(), "B? .");
    assert_eq!(Instruction::Call { offset: u32::MAX }.to_string(), "BL .+4294967296");
}
