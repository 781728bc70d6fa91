// The combinational part of the data unit: aluRes with its 33 bits, the shifter's three stages, the conditions.
// Source: "The data processing unit", "The Shifter", `cond` of "The control unit". Paper: the conditions of operation 14, C of A2.
// Multiplier and divider have their own modules; their results are inputs here.
use crate::words::{ADD, DIV, MOV, MUL, NOT, SUB};

const AND: u32 = 4;
const BIC: u32 = 5;
const OR: u32 = 6;

/// The decoded operation when there is none: every wire low.
pub const NONE: u32 = 16;

pub struct Operands {
    pub a: u32,
    pub b: u32,
    /// Low word of the product, and the quotient.
    pub product: u32,
    pub quotient: u32,
}

fn extended(word: u32) -> u64 {
    u64::from(word) | u64::from(word >> 31) << 32
}

/// aluRes, 33 bits. Every operation not named here, including ROR, loads and links, takes the path of XOR.
pub fn result(op: u32, from: &Operands) -> u64 {
    const MASK: u64 = 0x1_FFFF_FFFF;
    let (a, b) = (u64::from(from.a), u64::from(from.b));
    match op {
        MOV => a,
        // The operand is widened before it is inverted, so bit 32 is set.
        NOT => !a & MASK,
        ADD => extended(from.b).wrapping_add(extended(from.a)) & MASK,
        SUB => extended(from.b).wrapping_sub(extended(from.a)) & MASK,
        AND => b & a,
        BIC => b & !a,
        OR => b | a,
        MUL => u64::from(from.product),
        DIV => u64::from(from.quotient),
        _ => b ^ a,
    }
}

/// C as document 02 gives it: the carry out of bit 31 of B + A for ADD, of B + not A + 1 for SUB, which is 1 for B at or above A.
pub fn carry(op: u32, a: u32, b: u32) -> bool {
    let (a, b) = (u64::from(if op == SUB { !a } else { a }), u64::from(b));
    (b + a + u64::from(op == SUB)) >> 32 == 1
}

/// s3: B rotated right by A mod 32, in stages of 0-3, of 0, 4, 8 or 12, and of 0 or 16.
pub fn rotated(a: u32, b: u32) -> u32 {
    let stage = |word: u32, places: u32| word.rotate_right(places);
    let s1 = stage(b, a & 3);
    let s2 = stage(s1, a & 12);
    stage(s2, a & 16)
}

/// N, Z, C and V.
#[derive(Clone, Copy, PartialEq, Eq, Debug, Default)]
pub struct Flags {
    pub n: bool,
    pub z: bool,
    pub c: bool,
    pub v: bool,
}

impl Flags {
    pub fn bits(self) -> u32 {
        u32::from(self.n) << 3 | u32::from(self.z) << 2 | u32::from(self.c) << 1 | u32::from(self.v)
    }

    pub fn from_bits(bits: u32) -> Flags {
        Flags { n: bits & 8 != 0, z: bits & 4 != 0, c: bits & 2 != 0, v: bits & 1 != 0 }
    }
}

/// `cond`: one of eight conditions by bits 13-11, inverted by bit 10.
pub fn condition(ir: u32, flags: Flags) -> bool {
    let Flags { n, z, c, v } = flags;
    let s = n ^ v;
    let met = match ir >> 11 & 7 {
        0 => z,
        1 => c,
        2 => n,
        3 => v,
        4 => c & !z,
        5 => !s,
        6 => !(s | z),
        _ => true,
    };
    met ^ (ir >> 10 & 1 == 1)
}

#[cfg(test)]
mod tests {
    use super::*;

    #[test]
    fn s1_14_the_shifter_rotates_by_every_count() {
        for count in 0..64 {
            assert_eq!(rotated(count, 0x8000_4321), 0x8000_4321u32.rotate_right(count % 32));
        }
    }

    #[test]
    fn a2_8_bit_32_is_the_sign_of_the_exact_sum() {
        let sum = |a, b| result(ADD, &Operands { a, b, product: 0, quotient: 0 });
        assert_eq!(sum(0x8000_0000, 0x8000_0000), 0x1_0000_0000);
        assert_eq!(sum(1, 0x7FFF_FFFF), 0x8000_0000);
        assert_eq!(sum(0xFFFF_FFFF, 1), 0);
    }

    #[test]
    fn a2_8_the_carry_given_is_out_of_bit_31_and_no_borrow() {
        let words = [0, 1, 2, 5, 0xFFBF, 0xFFC0, 0x7FFF_FFFF, 0x8000_0000, 0x8000_0001, 0xFFFF_FFFE, 0xFFFF_FFFF];
        for b in words {
            for a in words {
                assert_eq!(carry(ADD, a, b), b.checked_add(a).is_none(), "{b:X}H + {a:X}H");
                assert_eq!(carry(SUB, a, b), b >= a, "{b:X}H - {a:X}H");
            }
        }
    }
}
