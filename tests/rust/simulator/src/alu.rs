// Results and flags of the one-clock arithmetic.
// Paper: "What a programmer sees", operations 0-7 and 10, and the paragraph on N, Z, C, V; A2 for C of ADD and SUB.
// Only ADD, SUB and ROR change C; only ADD and SUB change V.
use crate::record::Flags;

/// N and Z, kept as the word they come from: Z if its low half is zero, N by its bit 31 or bit 63.
#[derive(Clone, Copy)]
pub struct Nz(u64);

impl Nz {
    /// From the result of an instruction.
    #[inline(always)]
    pub fn of(result: u32) -> Nz {
        Nz(u64::from(result))
    }

    /// From two flags; bit 63 is for N together with Z, which no result gives.
    #[inline(always)]
    pub fn new(n: u64, z: u64) -> Nz {
        Nz(n << 63 | (z ^ 1))
    }

    #[inline(always)]
    pub fn n(self) -> u64 {
        (self.0 | self.0 >> 32) >> 31 & 1
    }

    #[inline(always)]
    pub fn z(self) -> u64 {
        u64::from(self.0 as u32 == 0)
    }

    /// The four flags in four bits, N the highest.
    #[inline(always)]
    pub fn nzcv(self, c: u64, v: u64) -> u32 {
        (self.n() << 3 | self.z() << 2 | c << 1 | v) as u32
    }
}

/// C is the carry out of bit 31, V that the signed sum does not fit.
#[inline(always)]
pub fn add(flags: &mut Flags, b: u32, a: u32) -> u32 {
    let (result, carry) = b.overflowing_add(a);
    flags.c = u64::from(carry);
    flags.v = u64::from((b as i32).overflowing_add(a as i32).1);
    result
}

/// C is that B is at or above A without sign, V that the signed difference does not fit.
#[inline(always)]
pub fn subtract(flags: &mut Flags, b: u32, a: u32) -> u32 {
    let result = b.wrapping_sub(a);
    flags.c = u64::from(b >= a);
    flags.v = u64::from((b as i32).overflowing_sub(a as i32).1);
    result
}

#[inline(always)]
pub fn rotate(flags: &mut Flags, b: u32, a: u32) -> u32 {
    let result = b.rotate_right(a & 31);
    flags.c = u64::from(result & 1);
    result
}
