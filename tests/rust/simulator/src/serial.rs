// The step-by-step multiplier and divider, and their results.
// Paper: "Clock by clock", "After k multiplier steps"; operations 8 and 9.
// A step is what one clock of hardware does; the closed formulas are in rule.rs, and the tests compare the two.

/// The multiplier's register before its first step.
#[inline(always)]
pub fn multiply_start(a: u32) -> u64 {
    u64::from(a)
}

/// Step `k` (1-32): the low bit decides whether B is added at the top; the last bit, the sign of A, subtracts B.
#[inline(always)]
pub fn multiply_step(product: u64, b: u32, k: u64) -> u64 {
    let partial = if product & 1 == 1 { i64::from(b as i32) << 31 } else { 0 };
    let shifted = product as i64 >> 1;
    let sum = if k == 32 { shifted.wrapping_sub(partial) } else { shifted.wrapping_add(partial) };
    sum as u64
}

/// The divider's registers as one shift register, the remainder in the high half.
#[inline(always)]
pub fn pair(remainder: u64, quotient: u64) -> u64 {
    remainder << 32 | quotient
}

/// The divider's registers before the first step; both stay zero for A at or below 0.
#[inline(always)]
pub fn divide_start(b: u32, a: u32) -> u64 {
    if a as i32 > 0 {
        pair(0, u64::from((b as i32).unsigned_abs()))
    } else {
        0
    }
}

/// One bit of the dividend's magnitude moves into the remainder, and one quotient bit is shifted in below.
#[inline(always)]
pub fn divide_step(pair: u64, a: u32) -> u64 {
    if a as i32 <= 0 {
        return 0;
    }
    let shifted = pair << 1;
    let (rest, below) = shifted.overflowing_sub(u64::from(a) << 32);
    if below {
        shifted
    } else {
        rest | 1
    }
}

/// R.d and H from the registers after 32 steps: rounded down, remainder 0 to A-1.
#[inline(always)]
pub fn divide_result(pair: u64, b: u32, a: u32) -> (u32, u32) {
    let (rest, ratio) = ((pair >> 32) as u32, pair as u32);
    if a as i32 <= 0 {
        (0, b)
    } else if b as i32 >= 0 {
        (ratio, rest)
    } else if rest == 0 {
        (ratio.wrapping_neg(), 0)
    } else {
        (!ratio, a - rest)
    }
}
