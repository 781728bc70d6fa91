// The record that a caller holds between calls: scalars, two register banks, the cache.
// Paper: "What a programmer sees", "Clock by clock" (phase, count, multiplier, divider, counts).
// Fields are wider than in the paper, so that any bytes of a caller fit and are checked (row 5).
use crate::cache::Cache;

// Status bits.
pub const MODE: u32 = 4;
pub const CACHE_ON: u32 = 8;

// Phases.
pub const READY: u64 = 0;
pub const ARITHMETIC: u64 = 1;
pub const WRITE_BACK: u64 = 2;
pub const REFILL: u64 = 3;
pub const UNCACHED: u64 = 4;
pub const LAST: u64 = 5;

/// The four flags, each 0 or 1.
#[derive(Clone, Copy, PartialEq, Eq, Debug, Default)]
pub struct Flags {
    pub n: u64,
    pub z: u64,
    pub c: u64,
    pub v: u64,
}

/// All of the record but registers and cache.
#[derive(Clone, Copy, PartialEq, Eq, Debug, Default)]
pub struct State {
    pub pc: u64,
    pub h: u32,
    pub status: u64,
    pub flags: Flags,
    pub phase: u64,
    pub count: u64,
    /// The multiplier's register, 64 bits in two's complement.
    pub product: u64,
    pub remainder: u64,
    pub quotient: u64,
    /// The store's length at reset.
    pub size: u32,
    pub clocks: u64,
    pub held: u64,
    pub refills: u64,
    pub writebacks: u64,
}

/// The machine between two clocks; registers 0-7 are bank 0, 8-15 bank 1.
#[derive(Clone, PartialEq, Eq, Debug, Default)]
pub struct Record {
    pub state: State,
    pub registers: [u32; 16],
    pub cache: Cache,
}

impl Flags {
    /// The four flags in four bits, N the highest.
    #[inline(always)]
    pub(crate) fn nzcv(self) -> u32 {
        (self.n << 3 | self.z << 2 | self.c << 1 | self.v) as u32
    }
}

impl State {
    /// Index of register `number` (0-7) of the current bank.
    #[inline(always)]
    pub(crate) fn register(&self, number: u32) -> usize {
        (((self.status as u32 & MODE) << 1) | (number & 7)) as usize & 15
    }

    #[inline(always)]
    pub(crate) fn cache_on(&self) -> bool {
        self.status as u32 & CACHE_ON != 0
    }
}
