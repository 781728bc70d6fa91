//! Parts of a machine's record as Rust types: flags, status, phase and counts.
//! Paper: "What a programmer sees"; "The record holds phase and count".
//! Each is read from an accepted record, whose fields are within their widths.
use crate::raw;
use std::fmt::{Display, Formatter, Result as Written};

/// The four flags.
#[derive(Clone, Copy, PartialEq, Eq, Hash, Debug, Default)]
pub struct Flags {
    /// The last result was negative.
    pub n: bool,
    /// The last result was zero.
    pub z: bool,
    /// After ADD: the carry out of bit 31. After SUB: B is at or above A without sign. After ROR: bit 0 of the result.
    pub c: bool,
    /// After ADD and SUB: the exact signed result does not fit 32 bits.
    pub v: bool,
}

impl Flags {
    pub(crate) fn of(record: &raw::Machine) -> Flags {
        Flags { n: record.n == 1, z: record.z == 1, c: record.c == 1, v: record.v == 1 }
    }
}

impl Display for Flags {
    /// The letters of the flags that are set, `-` for each of the others: `N-C-`.
    fn fmt(&self, to: &mut Formatter) -> Written {
        for (flag, letter) in [(self.n, "N"), (self.z, "Z"), (self.c, "C"), (self.v, "V")] {
            to.write_str(if flag { letter } else { "-" })?;
        }
        Ok(())
    }
}

/// The four status bits.
#[derive(Clone, Copy, PartialEq, Eq, Hash, Debug, Default)]
pub struct Status {
    /// Bits 0 and 1: whether interrupt 0 and interrupt 1 are enabled.
    pub enables: [bool; 2],
    /// Bit 2: the mode, 0 or 1. It selects the bank, and in mode 1 no interrupt is taken.
    pub mode: u8,
    /// Bit 3: whether the cache is on.
    pub cache_on: bool,
}

impl Status {
    pub(crate) fn of(record: &raw::Machine) -> Status {
        let bit = |place: u32| record.status >> place & 1 == 1;
        Status { enables: [bit(0), bit(1)], mode: bit(2).into(), cache_on: bit(3) }
    }
}

impl Display for Status {
    /// In words: `mode 0, cache on, interrupts 01 enabled`, a `-` for each interrupt that is not.
    fn fmt(&self, to: &mut Formatter) -> Written {
        let cache = if self.cache_on { "on" } else { "off" };
        let first = if self.enables[0] { '0' } else { '-' };
        let second = if self.enables[1] { '1' } else { '-' };
        write!(to, "mode {}, cache {cache}, interrupts {first}{second} enabled", self.mode)
    }
}

/// The phase of an instruction. `done` is the number of clocks of the phase that are done.
#[derive(Clone, Copy, PartialEq, Eq, Hash, Debug)]
pub enum Phase {
    /// No instruction is in flight: the next clock takes an interrupt or begins an instruction.
    Ready,
    /// MUL or DIV is being computed.
    Arithmetic {
        /// 1 to 32.
        done: u8,
    },
    /// A dirty cache line is written back.
    WriteBack {
        /// 0 to 9.
        done: u8,
    },
    /// A cache line is filled with a block.
    Refill {
        /// 0 to 9.
        done: u8,
    },
    /// LD or ST waits for memory with the cache off.
    UncachedWait {
        /// 1 to 5.
        done: u8,
    },
    /// The next clock that is not held is the instruction's last.
    LastClock,
}

impl Phase {
    pub(crate) fn of(record: &raw::Machine) -> Phase {
        let done = record.count as u8;
        match record.phase {
            0 => Phase::Ready,
            1 => Phase::Arithmetic { done },
            2 => Phase::WriteBack { done },
            3 => Phase::Refill { done },
            4 => Phase::UncachedWait { done },
            _ => Phase::LastClock,
        }
    }
}

impl Display for Phase {
    /// In words: `ready`, `refill, 3 clocks done`.
    fn fmt(&self, to: &mut Formatter) -> Written {
        match self {
            Phase::Ready => write!(to, "ready"),
            Phase::Arithmetic { done } => write!(to, "arithmetic, {done} clocks done"),
            Phase::WriteBack { done } => write!(to, "write-back, {done} clocks done"),
            Phase::Refill { done } => write!(to, "refill, {done} clocks done"),
            Phase::UncachedWait { done } => write!(to, "uncached wait, {done} clocks done"),
            Phase::LastClock => write!(to, "last clock due"),
        }
    }
}

/// What the record counts since reset.
#[derive(Clone, Copy, PartialEq, Eq, Hash, Debug, Default)]
pub struct Counts {
    /// Clocks, held ones included.
    pub clocks: u64,
    /// Held clocks.
    pub held: u64,
    /// Finished refills.
    pub refills: u64,
    /// Finished write-backs.
    pub writebacks: u64,
}

impl Counts {
    pub(crate) fn of(record: &raw::Machine) -> Counts {
        let raw::Machine { clocks, held, refills, writebacks, .. } = *record;
        Counts { clocks, held, refills, writebacks }
    }
}

impl Display for Counts {
    /// As in the last row of a listing: `end 40 held 0 refills 0 writebacks 0` without the first word.
    fn fmt(&self, to: &mut Formatter) -> Written {
        let Counts { clocks, held, refills, writebacks } = self;
        write!(to, "{clocks} held {held} refills {refills} writebacks {writebacks}")
    }
}
