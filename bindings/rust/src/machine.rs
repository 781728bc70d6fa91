//! A machine that owns its program, its store and its record, and the calls on it.
//! Paper: "Clock by clock"; "Where calls are turned down".
//! Its record is always one that the library accepts with its program and store; a refused call changes nothing.
use crate::access::{accesses, Access};
use crate::line_byte::LineByte;
use crate::raw;
use crate::refusal::{accepted, Refusal};
use crate::state::{Counts, Flags, Phase, Status};
use std::array;
use std::fmt::{Display, Formatter, Result as Written};

/// A Tiny Register Machine with its program and its data memory.
///
/// ```
/// use trm::{Access, LineByte, Machine};
///
/// // NOT R1, 63 makes FFFFFFC0H, device 0 of addresses of 16 bits; LD R0, [R1+5]; ST R0, [R1+7]; B .
/// let mut machine = Machine::new(vec![0x0483F, 0x30029, 0x34039, 0x3BBFF], vec![0; 64])?;
/// assert!(machine.clock(LineByte::NONE, 11)?.finished);
/// assert!(!machine.clock(LineByte::NONE, 22)?.finished); // a load takes two clocks
/// assert_eq!(machine.clock(LineByte::NONE, 33)?.access, Some(Access::Read { device: 5, word: 33 }));
/// assert_eq!(machine.clock(LineByte::NONE, 44)?.access, Some(Access::Write { device: 7, word: 33 }));
/// assert_eq!((machine.pc(), machine.registers()[0]), (3, 33));
/// # Ok::<(), trm::Refusal>(())
/// ```
#[derive(Clone, PartialEq, Eq, Debug)]
pub struct Machine {
    record: raw::Machine,
    program: Vec<u32>,
    store: Vec<u32>,
}

/// What one clock did.
#[derive(Clone, Copy, PartialEq, Eq, Hash, Debug)]
pub struct Clocked {
    /// The device access, if there was one.
    pub access: Option<Access>,
    /// Whether the clock finished an instruction.
    pub finished: bool,
}

/// The totals of a run.
#[derive(Clone, Copy, PartialEq, Eq, Hash, Debug)]
pub struct Totals {
    /// Clocks: the number of line bytes.
    pub used: u64,
    /// Instructions finished, including one that was begun before the run.
    pub finished: u64,
}

/// What a run did: its totals, and for each clock the answer byte and the word read or written.
#[derive(Clone, PartialEq, Eq, Hash, Debug)]
pub struct Ran {
    /// Clocks and instructions.
    pub totals: Totals,
    /// For each clock: bit 0 read, bit 1 write, bits 2-7 the device; 0 without an access. [`watch`](crate::watch) takes them.
    pub bytes: Vec<u8>,
    /// For each clock the word read or written; 0 without an access.
    pub words: Vec<u32>,
}

impl Ran {
    /// The device accesses, each with its clock, counted from 0.
    pub fn accesses(&self) -> impl Iterator<Item = (usize, Access)> + '_ {
        accesses(&self.bytes, &self.words)
    }
}

impl Machine {
    /// A machine after reset: every register and count zero, the cache empty, the store as given.
    /// Refused: [`Refusal::Program`], [`Refusal::Store`].
    pub fn new(program: Vec<u32>, store: Vec<u32>) -> Result<Machine, Refusal> {
        Machine::from_parts(raw::reset(&store).machine, program, store)
    }

    /// A machine that continues from a record. Refused: [`Refusal::Program`], [`Refusal::Store`], [`Refusal::Record`].
    ///
    /// ```
    /// use trm::{Machine, Refusal};
    ///
    /// let (mut record, program, store) = Machine::new(vec![0x00005], vec![0; 64])?.into_parts();
    /// record.regs[1] = 77;
    /// let machine = Machine::from_parts(record, program, store)?;
    /// assert_eq!(machine.registers()[1], 77);
    ///
    /// let (mut record, program, store) = machine.into_parts();
    /// record.pc = 4096; // it has twelve bits
    /// assert_eq!(Machine::from_parts(record, program, store), Err(Refusal::Record));
    /// # Ok::<(), Refusal>(())
    /// ```
    pub fn from_parts(record: raw::Machine, program: Vec<u32>, mut store: Vec<u32>) -> Result<Machine, Refusal> {
        // A run of 0 clocks checks the program, the store and the record, and changes nothing.
        let judged = raw::run(&record, &program, &mut store, &[], &[], &mut [], &mut []);
        accepted(judged.number)?;
        Ok(Machine { record, program, store })
    }

    /// The record, the program and the store.
    pub fn into_parts(self) -> (raw::Machine, Vec<u32>, Vec<u32>) {
        (self.record, self.program, self.store)
    }

    /// The record, the program and the store, lent to a call on a board.
    pub(crate) fn lent(&mut self) -> (&mut raw::Machine, &[u32], &mut [u32]) {
        (&mut self.record, &self.program, &mut self.store)
    }

    /// Resets the machine: every register and count zero, the cache empty. The store keeps its contents; what only the cache held is lost.
    pub fn reset(&mut self) {
        self.record = raw::reset(&self.store).machine;
    }

    /// Runs one clock. Refused: [`Refusal::Clocks`].
    pub fn clock(&mut self, line_byte: LineByte, input: u32) -> Result<Clocked, Refusal> {
        let answer = raw::clock(&mut self.record, &self.program, &mut self.store, line_byte.byte(), input);
        accepted(answer.number)?;
        Ok(Clocked { access: Access::from_answer(answer.byte, answer.word), finished: answer.finished == 1 })
    }

    /// Runs one clock for each line byte, with the input word of the same index; at most 65,536.
    /// Refused: [`Refusal::LineBytes`], [`Refusal::Clocks`].
    ///
    /// ```
    /// use trm::{watch, Access, Machine};
    ///
    /// // The program of the example above, in one call.
    /// let mut machine = Machine::new(vec![0x0483F, 0x30029, 0x34039, 0x3BBFF], vec![0; 64])?;
    /// let ran = machine.run(&[0; 4], &[11, 22, 33, 44])?;
    /// assert_eq!((ran.totals.used, ran.totals.finished), (4, 3));
    /// assert_eq!(ran.accesses().last(), Some((3, Access::Write { device: 7, word: 33 })));
    /// assert_eq!(watch(&ran.bytes, 7), Ok(Some(3)));
    /// # Ok::<(), trm::Refusal>(())
    /// ```
    pub fn run(&mut self, line_bytes: &[u8], inputs: &[u32]) -> Result<Ran, Refusal> {
        let (mut bytes, mut words) = (vec![0; line_bytes.len()], vec![0; line_bytes.len()]);
        let totals = self.run_into(line_bytes, inputs, &mut bytes, &mut words)?;
        Ok(Ran { totals, bytes, words })
    }

    /// Runs like [`Machine::run`], but writes the answer bytes and words to buffers as long as the run.
    /// Refused: [`Refusal::LineBytes`], [`Refusal::Buffers`], [`Refusal::Clocks`]; the buffers are then unchanged.
    pub fn run_into(
        &mut self,
        line_bytes: &[u8],
        inputs: &[u32],
        bytes: &mut [u8],
        words: &mut [u32],
    ) -> Result<Totals, Refusal> {
        let answer = raw::run(&self.record, &self.program, &mut self.store, line_bytes, inputs, bytes, words);
        accepted(answer.number)?;
        self.record = answer.machine;
        Ok(Totals { used: answer.used, finished: answer.finished })
    }

    /// One word of data memory as a program sees it, through the cache. The address is taken modulo the store's length.
    /// Refused: [`Refusal::Address`] for an address above FFBFH.
    pub fn look(&self, address: u32) -> Result<u32, Refusal> {
        let answer = raw::look(&self.record, &self.program, &self.store, address);
        accepted(answer.number)?;
        Ok(answer.word)
    }

    /// All of data memory as a program sees it, through the cache.
    pub fn memory(&self) -> Vec<u32> {
        let mut words = vec![0; self.store.len()];
        let number = raw::copy(&self.record, &self.program, &self.store, &mut words);
        accepted(number).expect("the record is accepted, and the buffer as long as the store");
        words
    }

    /// The address of the instruction in flight, or of the next one: 0 to 4,095.
    pub fn pc(&self) -> u16 {
        self.record.pc as u16
    }

    /// Register 0-7 of bank 0 or 1; `None` for any other.
    pub fn register(&self, bank: usize, number: usize) -> Option<u32> {
        if bank > 1 || number > 7 {
            return None;
        }
        Some(self.record.regs[8 * bank + number])
    }

    /// The registers of the current bank, which the mode selects.
    pub fn registers(&self) -> [u32; 8] {
        self.bank(self.status().mode.into())
    }

    fn bank(&self, bank: usize) -> [u32; 8] {
        array::from_fn(|number| self.record.regs[8 * bank + number])
    }

    /// H: the high word of the last product, or the last remainder.
    pub fn h(&self) -> u32 {
        self.record.h
    }

    /// The flags N, Z, C and V.
    pub fn flags(&self) -> Flags {
        Flags::of(&self.record)
    }

    /// The status: interrupt enables, mode and cache.
    pub fn status(&self) -> Status {
        Status::of(&self.record)
    }

    /// The phase of the current instruction.
    pub fn phase(&self) -> Phase {
        Phase::of(&self.record)
    }

    /// Whether an instruction has begun and not finished.
    pub fn in_flight(&self) -> bool {
        self.phase() != Phase::Ready
    }

    /// Clocks, held clocks, refills and write-backs since reset.
    pub fn counts(&self) -> Counts {
        Counts::of(&self.record)
    }

    /// The record itself.
    pub fn record(&self) -> &raw::Machine {
        &self.record
    }

    /// The program's words; addresses past them read as branch never.
    pub fn program(&self) -> &[u32] {
        &self.program
    }

    /// The store, without what only the cache holds: see [`Machine::memory`].
    pub fn store(&self) -> &[u32] {
        &self.store
    }
}

impl Display for Machine {
    /// What a programmer sees, the phase and the counts, as four lines of text.
    fn fmt(&self, to: &mut Formatter) -> Written {
        writeln!(to, "PC {:03X}, H {:08X}, flags {}, {}", self.pc(), self.h(), self.flags(), self.status())?;
        for bank in 0..2 {
            write!(to, "bank {bank}:")?;
            for word in self.bank(bank) {
                write!(to, " {word:08X}")?;
            }
            writeln!(to)?;
        }
        write!(to, "{}; clocks {}", self.phase(), self.counts())
    }
}
