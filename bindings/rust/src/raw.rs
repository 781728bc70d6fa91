//! The C interface, `include/trm.h`: its structs field by field, its functions, and a safe function over slices for each.
//! Paper: the record and the calls of "Clock by clock"; the numbers of "Where calls are turned down"; images.
//! In every answer `number` is 0 for an accepted call or the number of a [`Refusal`](crate::Refusal). All unsafe code is in this module.
#![allow(unsafe_code)]

mod board;

pub use board::*;

/// The version of the record and of this interface that this package is written for; see [`record_version`].
pub const RECORD_VERSION: u32 = 3;

/// Line byte: interrupt 0.
pub const LINE_INTERRUPT_0: u8 = 1;
/// Line byte: interrupt 1.
pub const LINE_INTERRUPT_1: u8 = 2;
/// Line byte: stall, which holds the clock.
pub const LINE_STALL: u8 = 4;

/// Answer byte: the device, byte / 4, was read.
pub const ANSWER_READ: u8 = 1;
/// Answer byte: the device, byte / 4, was written.
pub const ANSWER_WRITE: u8 = 2;

/// Form: operation 0-10, `d`, `s`.
pub const FORM_REGISTER: u32 = 0;
/// Form: operation 0-10, `d`, `value` (the literal, 0 to 1,023).
pub const FORM_LITERAL: u32 = 1;
/// Form: R.d := H.
pub const FORM_MOVE_H: u32 = 2;
/// Form: `value` is the new status, 0 to 15.
pub const FORM_STATUS: u32 = 3;
/// Form: PC := R.s.
pub const FORM_JUMP: u32 = 4;
/// Form: PC := R.s, and PC+1 to R.d.
pub const FORM_LINK: u32 = 5;
/// Form: return from interrupt by R.s.
pub const FORM_RTI: u32 = 6;
/// Form: `d`, `s`, `value` (the offset, 0 to 255).
pub const FORM_LOAD: u32 = 7;
/// Form: `d`, `s`, `value` (the offset, 0 to 255).
pub const FORM_STORE: u32 = 8;
/// Form: `condition` 0-15, `value` (the ten bits of the offset, which are signed).
pub const FORM_BRANCH: u32 = 9;
/// Form: `value` is the offset, 0 to 4,095.
pub const FORM_CALL: u32 = 10;

/// `trm_machine`: the machine record. It may hold any bytes; a call checks it and refuses an illegal record with 5.
#[repr(C)]
#[derive(Clone, Copy, PartialEq, Eq, Debug)]
pub struct Machine {
    /// Bit 0: interrupt 0 enabled; 1: interrupt 1 enabled; 2: mode, selects the register bank; 3: cache on.
    pub status: u64,
    /// The program counter, 0 to 4,095.
    pub pc: u64,
    /// Flag N, 0 or 1 like all flags.
    pub n: u64,
    /// Flag Z.
    pub z: u64,
    /// Flag C.
    pub c: u64,
    /// Flag V.
    pub v: u64,
    /// 0 ready, 1 arithmetic, 2 write-back, 3 refill, 4 uncached wait, 5 last clock due.
    pub phase: u64,
    /// Clocks of this phase that are done.
    pub count: u64,
    /// The multiplier's register.
    pub product: u64,
    /// The divider's remainder.
    pub remainder: u64,
    /// The divider's quotient register.
    pub quotient: u64,
    /// The high word of the last product, or the last remainder.
    pub h: u32,
    /// The store's length at reset.
    pub size: u32,
    /// Clocks since reset.
    pub clocks: u64,
    /// Held clocks, counted in `clocks` too.
    pub held: u64,
    /// Finished refills.
    pub refills: u64,
    /// Finished write-backs.
    pub writebacks: u64,
    /// Bank 0, then bank 1.
    pub regs: [u32; 16],
    /// For each cache line 0 or 1.
    pub full: [u8; 16],
    /// For each cache line 0 or 1.
    pub dirty: [u8; 16],
    /// The block that each cache line holds.
    pub block: [u16; 16],
    /// The words of the cache lines, eight per line.
    pub words: [u32; 128],
}

const _: () = assert!(std::mem::size_of::<Machine>() == 768);

/// `trm_instruction`: an instruction as plain numbers. A field that the form does not have is 0.
#[repr(C)]
#[derive(Clone, Copy, PartialEq, Eq, Debug, Default)]
pub struct Instruction {
    /// One of the `FORM_..` constants.
    pub form: u32,
    /// 0 MOV to 10 ROR.
    pub operation: u32,
    /// 0 to 15.
    pub condition: u32,
    /// The destination register.
    pub d: u32,
    /// The source register.
    pub s: u32,
    /// The literal, the status or the offset.
    pub value: u32,
}

/// `trm_reset_answer`.
#[repr(C)]
#[derive(Clone, Copy, PartialEq, Eq, Debug)]
pub struct ResetAnswer {
    /// The record after a reset; if refused, one that every call refuses.
    pub machine: Machine,
    /// The refusal.
    pub number: u32,
}

/// `trm_clock_value_answer`.
#[repr(C)]
#[derive(Clone, Copy, PartialEq, Eq, Debug)]
pub struct ClockValueAnswer {
    /// The record after the clock; if refused, unchanged.
    pub machine: Machine,
    /// The refusal.
    pub number: u32,
    /// The access to a device, 0 without one.
    pub byte: u8,
    /// The word moved, 0 without an access.
    pub word: u32,
    /// 1 if the clock finished an instruction.
    pub finished: u64,
}

/// `trm_clock_answer`.
#[repr(C)]
#[derive(Clone, Copy, PartialEq, Eq, Debug)]
pub struct ClockAnswer {
    /// The refusal.
    pub number: u32,
    /// The access to a device, 0 without one.
    pub byte: u8,
    /// The word moved, 0 without an access.
    pub word: u32,
    /// 1 if the clock finished an instruction.
    pub finished: u64,
}

/// `trm_run_answer`.
#[repr(C)]
#[derive(Clone, Copy, PartialEq, Eq, Debug)]
pub struct RunAnswer {
    /// The record after the run; if refused, unchanged.
    pub machine: Machine,
    /// The refusal.
    pub number: u32,
    /// Clocks run: the number of line bytes.
    pub used: u64,
    /// Instructions finished.
    pub finished: u64,
}

/// `trm_look_answer`.
#[repr(C)]
#[derive(Clone, Copy, PartialEq, Eq, Debug)]
pub struct LookAnswer {
    /// The refusal.
    pub number: u32,
    /// The word of data memory.
    pub word: u32,
}

/// `trm_watch_answer`.
#[repr(C)]
#[derive(Clone, Copy, PartialEq, Eq, Debug)]
pub struct WatchAnswer {
    /// The refusal.
    pub number: u32,
    /// 1 if there is such a clock, else 0.
    pub found: u32,
    /// The clock, counted from 0; 0 if there is none.
    pub clock: u64,
}

/// `trm_decode_answer`.
#[repr(C)]
#[derive(Clone, Copy, PartialEq, Eq, Debug)]
pub struct DecodeAnswer {
    /// The instruction that the word encodes.
    pub instruction: Instruction,
    /// The refusal.
    pub number: u32,
}

/// `trm_encode_answer`.
#[repr(C)]
#[derive(Clone, Copy, PartialEq, Eq, Debug)]
pub struct EncodeAnswer {
    /// The refusal.
    pub number: u32,
    /// The word, its unused bits zero.
    pub word: u32,
}

/// `trm_image_answer`.
#[repr(C)]
#[derive(Clone, Copy, PartialEq, Eq, Debug)]
pub struct ImageAnswer {
    /// The refusal.
    pub number: u32,
    /// The offset where the record at fault begins.
    pub at: u64,
}

/// `trm_part_answer`.
#[repr(C)]
#[derive(Clone, Copy, PartialEq, Eq, Debug)]
pub struct PartAnswer {
    /// The refusal.
    pub number: u32,
    /// The offset in the image where the payload begins.
    pub start: u64,
    /// Its length in bytes.
    pub length: u64,
}

// The functions of trm.h; its head comment says what a caller must guarantee.
extern "C" {
    /// See [`record_size`].
    pub fn trm_record_size() -> usize;
    /// See [`record_version`].
    pub fn trm_record_version() -> u32;
    /// See [`reset`].
    pub fn trm_reset(store: *const u32, store_words: usize) -> ResetAnswer;
    /// See [`clock`].
    pub fn trm_clock(
        machine: *mut Machine,
        program: *const u32,
        program_words: usize,
        store: *mut u32,
        store_words: usize,
        line_byte: u8,
        input: u32,
    ) -> ClockAnswer;
    /// See [`clock_value`].
    pub fn trm_clock_value(
        machine: Machine,
        program: *const u32,
        program_words: usize,
        store: *mut u32,
        store_words: usize,
        line_byte: u8,
        input: u32,
    ) -> ClockValueAnswer;
    /// See [`run`].
    pub fn trm_run(
        machine: Machine,
        program: *const u32,
        program_words: usize,
        store: *mut u32,
        store_words: usize,
        line_bytes: *const u8,
        line_bytes_length: usize,
        inputs: *const u32,
        inputs_length: usize,
        bytes: *mut u8,
        bytes_length: usize,
        words: *mut u32,
        words_length: usize,
    ) -> RunAnswer;
    /// See [`look`].
    pub fn trm_look(
        machine: Machine,
        program: *const u32,
        program_words: usize,
        store: *const u32,
        store_words: usize,
        address: u32,
    ) -> LookAnswer;
    /// See [`copy`].
    pub fn trm_copy(
        machine: Machine,
        program: *const u32,
        program_words: usize,
        store: *const u32,
        store_words: usize,
        buffer: *mut u32,
        buffer_words: usize,
    ) -> u32;
    /// See [`watch`].
    pub fn trm_watch(bytes: *const u8, bytes_length: usize, device: u32) -> WatchAnswer;
    /// See [`decode`].
    pub fn trm_decode(word: u32) -> DecodeAnswer;
    /// See [`encode`].
    pub fn trm_encode(instruction: Instruction) -> EncodeAnswer;
    /// See [`image_check`].
    pub fn trm_image_check(image: *const u8, image_bytes: usize, store_words: usize) -> ImageAnswer;
    /// See [`image_payload`].
    pub fn trm_image_payload(image: *const u8, image_bytes: usize, at: usize) -> PartAnswer;
}

// SAFETY, for every call below: a pointer and its length are those of one slice or reference that lives until the call returns, and
// what may be written comes from a `&mut`, which overlaps nothing. trm.h requires no more of a caller.

/// The size of a record in bytes in the linked library.
pub fn record_size() -> usize {
    unsafe { trm_record_size() }
}

/// The version of the record in the linked library.
pub fn record_version() -> u32 {
    unsafe { trm_record_version() }
}

/// The record after a reset, for this store. Refused with 4 if the store's length is not a power of two from 64 to 32,768.
pub fn reset(store: &[u32]) -> ResetAnswer {
    unsafe { trm_reset(store.as_ptr(), store.len()) }
}

/// Runs one clock on a lent record. Refused with 3 (program), 4 (store), 5 (record), 6 (line byte above 7), 8 (clock count).
pub fn clock(machine: &mut Machine, program: &[u32], store: &mut [u32], line_byte: u8, input: u32) -> ClockAnswer {
    let (words, lent) = (program.len(), store.len());
    unsafe { trm_clock(machine, program.as_ptr(), words, store.as_mut_ptr(), lent, line_byte, input) }
}

/// Runs the same clock with the record by value. Refused like [`clock`].
pub fn clock_value(
    machine: &Machine,
    program: &[u32],
    store: &mut [u32],
    line_byte: u8,
    input: u32,
) -> ClockValueAnswer {
    let (words, lent) = (program.len(), store.len());
    unsafe { trm_clock_value(*machine, program.as_ptr(), words, store.as_mut_ptr(), lent, line_byte, input) }
}

/// Runs one clock for each line byte. Refused with 3, 4, 5 like [`clock`], 6 (line bytes), 7 (length of an answer buffer), 8 (clock count).
pub fn run(
    machine: &Machine,
    program: &[u32],
    store: &mut [u32],
    line_bytes: &[u8],
    inputs: &[u32],
    bytes: &mut [u8],
    words: &mut [u32],
) -> RunAnswer {
    unsafe {
        trm_run(
            *machine,
            program.as_ptr(),
            program.len(),
            store.as_mut_ptr(),
            store.len(),
            line_bytes.as_ptr(),
            line_bytes.len(),
            inputs.as_ptr(),
            inputs.len(),
            bytes.as_mut_ptr(),
            bytes.len(),
            words.as_mut_ptr(),
            words.len(),
        )
    }
}

/// One word of data memory. Refused with 3, 4, 5 like [`clock`], 9 (an address above FFBFH).
pub fn look(machine: &Machine, program: &[u32], store: &[u32], address: u32) -> LookAnswer {
    unsafe { trm_look(*machine, program.as_ptr(), program.len(), store.as_ptr(), store.len(), address) }
}

/// Copies all of data memory to a buffer; returns the number. Refused with 3, 4, 5 like [`clock`], 7 (not as long as the store).
pub fn copy(machine: &Machine, program: &[u32], store: &[u32], buffer: &mut [u32]) -> u32 {
    let (words, lent, wanted) = (program.len(), store.len(), buffer.len());
    unsafe { trm_copy(*machine, program.as_ptr(), words, store.as_ptr(), lent, buffer.as_mut_ptr(), wanted) }
}

/// A clock whose answer byte shows a write to the device. Refused with 9 (a device above 63).
pub fn watch(bytes: &[u8], device: u32) -> WatchAnswer {
    unsafe { trm_watch(bytes.as_ptr(), bytes.len(), device) }
}

/// Decodes a word. Refused with 3 (a word above 3FFFFH).
pub fn decode(word: u32) -> DecodeAnswer {
    unsafe { trm_decode(word) }
}

/// Encodes an instruction. Refused with 10 (a field outside its width).
pub fn encode(instruction: Instruction) -> EncodeAnswer {
    unsafe { trm_encode(instruction) }
}

/// Checks whether an image can be run with a store of `store_words` words. Refused with 1, 2, 3, 4 or 6, by its first fault.
pub fn image_check(image: &[u8], store_words: usize) -> ImageAnswer {
    unsafe { trm_image_check(image.as_ptr(), image.len(), store_words) }
}

/// The payload of the record at offset `at`, by start and length. Refused with 1 (too long, or cut short), 2 (no record begins there).
pub fn image_payload(image: &[u8], at: usize) -> PartAnswer {
    unsafe { trm_image_payload(image.as_ptr(), image.len(), at) }
}
