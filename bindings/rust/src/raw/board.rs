//! The serial board in the C interface: its structs field by field, its functions, and a safe function over slices for each.
//! Request A1: "A serial board above the core"; "A board field outside its range is refused with 5".
//! All of it is in [`raw`](crate::raw).
use super::Machine;

/// Device 4, serial data. Read: the byte last received, and the received bit is cleared; write: the low eight bits are sent.
pub const DEVICE_SERIAL: u8 = 4;
/// Device 5, the status: [`SERIAL_RECEIVED`] and [`SERIAL_FREE`].
pub const DEVICE_STATUS: u8 = 5;
/// Device 6. Read: the clock count / 116,600; write: clears the tick.
pub const DEVICE_MILLISECONDS: u8 = 6;
/// Device 7. Read: the switches of this clock; write: the low ten bits are the lamps.
pub const DEVICE_PANEL: u8 = 7;

/// Status: a byte was received and not read.
pub const SERIAL_RECEIVED: u32 = 1;
/// Status: the transmitter is free.
pub const SERIAL_FREE: u32 = 2;

/// Clocks of a bit on the serial line.
pub const BIT_CLOCKS: u64 = 1012;
/// Clocks of a frame: a start bit, eight data bits, a stop bit.
pub const FRAME_CLOCKS: u64 = 10_120;
/// Clocks from tick to tick.
pub const TICK_CLOCKS: u64 = 116_600;

/// Given byte: the level of the serial line.
pub const BOARD_LINE: u8 = 1;
/// Given byte: interrupt 1.
pub const BOARD_INTERRUPT_1: u8 = 2;
/// Given byte: stall, which holds the clock.
pub const BOARD_STALL: u8 = 4;

/// `trm_serial`: the transmitter and the receiver.
#[repr(C)]
#[derive(Clone, Copy, PartialEq, Eq, Debug, Default)]
pub struct Serial {
    /// Transmitter: clocks of its frame still to come, 0 to 10,120; 0 if it is free.
    pub left: u64,
    /// Transmitter: the byte last accepted, 0 to 255.
    pub sent: u64,
    /// Receiver: clocks of its frame gone by, 0 to 9,613; 0 if none has begun.
    pub passed: u64,
    /// Receiver: a shift register with its last eight data samples, the latest highest, 0 to 255.
    pub bits: u64,
    /// Receiver: the byte last received, 0 to 255.
    pub byte: u64,
    /// Receiver: the received bit, 0 or 1.
    pub ready: u64,
}

/// `trm_devices`: the board fields.
#[repr(C)]
#[derive(Clone, Copy, PartialEq, Eq, Debug, Default)]
pub struct Devices {
    /// The serial line.
    pub serial: Serial,
    /// The tick, which is interrupt 0: 0 or 1.
    pub tick: u64,
    /// The lamps, 0 to 1,023.
    pub lamps: u64,
}

/// `trm_board`: the board's record. It may hold any bytes; a call refuses an illegal record, or a field outside its range, with 5.
#[repr(C)]
#[derive(Clone, Copy, PartialEq, Eq, Debug)]
pub struct Board {
    /// The machine's record, which [`look`](super::look) and [`copy`](super::copy) take.
    pub machine: Machine,
    /// The board fields.
    pub devices: Devices,
}

const _: () = assert!(std::mem::size_of::<Board>() == 832);

/// `trm_board_reset_answer`.
#[repr(C)]
#[derive(Clone, Copy, PartialEq, Eq, Debug)]
pub struct BoardResetAnswer {
    /// The board after a reset; if refused, one that every call refuses.
    pub board: Board,
    /// The refusal.
    pub number: u32,
}

/// `trm_board_clock_answer`.
#[repr(C)]
#[derive(Clone, Copy, PartialEq, Eq, Debug)]
pub struct BoardClockAnswer {
    /// The board after the clock; if refused, unchanged.
    pub board: Board,
    /// The refusal.
    pub number: u32,
    /// The level sent in this clock, 0 or 1; if refused, 0 and no level.
    pub level: u8,
    /// The access to a device, 0 without one.
    pub byte: u8,
    /// The word moved, 0 without an access.
    pub word: u32,
    /// 1 if the clock finished an instruction.
    pub finished: u64,
}

/// `trm_board_run_answer`.
#[repr(C)]
#[derive(Clone, Copy, PartialEq, Eq, Debug)]
pub struct BoardRunAnswer {
    /// The board after the run; if refused, unchanged.
    pub board: Board,
    /// The refusal.
    pub number: u32,
    /// Clocks run: the number of given bytes.
    pub used: u64,
    /// Instructions finished.
    pub finished: u64,
}

// The functions of trm.h; its head comment says what a caller must guarantee.
extern "C" {
    /// See [`board_size`].
    pub fn trm_board_size() -> usize;
    /// See [`board_reset`].
    pub fn trm_board_reset(store: *const u32, store_words: usize) -> BoardResetAnswer;
    /// See [`board_clock`].
    pub fn trm_board_clock(
        board: Board,
        program: *const u32,
        program_words: usize,
        store: *mut u32,
        store_words: usize,
        given: u8,
        switches: u8,
    ) -> BoardClockAnswer;
    /// See [`board_clock_joined`].
    pub fn trm_board_clock_joined(
        board: Board,
        program: *const u32,
        program_words: usize,
        store: *mut u32,
        store_words: usize,
        given: u8,
        switches: u8,
    ) -> BoardClockAnswer;
    /// See [`board_run`].
    pub fn trm_board_run(
        board: Board,
        program: *const u32,
        program_words: usize,
        store: *mut u32,
        store_words: usize,
        given: *const u8,
        given_length: usize,
        switches: *const u8,
        switches_length: usize,
        levels: *mut u8,
        levels_length: usize,
        bytes: *mut u8,
        bytes_length: usize,
        words: *mut u32,
        words_length: usize,
    ) -> BoardRunAnswer;
    /// See [`board_run_joined`].
    pub fn trm_board_run_joined(
        board: Board,
        program: *const u32,
        program_words: usize,
        store: *mut u32,
        store_words: usize,
        given: *const u8,
        given_length: usize,
        switches: *const u8,
        switches_length: usize,
        levels: *mut u8,
        levels_length: usize,
        bytes: *mut u8,
        bytes_length: usize,
        words: *mut u32,
        words_length: usize,
    ) -> BoardRunAnswer;
}

// SAFETY, for every call below: a pointer and its length are those of one slice that lives until the call returns, and what may be
// written comes from a `&mut`, which overlaps nothing. trm.h requires no more of a caller.

/// The size of a board in bytes in the linked library.
pub fn board_size() -> usize {
    unsafe { trm_board_size() }
}

/// The board after a reset, for this store. Refused with 4 if the store's length is not a power of two from 64 to 32,768.
pub fn board_reset(store: &[u32]) -> BoardResetAnswer {
    unsafe { trm_board_reset(store.as_ptr(), store.len()) }
}

/// Runs one clock of a board. Refused with 3 (program), 4 (store), 5 (record, board field), 6 (given byte above 7), 8 (clock count).
pub fn board_clock(board: &Board, program: &[u32], store: &mut [u32], given: u8, switches: u8) -> BoardClockAnswer {
    let (words, lent) = (program.len(), store.len());
    unsafe { trm_board_clock(*board, program.as_ptr(), words, store.as_mut_ptr(), lent, given, switches) }
}

/// Runs one clock with the line joined to itself: bit 0 of `given` is not looked at. Refused like [`board_clock`].
pub fn board_clock_joined(
    board: &Board,
    program: &[u32],
    store: &mut [u32],
    given: u8,
    switches: u8,
) -> BoardClockAnswer {
    let (words, lent) = (program.len(), store.len());
    unsafe { trm_board_clock_joined(*board, program.as_ptr(), words, store.as_mut_ptr(), lent, given, switches) }
}

/// Runs one clock of a board for each given byte. Refused with 3, 4, 5 like [`board_clock`], 6 (given bytes), 7 (length of a buffer),
/// 8 (clock count).
#[allow(clippy::too_many_arguments)]
pub fn board_run(
    board: &Board,
    program: &[u32],
    store: &mut [u32],
    given: &[u8],
    switches: &[u8],
    levels: &mut [u8],
    bytes: &mut [u8],
    words: &mut [u32],
) -> BoardRunAnswer {
    unsafe {
        trm_board_run(
            *board,
            program.as_ptr(),
            program.len(),
            store.as_mut_ptr(),
            store.len(),
            given.as_ptr(),
            given.len(),
            switches.as_ptr(),
            switches.len(),
            levels.as_mut_ptr(),
            levels.len(),
            bytes.as_mut_ptr(),
            bytes.len(),
            words.as_mut_ptr(),
            words.len(),
        )
    }
}

/// Runs clocks with the line joined to itself: bit 0 of each given byte is not looked at. Refused like [`board_run`].
#[allow(clippy::too_many_arguments)]
pub fn board_run_joined(
    board: &Board,
    program: &[u32],
    store: &mut [u32],
    given: &[u8],
    switches: &[u8],
    levels: &mut [u8],
    bytes: &mut [u8],
    words: &mut [u32],
) -> BoardRunAnswer {
    unsafe {
        trm_board_run_joined(
            *board,
            program.as_ptr(),
            program.len(),
            store.as_mut_ptr(),
            store.len(),
            given.as_ptr(),
            given.len(),
            switches.as_ptr(),
            switches.len(),
            levels.as_mut_ptr(),
            levels.len(),
            bytes.as_mut_ptr(),
            bytes.len(),
            words.as_mut_ptr(),
            words.len(),
        )
    }
}
