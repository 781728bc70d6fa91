//! A serial board that owns its machine, with its program and store, and the calls on it.
//! Request A1: "A serial board above the core".
//! Its record is always one that the library accepts; a refused call changes nothing.
use crate::access::{accesses, Access};
use crate::given::Given;
use crate::machine::{Machine, Totals};
use crate::raw;
use crate::refusal::{accepted, Refusal};
use std::fmt::{Display, Formatter, Result as Written};

/// A machine on a board with a serial line, a tick, eight switches and ten lamps.
///
/// | device | read | write |
/// |---|---|---|
/// | 4 | the byte last received; clears the received bit | sends the low eight bits, if the transmitter is free |
/// | 5 | status: bit 0 byte received, bit 1 transmitter free | |
/// | 6 | milliseconds: the clock count / 116,600 | clears the tick |
/// | 7 | the eight switches | the low ten bits are the lamps |
///
/// The tick is interrupt 0. A frame on the line has a low start bit, eight data bits, lowest first, and a high stop bit, 1,012 clocks each.
///
/// ```
/// use trm::{Access, Board, Given};
///
/// // NOT R1, 63 makes FFFFFFC0H, device 0; MOV R0, 65; ST R0, [R1+4]; LD R2, [R1+4]; B .
/// let mut board = Board::new(vec![0x0483F, 0x00041, 0x34021, 0x31021, 0x3BBFF], vec![0; 64])?;
/// board.clock_joined(Given::LOW, 0)?;
/// board.clock_joined(Given::LOW, 0)?;
/// assert!(board.transmitter_free());
/// let sent = board.clock_joined(Given::LOW, 0)?;
/// assert_eq!(sent.access, Some(Access::Write { device: 4, word: 65 }));
/// assert_eq!((board.sending(), board.received()), (Some(65), None));
/// // The stop bit is sampled in clock 9 * 1,012 + 506 of the frame.
/// board.run_joined(&[0; 9614], &[0; 9614])?;
/// assert_eq!((board.sending(), board.received()), (Some(65), Some(65)));
/// # Ok::<(), trm::Refusal>(())
/// ```
#[derive(Clone, PartialEq, Eq, Debug)]
pub struct Board {
    machine: Machine,
    devices: raw::Devices,
}

/// What one clock of a board did.
#[derive(Clone, Copy, PartialEq, Eq, Hash, Debug)]
pub struct BoardClocked {
    /// Whether the level sent in this clock was high.
    pub level: bool,
    /// The device access, if there was one.
    pub access: Option<Access>,
    /// Whether the clock finished an instruction.
    pub finished: bool,
}

/// What a run of a board did: its totals, and for each clock the level sent, the answer byte and the word read or written.
#[derive(Clone, PartialEq, Eq, Hash, Debug)]
pub struct BoardRan {
    /// Clocks and instructions.
    pub totals: Totals,
    /// For each clock the level sent, 0 or 1.
    pub levels: Vec<u8>,
    /// For each clock: bit 0 read, bit 1 write, bits 2-7 the device; 0 without an access. [`watch`](crate::watch) takes them.
    pub bytes: Vec<u8>,
    /// For each clock the word read or written; 0 without an access.
    pub words: Vec<u32>,
}

impl BoardRan {
    /// The device accesses, each with its clock, counted from 0.
    pub fn accesses(&self) -> impl Iterator<Item = (usize, Access)> + '_ {
        accesses(&self.bytes, &self.words)
    }
}

/// A clock and a run of the C interface, the line given or joined.
type ClockCall = fn(&raw::Board, &[u32], &mut [u32], u8, u8) -> raw::BoardClockAnswer;
type RunCall =
    fn(&raw::Board, &[u32], &mut [u32], &[u8], &[u8], &mut [u8], &mut [u8], &mut [u32]) -> raw::BoardRunAnswer;

impl Board {
    /// A board after reset: the machine as after a reset, every device zero, the store as given.
    /// Refused: [`Refusal::Program`], [`Refusal::Store`].
    pub fn new(program: Vec<u32>, store: Vec<u32>) -> Result<Board, Refusal> {
        Board::from_parts(raw::board_reset(&store).board, program, store)
    }

    /// A board that continues from a record. Refused: [`Refusal::Program`], [`Refusal::Store`], [`Refusal::Record`].
    ///
    /// ```
    /// use trm::{Board, Refusal};
    ///
    /// let (mut record, program, store) = Board::new(vec![0x3BBFF], vec![0; 64])?.into_parts();
    /// record.devices.lamps = 1023;
    /// let board = Board::from_parts(record, program.clone(), store.clone())?;
    /// assert_eq!(board.lamps(), 1023);
    /// record.devices.lamps = 1024;
    /// assert_eq!(Board::from_parts(record, program, store), Err(Refusal::Record));
    /// # Ok::<(), trm::Refusal>(())
    /// ```
    pub fn from_parts(record: raw::Board, program: Vec<u32>, mut store: Vec<u32>) -> Result<Board, Refusal> {
        // A run of 0 clocks checks the program, the store and the record, and changes nothing.
        let judged = raw::board_run(&record, &program, &mut store, &[], &[], &mut [], &mut [], &mut []);
        accepted(judged.number)?;
        let machine = Machine::from_parts(record.machine, program, store)?;
        Ok(Board { machine, devices: record.devices })
    }

    /// The record, the program and the store.
    pub fn into_parts(self) -> (raw::Board, Vec<u32>, Vec<u32>) {
        let record = self.record();
        let (_, program, store) = self.machine.into_parts();
        (record, program, store)
    }

    /// Resets the board: machine and devices. The store keeps its contents; what only the cache held is lost.
    pub fn reset(&mut self) {
        let (record, _, store) = self.machine.lent();
        let board = raw::board_reset(store).board;
        *record = board.machine;
        self.devices = board.devices;
    }

    fn step(&mut self, call: ClockCall, given: Given, switches: u8) -> Result<BoardClocked, Refusal> {
        let before = self.record();
        let (record, program, store) = self.machine.lent();
        let answer = call(&before, program, store, given.byte(), switches);
        accepted(answer.number)?;
        *record = answer.board.machine;
        self.devices = answer.board.devices;
        let access = Access::from_answer(answer.byte, answer.word);
        Ok(BoardClocked { level: answer.level == 1, access, finished: answer.finished == 1 })
    }

    /// Runs one clock. Refused: [`Refusal::Clocks`].
    ///
    /// ```
    /// use trm::{Access, Board, Given};
    ///
    /// // NOT R1, 63; LD R0, [R1+7]; ST R0, [R1+7]: the lamps show the switches of the clock that reads them.
    /// let mut board = Board::new(vec![0x0483F, 0x30039, 0x34039], vec![0; 64])?;
    /// board.clock(Given::HIGH, 0b0000_0001)?;
    /// board.clock(Given::HIGH, 0b0000_0011)?;
    /// let read = board.clock(Given::HIGH, 0b0000_0111)?;
    /// assert_eq!(read.access, Some(Access::Read { device: 7, word: 0b0000_0111 }));
    /// board.clock(Given::HIGH, 0)?;
    /// assert_eq!(board.lamps(), 0b0000_0111);
    /// # Ok::<(), trm::Refusal>(())
    /// ```
    pub fn clock(&mut self, given: Given, switches: u8) -> Result<BoardClocked, Refusal> {
        self.step(raw::board_clock, given, switches)
    }

    /// Runs one clock with the line joined to itself: the level sent in this clock is also its line, that of `given` is not looked at.
    /// A caller who gives the level of one clock to the next is one clock late. Refused: [`Refusal::Clocks`].
    pub fn clock_joined(&mut self, given: Given, switches: u8) -> Result<BoardClocked, Refusal> {
        self.step(raw::board_clock_joined, given, switches)
    }

    /// Runs one clock for each given byte ([`Given::byte`]), with the switches of the same index; at most 65,536.
    /// Refused: [`Refusal::LineBytes`], [`Refusal::Clocks`].
    pub fn run(&mut self, given: &[u8], switches: &[u8]) -> Result<BoardRan, Refusal> {
        self.steps(raw::board_run, given, switches)
    }

    /// Runs like [`Board::run`], with the line joined to itself: the level sent in a clock is also its line. Refused like [`Board::run`].
    pub fn run_joined(&mut self, given: &[u8], switches: &[u8]) -> Result<BoardRan, Refusal> {
        self.steps(raw::board_run_joined, given, switches)
    }

    fn steps(&mut self, call: RunCall, given: &[u8], switches: &[u8]) -> Result<BoardRan, Refusal> {
        let (mut levels, mut bytes, mut words) = (vec![0; given.len()], vec![0; given.len()], vec![0; given.len()]);
        let totals = self.steps_into(call, given, switches, &mut levels, &mut bytes, &mut words)?;
        Ok(BoardRan { totals, levels, bytes, words })
    }

    /// Runs like [`Board::run`], but writes levels, answer bytes and words to buffers as long as the run.
    /// Refused: [`Refusal::LineBytes`], [`Refusal::Buffers`], [`Refusal::Clocks`]; the buffers are then unchanged.
    pub fn run_into(
        &mut self,
        given: &[u8],
        switches: &[u8],
        levels: &mut [u8],
        bytes: &mut [u8],
        words: &mut [u32],
    ) -> Result<Totals, Refusal> {
        self.steps_into(raw::board_run, given, switches, levels, bytes, words)
    }

    /// Runs like [`Board::run_joined`], but writes to buffers like [`Board::run_into`], and is refused like it.
    pub fn run_joined_into(
        &mut self,
        given: &[u8],
        switches: &[u8],
        levels: &mut [u8],
        bytes: &mut [u8],
        words: &mut [u32],
    ) -> Result<Totals, Refusal> {
        self.steps_into(raw::board_run_joined, given, switches, levels, bytes, words)
    }

    fn steps_into(
        &mut self,
        call: RunCall,
        given: &[u8],
        switches: &[u8],
        levels: &mut [u8],
        bytes: &mut [u8],
        words: &mut [u32],
    ) -> Result<Totals, Refusal> {
        let before = self.record();
        let (record, program, store) = self.machine.lent();
        let answer = call(&before, program, store, given, switches, levels, bytes, words);
        accepted(answer.number)?;
        *record = answer.board.machine;
        self.devices = answer.board.devices;
        Ok(Totals { used: answer.used, finished: answer.finished })
    }

    /// The machine on the board: its registers, its memory ([`Machine::look`], [`Machine::memory`]), its counts, its program and store.
    pub fn machine(&self) -> &Machine {
        &self.machine
    }

    /// The byte received and not yet read, if the received bit is set.
    pub fn received(&self) -> Option<u8> {
        (self.devices.serial.ready == 1).then_some(self.last_byte())
    }

    /// Device 4: the byte last received, read or not; 0 after a reset.
    pub fn last_byte(&self) -> u8 {
        self.devices.serial.byte as u8
    }

    /// The byte whose frame is being sent; `None` if the transmitter is free.
    pub fn sending(&self) -> Option<u8> {
        (!self.transmitter_free()).then_some(self.devices.serial.sent as u8)
    }

    /// Whether the transmitter is free, so that a write to device 4 in the next clock is accepted.
    pub fn transmitter_free(&self) -> bool {
        self.devices.serial.left == 0
    }

    /// Device 5 as a read in the next clock shows it: [`raw::SERIAL_RECEIVED`] and [`raw::SERIAL_FREE`].
    pub fn status(&self) -> u32 {
        let received = if self.received().is_some() { raw::SERIAL_RECEIVED } else { 0 };
        let free = if self.transmitter_free() { raw::SERIAL_FREE } else { 0 };
        received | free
    }

    /// Whether the level that the next clock sends is high: it depends on the board alone, not on what the clock is given. To join two
    /// boards to each other, give each the level of the other.
    pub fn level(&self) -> bool {
        let raw::Serial { left, sent, .. } = self.devices.serial;
        let frame = 0x600 | sent << 1; // the start bit, eight data bits, the stop bit, and the level of a free transmitter
        frame >> ((raw::FRAME_CLOCKS - left) / raw::BIT_CLOCKS) & 1 == 1
    }

    /// Device 6 as a read in the next clock shows it: the clock count / 116,600, rounded down.
    pub fn milliseconds(&self) -> u32 {
        (self.machine.record().clocks / raw::TICK_CLOCKS) as u32
    }

    /// Whether the tick, which is interrupt 0, is high.
    pub fn tick(&self) -> bool {
        self.devices.tick == 1
    }

    /// The ten lamps, lamp 0 in bit 0.
    pub fn lamps(&self) -> u16 {
        self.devices.lamps as u16
    }

    /// The record: the machine's, and the board fields.
    pub fn record(&self) -> raw::Board {
        raw::Board { machine: *self.machine.record(), devices: self.devices }
    }
}

impl Display for Board {
    /// The machine's four lines, and one for the devices.
    fn fmt(&self, to: &mut Formatter) -> Written {
        writeln!(to, "{}", self.machine)?;
        match self.sending() {
            Some(byte) => write!(to, "sending {byte:02X}, {} clocks left", self.devices.serial.left)?,
            None => write!(to, "transmitter free")?,
        }
        let read = if self.received().is_some() { "not read" } else { "read" };
        let (byte, tick, lamps) = (self.last_byte(), self.devices.tick, self.lamps());
        write!(to, "; received {byte:02X}, {read}; tick {tick}; lamps {lamps:010b}")
    }
}
