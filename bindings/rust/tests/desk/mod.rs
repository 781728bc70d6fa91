// What the tests of the board share: programs that use its devices, boards in a chosen state, and a log of the serial line.
// Request A1: "A serial board above the core".
// R1 of both banks holds the address of device 0, unless a program sets it.
#![allow(dead_code)]
use trm::Instruction::{Arithmetic, Branch, Load, SetStatus, Store};
use trm::{raw, Access, Board, BoardClocked, Given, Instruction, Operand, Operation};

/// FFC0H, the address of device 0.
pub const DEVICES: u32 = 0xFFC0;
/// B .: two clocks each.
pub const STAY: Instruction = Branch { condition: 14, offset: 1023 };
/// Branch never: one clock each.
pub const NOP: Instruction = Branch { condition: 15, offset: 0 };

/// R.d := the word of a device.
pub fn read(d: u32, device: u8) -> Instruction {
    Load { d, s: 1, offset: device.into() }
}

/// The word of a device := R.d.
pub fn write(d: u32, device: u8) -> Instruction {
    Store { d, s: 1, offset: device.into() }
}

pub fn literal(operation: Operation, d: u32, value: u32) -> Instruction {
    Arithmetic { operation, d, operand: Operand::Literal(value) }
}

pub fn status(status: u32) -> Instruction {
    SetStatus { status }
}

/// A branch at one address to another.
pub fn branch(condition: u32, at: u32, to: u32) -> Instruction {
    Branch { condition, offset: to.wrapping_sub(at + 1) & 0x3FF }
}

pub fn words(program: &[Instruction]) -> Vec<u32> {
    program.iter().map(|instruction| instruction.encode().unwrap()).collect()
}

/// A board after reset, but for R1, and for what `set` changes.
pub fn board(program: &[Instruction], set: impl FnOnce(&mut raw::Board)) -> Board {
    let (mut record, program, store) = Board::new(words(program), vec![0; 64]).unwrap().into_parts();
    (record.machine.regs[1], record.machine.regs[9]) = (DEVICES, DEVICES);
    set(&mut record);
    Board::from_parts(record, program, store).unwrap()
}

/// Clocks with the line high and all switches off.
pub fn idle(board: &mut Board, clocks: usize) {
    for given in vec![Given::HIGH.byte(); clocks].chunks(65536) {
        board.run(given, &vec![0; given.len()]).unwrap();
    }
}

/// The second clock of an LD that begins now, with the line high.
pub fn load(board: &mut Board) -> BoardClocked {
    board.clock(Given::HIGH, 0).unwrap();
    board.clock(Given::HIGH, 0).unwrap()
}

/// The level of bit 0 to 9 of a frame.
pub fn bit(byte: u8, place: u64) -> bool {
    (0x200 | u64::from(byte) << 1) >> place & 1 == 1
}

/// What happened on the serial line, each with the number of its clock.
#[derive(Default)]
pub struct Log {
    /// Writes to device 4 in clocks that began with the transmitter free.
    pub accepted: Vec<(u64, u8)>,
    /// Writes in other clocks.
    pub dropped: Vec<(u64, u8)>,
    /// Stop samples, with the byte received.
    pub received: Vec<(u64, u8)>,
    /// Reads of device 4 in clocks that began with the received bit set.
    pub handed: Vec<(u64, u8)>,
    /// Bytes that were not read before the next was received.
    pub replaced: Vec<(u64, u8)>,
}

impl Log {
    /// Notes a clock, by the board before it, what it did and the board after it.
    pub fn note(&mut self, before: &Board, clocked: &BoardClocked, after: &Board) {
        let clock = after.machine().counts().clocks;
        let mut unread = before.received();
        match clocked.access {
            Some(Access::Write { device: 4, word }) if before.transmitter_free() => {
                self.accepted.push((clock, word as u8));
            }
            Some(Access::Write { device: 4, word }) => self.dropped.push((clock, word as u8)),
            Some(Access::Read { device: 4, word }) => {
                self.handed.extend(unread.take().map(|_| (clock, word as u8)));
            }
            _ => (),
        }
        if before.record().devices.serial.passed == 9613 {
            self.received.push((clock, after.last_byte()));
            self.replaced.extend(unread.map(|byte| (clock, byte)));
        }
    }

    /// Runs clocks with the line joined to itself until so many bytes are accepted and then so many clocks more.
    pub fn joined(board: &mut Board, accepted: usize, more: u64, given: impl Fn(u64) -> Given) -> Log {
        let mut log = Log::default();
        while log.accepted.len() < accepted || board.machine().counts().clocks < log.accepted[accepted - 1].0 + more {
            let before = board.clone();
            let clocked = board.clock_joined(given(before.machine().counts().clocks + 1), 0).unwrap();
            log.note(&before, &clocked, board);
            assert!(board.machine().counts().clocks < 400_000, "the bytes do not come");
        }
        log
    }
}

/// The bytes of a log's list.
pub fn bytes(list: &[(u64, u8)]) -> Vec<u8> {
    list.iter().map(|&(_, byte)| byte).collect()
}

/// The clocks of a log's list.
pub fn clocks(list: &[(u64, u8)]) -> Vec<u64> {
    list.iter().map(|&(clock, _)| clock).collect()
}
