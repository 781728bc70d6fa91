// The serial board: the machine with devices 4 to 7, a tick as interrupt 0 and a serial line.
// Paper: A1, "A serial board above the core"; a clock takes the line, the switches, interrupt 1 and stall.
// The machine is asked before each clock which device it will read, so that the reply can be its input word.
// An error is the refusal number; board, store and buffers are then unchanged.
use crate::calls::{self, Ran};
use crate::devices::Access;
pub use crate::devices::{Devices, Serial};
use crate::feed::{Feed, STALL};
use crate::record::Record;
use crate::refuse;
use std::slice::{from_mut, from_ref};

/// Bits of a `given` byte: the serial line; interrupt 1 and stall are those of a line byte.
const LINE: u8 = 1;
const INTERRUPT_1: u8 = 2;

/// The board between two clocks.
#[derive(Clone, PartialEq, Eq, Debug, Default)]
pub struct Board {
    pub machine: Record,
    pub devices: Devices,
}

/// What one clock returns: the level sent, and the machine's answer.
#[derive(Clone, Copy, PartialEq, Eq, Debug, Default)]
pub struct Answer {
    pub level: u8,
    pub byte: u8,
    pub word: u32,
    pub finished: u64,
}

pub fn reset(store: &[u32]) -> Result<Board, u32> {
    Ok(Board { machine: calls::reset(store)?, devices: Devices::default() })
}

pub fn clock(board: &mut Board, program: &[u32], store: &mut [u32], given: u8, switches: u8) -> Result<Answer, u32> {
    one::<false>(board, program, store, given, switches)
}

/// A clock whose line is the level sent in it.
pub fn clock_joined(
    board: &mut Board,
    program: &[u32],
    store: &mut [u32],
    given: u8,
    switches: u8,
) -> Result<Answer, u32> {
    one::<true>(board, program, store, given, switches)
}

#[allow(clippy::too_many_arguments)]
pub fn run(
    board: &mut Board,
    program: &[u32],
    store: &mut [u32],
    given: &[u8],
    switches: &[u8],
    levels: &mut [u8],
    bytes: &mut [u8],
    words: &mut [u32],
) -> Result<Ran, u32> {
    all::<false>(board, program, store, given, switches, levels, bytes, words)
}

/// A run in which the line of each clock is the level sent in it.
#[allow(clippy::too_many_arguments)]
pub fn run_joined(
    board: &mut Board,
    program: &[u32],
    store: &mut [u32],
    given: &[u8],
    switches: &[u8],
    levels: &mut [u8],
    bytes: &mut [u8],
    words: &mut [u32],
) -> Result<Ran, u32> {
    all::<true>(board, program, store, given, switches, levels, bytes, words)
}

/// Rows 3 to 5.
fn common(board: &Board, program: &[u32], size: usize) -> Result<(), u32> {
    refuse::common(&board.machine, program, size)?;
    refuse::devices(&board.devices)
}

fn one<const JOINED: bool>(
    board: &mut Board,
    program: &[u32],
    store: &mut [u32],
    given: u8,
    switches: u8,
) -> Result<Answer, u32> {
    common(board, program, store.len())?;
    refuse::line_byte(given)?;
    refuse::clocks(&board.machine, 1)?;
    let mut answer = Answer::default();
    let Answer { level, byte, word, .. } = &mut answer;
    answer.finished = step::<JOINED>(board, program, store, given, switches, level, byte, word);
    Ok(answer)
}

#[allow(clippy::too_many_arguments)]
fn all<const JOINED: bool>(
    board: &mut Board,
    program: &[u32],
    store: &mut [u32],
    given: &[u8],
    switches: &[u8],
    levels: &mut [u8],
    bytes: &mut [u8],
    words: &mut [u32],
) -> Result<Ran, u32> {
    common(board, program, store.len())?;
    refuse::line_bytes(given, switches.len())?;
    refuse::buffer(levels.len(), given.len())?;
    refuse::buffer(bytes.len(), given.len())?;
    refuse::buffer(words.len(), given.len())?;
    refuse::clocks(&board.machine, given.len())?;
    let mut finished = 0;
    let inputs = given.iter().zip(switches);
    let outputs = levels.iter_mut().zip(bytes).zip(words);
    for ((&given, &switches), ((level, byte), word)) in inputs.zip(outputs) {
        finished += step::<JOINED>(board, program, store, given, switches, level, byte, word);
    }
    Ok(Ran { used: given.len() as u64, finished })
}

/// One clock of a checked board; returns the number of instructions finished.
#[allow(clippy::too_many_arguments)]
#[inline(always)]
fn step<const JOINED: bool>(
    board: &mut Board,
    program: &[u32],
    store: &mut [u32],
    given: u8,
    switches: u8,
    level: &mut u8,
    byte: &mut u8,
    word: &mut u32,
) -> u64 {
    let Board { machine, devices } = board;
    *level = devices.level();
    let line = if JOINED { *level } else { given & LINE };
    let line_byte = devices.tick as u8 | given & (INTERRUPT_1 | STALL);
    let input = match calls::device_due(machine, program, store.len()) {
        Some(device) => devices.reply(device, machine.state.clocks, switches),
        None => 0,
    };
    let feed = Feed::new(from_ref(&line_byte), from_ref(&input), from_mut(byte), from_mut(word));
    let ran = calls::trace(machine, program, store, feed, &mut ());
    devices.clock(Access::of(*byte, *word), line, machine.state.clocks);
    ran.finished
}
