// The calls on a record: reset, one clock, a run, a look, a copy.
// Paper: "Clock by clock" from "A run carries out", and "Where calls are turned down".
// An error is the refusal number; record, store and buffers are then unchanged.
use crate::cache::Cache;
use crate::clock::Machine;
use crate::events::Events;
use crate::feed::Feed;
use crate::record::{Record, State, LAST};
use crate::refuse;
use crate::word::{self, Place};

/// What one clock returns: device byte, word moved, and whether it finished an instruction (1 or 0).
#[derive(Clone, Copy, PartialEq, Eq, Debug, Default)]
pub struct Answer {
    pub byte: u8,
    pub word: u32,
    pub finished: u64,
}

/// What a run reports: clocks used and instructions finished.
#[derive(Clone, Copy, PartialEq, Eq, Debug, Default)]
pub struct Ran {
    pub used: u64,
    pub finished: u64,
}

pub fn reset(store: &[u32]) -> Result<Record, u32> {
    refuse::length(store.len())?;
    let state = State { size: store.len() as u32, ..State::default() };
    Ok(Record { state, registers: [0; 16], cache: Cache::default() })
}

pub fn clock(
    record: &mut Record,
    program: &[u32],
    store: &mut [u32],
    line_byte: u8,
    input: u32,
) -> Result<Answer, u32> {
    refuse::common(record, program, store.len())?;
    refuse::line_byte(line_byte)?;
    refuse::clocks(record, 1)?;
    let (mut byte, mut moved) = ([0], [0]);
    let ran = trace(record, program, store, Feed::new(&[line_byte], &[input], &mut byte, &mut moved), &mut ());
    Ok(Answer { byte: byte[0], word: moved[0], finished: ran.finished })
}

pub fn run(
    record: &mut Record,
    program: &[u32],
    store: &mut [u32],
    line_bytes: &[u8],
    inputs: &[u32],
    bytes: &mut [u8],
    words: &mut [u32],
) -> Result<Ran, u32> {
    refuse::common(record, program, store.len())?;
    refuse::line_bytes(line_bytes, inputs.len())?;
    refuse::buffer(bytes.len(), line_bytes.len())?;
    refuse::buffer(words.len(), line_bytes.len())?;
    refuse::clocks(record, line_bytes.len())?;
    Ok(trace(record, program, store, Feed::new(line_bytes, inputs, bytes, words), &mut ()))
}

/// Runs the clocks of the feed without the checks of a call, and reports each instruction finished and each interrupt.
/// For a record of `reset` that only accepted calls and traces with the same program and store have changed.
pub fn trace<E: Events>(record: &mut Record, program: &[u32], store: &mut [u32], feed: Feed, events: &mut E) -> Ran {
    let Record { state, registers, cache } = record;
    let mut machine = Machine { state, registers, cache, program, store, feed, finished: 0, events };
    let used = machine.run();
    Ran { used, finished: machine.finished }
}

/// The device that the next clock reads unless it is held; none if it reads none. For an accepted record.
#[inline(always)]
pub fn device_due(record: &Record, program: &[u32], size: usize) -> Option<u8> {
    let state = &record.state;
    if state.phase != LAST {
        return None;
    }
    let word = word::fetch(program, state.pc as usize);
    let base = record.registers[state.register(word::s(word))];
    match word::place(word, base, size) {
        Place::Device(device) if word::operation(word) == word::LD => Some(device),
        _ => None,
    }
}

/// One word of data memory, through the cache.
pub fn look(record: &Record, program: &[u32], store: &[u32], address: u32) -> Result<u32, u32> {
    refuse::common(record, program, store.len())?;
    refuse::address(address)?;
    Ok(record.cache.seen(store, address as usize & (store.len() - 1)))
}

/// All of data memory into a buffer of the store's length.
pub fn copy(record: &Record, program: &[u32], store: &[u32], buffer: &mut [u32]) -> Result<(), u32> {
    refuse::common(record, program, store.len())?;
    refuse::buffer(buffer.len(), store.len())?;
    buffer.copy_from_slice(store);
    for (line, words) in record.cache.lines.iter().zip(record.cache.words.chunks_exact(8)) {
        if line.full == 1 {
            let first = usize::from(line.block) * 8;
            buffer[first..first + 8].copy_from_slice(words);
        }
    }
    Ok(())
}
