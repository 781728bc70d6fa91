// Row 5 of the table: which records are accepted, by the word at PC.
// Paper: "Where calls are turned down", row 5; "Clock by clock", closed formulas and the phase rule.
// Checked after rows 3 and 4, so the program has words and the store's length is the record's.
use crate::cache::{line_of, Line};
use crate::record::{Record, State, ARITHMETIC, LAST, READY, REFILL, UNCACHED, WRITE_BACK};
use crate::word::{self, Place};

/// Whether row 5 accepts the record.
pub fn accepted(record: &Record, program: &[u32], size: usize) -> bool {
    widths(&record.state) && counts(&record.state) && lines(record, size) && in_flight(record, program, size)
}

fn widths(state: &State) -> bool {
    let flags = &state.flags;
    state.pc < 4096 && state.status < 16 && (flags.n | flags.z | flags.c | flags.v) < 2
}

fn counts(state: &State) -> bool {
    state.clocks <= 0xFFFF_FFFF
        && state.held <= state.clocks
        && state.refills <= state.clocks
        && state.writebacks <= state.clocks
}

fn lines(record: &Record, size: usize) -> bool {
    let on = record.state.cache_on();
    let mut good = true;
    for (number, line) in record.cache.lines.iter().enumerate() {
        good &= line_accepted(line, number, on, size);
    }
    good
}

#[inline(always)]
fn line_accepted(line: &Line, number: usize, on: bool, size: usize) -> bool {
    let block = usize::from(line.block);
    match line.full {
        0 => line.dirty == 0 && block == 0,
        1 => on && line.dirty < 2 && block < size / 8 && block & 15 == number,
        _ => false,
    }
}

fn in_flight(record: &Record, program: &[u32], size: usize) -> bool {
    let state = &record.state;
    if state.phase == READY {
        return state.count == 0 && registers_zero(state);
    }
    let word = word::fetch(program, state.pc as usize);
    if state.phase == ARITHMETIC {
        return (1..=32).contains(&state.count) && arithmetic(record, word);
    }
    registers_zero(state)
        && match state.phase {
            WRITE_BACK => state.count <= 9 && write_back(record, word, size),
            REFILL => state.count <= 9 && refill(record, word, size),
            UNCACHED => uncached(record, word, size),
            LAST => state.count == 0 && last(record, word, size),
            _ => false,
        }
}

fn registers_zero(state: &State) -> bool {
    state.product | state.remainder | state.quotient == 0
}

fn arithmetic(record: &Record, word: u32) -> bool {
    let state = &record.state;
    let a = word::operand(word, record.registers[state.register(word::s(word))]);
    let b = record.registers[state.register(word::d(word))];
    match word::operation(word) {
        word::MUL => state.product == product(b, a, state.count) && state.remainder | state.quotient == 0,
        word::DIV => (state.remainder, state.quotient) == divider(b, a, state.count) && state.product == 0,
        _ => false,
    }
}

/// The multiplier's register after `k` steps, 1-32. No term leaves 64 bits.
fn product(b: u32, a: u32, k: u64) -> u64 {
    let b = i64::from(b as i32);
    if k == 32 {
        return (b * i64::from(a as i32)) as u64;
    }
    let done = i64::from(a) & ((1 << k) - 1);
    (((b * done) << (32 - k)) + (i64::from(a) >> k)) as u64
}

/// Remainder and quotient register after `k` steps, 1-32.
fn divider(b: u32, a: u32, k: u64) -> (u64, u64) {
    if a as i32 <= 0 {
        return (0, 0);
    }
    let (size, a) = (u64::from((b as i32).unsigned_abs()), u64::from(a));
    let t = size >> (32 - k);
    let left = size & ((1 << (32 - k)) - 1);
    (t % a, (left << k) + t / a)
}

/// The memory address of an LD or ST, none for other words and for devices.
fn memory(record: &Record, word: u32, size: usize) -> Option<usize> {
    if !matches!(word::operation(word), word::LD | word::ST) {
        return None;
    }
    let base = record.registers[record.state.register(word::s(word))];
    match word::place(word, base, size) {
        Place::Memory(address) => Some(address),
        Place::Device(_) => None,
    }
}

/// Operation 11 with bit 10 clear, turning off a cache that is on.
fn emptying(state: &State, word: u32) -> bool {
    word::operation(word) == word::CONTROL && !word::bit10(word) && word::clears_cache(word, state.status as u32)
}

fn write_back(record: &Record, word: u32, size: usize) -> bool {
    match memory(record, word, size) {
        Some(address) => {
            let line = &record.cache.lines[line_of(address)];
            line.full == 1 && line.dirty == 1 && !line.holds(address)
        }
        None => emptying(&record.state, word) && record.cache.lowest_dirty().is_some(),
    }
}

fn refill(record: &Record, word: u32, size: usize) -> bool {
    let empty = |address| record.cache.lines[line_of(address)].full == 0;
    record.state.cache_on() && memory(record, word, size).is_some_and(empty)
}

fn uncached(record: &Record, word: u32, size: usize) -> bool {
    let limit = if word::operation(word) == word::LD { 5 } else { 4 };
    !record.state.cache_on() && memory(record, word, size).is_some() && (1..=limit).contains(&record.state.count)
}

fn last(record: &Record, word: u32, size: usize) -> bool {
    match word::operation(word) {
        word::BRANCH => word::taken(word, record.state.flags.nzcv()),
        word::CALL => true,
        word::CONTROL if word::bit10(word) => true,
        word::CONTROL => emptying(&record.state, word) && record.cache.lowest_dirty().is_none(),
        operation => match memory(record, word, size) {
            Some(address) => record.cache.hit(address),
            None => operation == word::LD,
        },
    }
}
