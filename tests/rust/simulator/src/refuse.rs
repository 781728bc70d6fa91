// The rows of the refusal table, each as one check that returns its number.
// Paper: "Where calls are turned down", rows 3 to 9.
// The calls check the rows in order and skip those about things they do not take.
use crate::devices::Devices;
use crate::record::Record;
use crate::rule;

type Check = Result<(), u32>;

fn unless(good: bool, number: u32) -> Check {
    if good {
        Ok(())
    } else {
        Err(number)
    }
}

/// Row 3.
pub fn program(program: &[u32]) -> Check {
    let length = (1..=4096).contains(&program.len());
    unless(length && program.iter().fold(0, |all, word| all | word) <= 0x3FFFF, 3)
}

/// Row 4 of a reset, which has no earlier length.
pub fn length(size: usize) -> Check {
    unless(size.is_power_of_two() && (64..=32768).contains(&size), 4)
}

/// Row 4.
pub fn store(record: &Record, size: usize) -> Check {
    length(size)?;
    unless(record.state.size as usize == size, 4)
}

/// Row 5.
pub fn record(record: &Record, program: &[u32], size: usize) -> Check {
    unless(rule::accepted(record, program, size), 5)
}

/// Rows 3 to 5, which every call with a record checks first.
pub fn common(record: &Record, words: &[u32], size: usize) -> Check {
    program(words)?;
    store(record, size)?;
    self::record(record, words, size)
}

/// Row 5 of a board, after the record's.
pub fn devices(devices: &Devices) -> Check {
    unless(devices.accepted(), 5)
}

/// Row 6 of a run.
pub fn line_bytes(line_bytes: &[u8], inputs: usize) -> Check {
    let length = line_bytes.len() == inputs && line_bytes.len() <= 65536;
    unless(length && line_bytes.iter().fold(0, |all, line_byte| all | line_byte) <= 7, 6)
}

/// Row 6 of the clock call.
pub fn line_byte(line_byte: u8) -> Check {
    unless(line_byte <= 7, 6)
}

/// Row 7.
pub fn buffer(length: usize, wanted: usize) -> Check {
    unless(length == wanted, 7)
}

/// Row 8; the record's count is within 32 bits by row 5.
pub fn clocks(record: &Record, more: usize) -> Check {
    unless(record.state.clocks + more as u64 <= 0xFFFF_FFFF, 8)
}

/// Row 9 of a look.
pub fn address(address: u32) -> Check {
    unless(address <= 0xFFBF, 9)
}

/// Row 9 of the watch.
pub fn device(device: u32) -> Check {
    unless(device <= 63, 9)
}
