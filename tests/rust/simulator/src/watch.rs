// The watch: a clock of a run whose answer byte shows a write to a device.
// Paper: "Clock by clock", the sentence on the watch; row 9; bit 0 of a byte is ignored.
// Which of several clocks is returned is free; here it is the first.
use crate::refuse;

/// Whether an answer byte shows a write to the device.
pub fn shows_write(device: u32, byte: u8) -> bool {
    byte & 2 != 0 && u32::from(byte >> 2) == device
}

pub fn watch(bytes: &[u8], device: u32) -> Result<Option<u64>, u32> {
    refuse::device(device)?;
    Ok(bytes.iter().position(|&byte| shows_write(device, byte)).map(|clock| clock as u64))
}
