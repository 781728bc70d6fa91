//! The line byte of a clock.
//! Paper: "Each clock brings a line byte (bit 0 interrupt 0, bit 1 interrupt 1, bit 2 stall) and an input word".
//! A value of this type is always 0 to 7, so no clock is refused because of it.
use crate::raw;
use crate::refusal::Refusal;
use std::ops::BitOr;

/// The interrupt lines and the stall that are high in one clock.
///
/// ```
/// use trm::{LineByte, Refusal};
///
/// let both = LineByte::INTERRUPT_0 | LineByte::INTERRUPT_1;
/// assert_eq!(both.byte(), 3);
/// assert_eq!(LineByte::try_from(3), Ok(both));
/// assert_eq!(LineByte::try_from(8), Err(Refusal::LineBytes));
/// ```
#[derive(Clone, Copy, PartialEq, Eq, Hash, Debug, Default)]
pub struct LineByte(u8);

impl LineByte {
    /// No interrupt line is high, and no stall.
    pub const NONE: LineByte = LineByte(0);
    /// Interrupt 0, which goes to address 2.
    pub const INTERRUPT_0: LineByte = LineByte(raw::LINE_INTERRUPT_0);
    /// Interrupt 1, which goes to address 3.
    pub const INTERRUPT_1: LineByte = LineByte(raw::LINE_INTERRUPT_1);
    /// Stall: the clock is held; it is counted and does nothing else.
    pub const STALL: LineByte = LineByte(raw::LINE_STALL);

    /// The line byte, in the form that [`Machine::run`](crate::Machine::run) takes.
    pub const fn byte(self) -> u8 {
        self.0
    }
}

impl BitOr for LineByte {
    type Output = LineByte;

    fn bitor(self, other: LineByte) -> LineByte {
        LineByte(self.0 | other.0)
    }
}

impl TryFrom<u8> for LineByte {
    type Error = Refusal;

    /// Refused: [`Refusal::LineBytes`], for a byte above 7.
    fn try_from(byte: u8) -> Result<LineByte, Refusal> {
        if byte > 7 {
            return Err(Refusal::LineBytes);
        }
        Ok(LineByte(byte))
    }
}
