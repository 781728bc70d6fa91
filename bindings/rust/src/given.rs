//! The given byte of a board's clock.
//! Request A1: "Each of its clocks takes the serial line, the switches, interrupt 1 and stall".
//! A value of this type is always 0 to 7, so no clock is refused because of it.
use crate::raw;
use crate::refusal::Refusal;
use std::ops::BitOr;

/// The level of the serial line, interrupt 1 and stall, as they are in one clock of a [`Board`](crate::Board).
///
/// ```
/// use trm::{Given, Refusal};
///
/// let held = Given::HIGH | Given::STALL;
/// assert_eq!(held.byte(), 5);
/// assert_eq!(Given::try_from(5), Ok(held));
/// assert_eq!(Given::line(false), Given::LOW);
/// assert_eq!(Given::try_from(8), Err(Refusal::LineBytes));
/// ```
#[derive(Clone, Copy, PartialEq, Eq, Hash, Debug, Default)]
pub struct Given(u8);

impl Given {
    /// The line is low; no interrupt 1, no stall.
    pub const LOW: Given = Given(0);
    /// The line is high, as it is where nothing is sent.
    pub const HIGH: Given = Given(raw::BOARD_LINE);
    /// Interrupt 1, which goes to address 3.
    pub const INTERRUPT_1: Given = Given(raw::BOARD_INTERRUPT_1);
    /// Stall: the machine is held; the devices run on.
    pub const STALL: Given = Given(raw::BOARD_STALL);

    /// The line at this level, high for `true`.
    pub const fn line(high: bool) -> Given {
        if high {
            Given::HIGH
        } else {
            Given::LOW
        }
    }

    /// The given byte, in the form that [`Board::run`](crate::Board::run) takes.
    pub const fn byte(self) -> u8 {
        self.0
    }
}

impl BitOr for Given {
    type Output = Given;

    fn bitor(self, other: Given) -> Given {
        Given(self.0 | other.0)
    }
}

impl TryFrom<u8> for Given {
    type Error = Refusal;

    /// Refused: [`Refusal::LineBytes`], for a byte above 7.
    fn try_from(byte: u8) -> Result<Given, Refusal> {
        if byte > 7 {
            return Err(Refusal::LineBytes);
        }
        Ok(Given(byte))
    }
}
