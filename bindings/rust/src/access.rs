//! The device access that a clock reports, and the watch over many of them.
//! Paper: "Per clock it writes a byte (bit 0 read, bit 1 write, bits 2-7 device) and the word moved"; the watch.
//! A device is read or written only in an instruction's last clock.
use crate::raw;
use crate::refusal::{accepted, Refusal};

/// The device access of one clock.
#[derive(Clone, Copy, PartialEq, Eq, Hash, Debug)]
pub enum Access {
    /// The program read the device and got the input word of this clock.
    Read {
        /// 0 to 63.
        device: u8,
        /// The word moved.
        word: u32,
    },
    /// The program wrote to the device.
    Write {
        /// 0 to 63.
        device: u8,
        /// The word moved.
        word: u32,
    },
}

impl Access {
    /// The access that an answer byte and its word show. A byte with both bits set, which no run writes, shows a write, as for
    /// [`watch`].
    ///
    /// ```
    /// use trm::Access;
    ///
    /// assert_eq!(Access::from_answer(0, 0), None);
    /// assert_eq!(Access::from_answer(5 * 4 + 1, 33), Some(Access::Read { device: 5, word: 33 }));
    /// assert_eq!(Access::from_answer(7 * 4 + 2, 33), Some(Access::Write { device: 7, word: 33 }));
    /// ```
    pub fn from_answer(byte: u8, word: u32) -> Option<Access> {
        let device = byte / 4;
        if byte & raw::ANSWER_WRITE != 0 {
            return Some(Access::Write { device, word });
        }
        (byte & raw::ANSWER_READ != 0).then_some(Access::Read { device, word })
    }
}

/// The device accesses of a run, each with its clock, counted from 0.
pub(crate) fn accesses<'a>(bytes: &'a [u8], words: &'a [u32]) -> impl Iterator<Item = (usize, Access)> + 'a {
    let answers = bytes.iter().zip(words).enumerate();
    answers.filter_map(|(clock, (&byte, &word))| Some((clock, Access::from_answer(byte, word)?)))
}

/// A clock, counted from 0, whose answer byte shows a write to the device, or `None` if there is none. If there are several, any of them.
/// Refused: [`Refusal::Address`] for a device above 63.
///
/// ```
/// use trm::{watch, Refusal};
///
/// let bytes = [0, 5 * 4 + 1, 7 * 4 + 2];
/// assert_eq!(watch(&bytes, 7), Ok(Some(2)));
/// assert_eq!(watch(&bytes, 5), Ok(None)); // it was read
/// assert_eq!(watch(&bytes, 64), Err(Refusal::Address));
/// ```
pub fn watch(bytes: &[u8], device: u32) -> Result<Option<usize>, Refusal> {
    let answer = raw::watch(bytes, device);
    accepted(answer.number)?;
    Ok((answer.found == 1).then_some(answer.clock as usize))
}
