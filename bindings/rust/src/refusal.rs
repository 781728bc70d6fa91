//! Refusals: why a call was refused.
//! Paper: "Where calls are turned down"; the number is the row of its table.
//! A refused call has changed nothing.
use std::error::Error;
use std::fmt::{Display, Formatter, Result as Written};

/// Why a call was refused: the first row of the paper's table that applies.
///
/// ```
/// use trm::{Machine, Refusal};
///
/// let refused = Machine::new(vec![0x40000], vec![0; 64]).unwrap_err();
/// assert_eq!(refused, Refusal::Program);
/// assert_eq!(refused.number(), 3);
/// assert_eq!(Refusal::from_number(3), Some(Refusal::Program));
/// ```
#[derive(Clone, Copy, PartialEq, Eq, Hash, Debug)]
pub enum Refusal {
    /// An image that is too long, or a record in it with a wrong length or count.
    Image = 1,
    /// An image with a record kind that is unknown, repeated or out of order, or without a program.
    Kind = 2,
    /// A program without a word, too long, or with a word of more than 18 bits.
    Program = 3,
    /// A store of a length that is not legal, or not the one at reset.
    Store = 4,
    /// A record with a field out of range, a board's too, or with fields that contradict each other or the word at PC.
    Record = 5,
    /// Line bytes that are too many, not as many as the input words, or above 7; of a board its given bytes and its switches.
    LineBytes = 6,
    /// Buffers that are not as long as what is written to them.
    Buffers = 7,
    /// A clock count that would exceed 32 bits.
    Clocks = 8,
    /// A look at a device address, or a watch of a device above 63.
    Address = 9,
    /// An instruction with a field outside its width.
    Instruction = 10,
}

impl Refusal {
    /// Every refusal, in the order of their numbers.
    pub const ALL: [Refusal; 10] = [
        Refusal::Image,
        Refusal::Kind,
        Refusal::Program,
        Refusal::Store,
        Refusal::Record,
        Refusal::LineBytes,
        Refusal::Buffers,
        Refusal::Clocks,
        Refusal::Address,
        Refusal::Instruction,
    ];

    /// The row of the table, 1 to 10.
    pub const fn number(self) -> u32 {
        self as u32
    }

    /// The refusal of this number; none for 0, which means accepted, and for numbers above 10.
    pub fn from_number(number: u32) -> Option<Refusal> {
        Refusal::ALL.into_iter().find(|refusal| refusal.number() == number)
    }

    const fn condition(self) -> &'static str {
        match self {
            Refusal::Image => {
                "the image is over 65,536 bytes, a record is cut short or has a length wrong for its kind, \
                 or a count is 0 or above 65,536"
            }
            Refusal::Kind => "a kind of record is unknown, repeated or out of order, or kind 1 is missing",
            Refusal::Program => "the program has no word, over 4,096, or one above 3FFFFH",
            Refusal::Store => "the store's length is no power of two from 64 to 32,768, or other than at reset",
            Refusal::Record => "the machine record breaks its rule, or a board field is outside its range",
            Refusal::LineBytes => {
                "line bytes are not as many as input words or switches, over 65,536, or one is above 7"
            }
            Refusal::Buffers => "a buffer is not as long as the run, or as the store for a copy",
            Refusal::Clocks => "the clock count would pass 4,294,967,295",
            Refusal::Address => "the address looked at is above FFBFH, or the device above 63",
            Refusal::Instruction => "a field of the instruction is outside its width",
        }
    }
}

impl Display for Refusal {
    /// The number and the condition of its row.
    fn fmt(&self, to: &mut Formatter) -> Written {
        write!(to, "refused with {}: {}", self.number(), self.condition())
    }
}

impl Error for Refusal {}

/// The result for a call's number: `Ok` for 0, else the refusal.
pub(crate) fn accepted(number: u32) -> Result<(), Refusal> {
    match number {
        0 => Ok(()),
        _ => Err(Refusal::from_number(number).expect("a number of the table")),
    }
}

/// Why an image was refused, and the offset where the record at fault begins (0 if the image is too long or empty).
///
/// ```
/// use trm::{image, Refusal};
///
/// let fault = image::check(&[], 2048).unwrap_err();
/// assert_eq!((fault.refusal, fault.at), (Refusal::Kind, 0));
/// assert_eq!(fault.to_string(), "refused 2 0");
/// ```
#[derive(Clone, Copy, PartialEq, Eq, Hash, Debug)]
pub struct ImageFault {
    /// The row of the table.
    pub refusal: Refusal,
    /// The offset of the record in the image.
    pub at: u64,
}

impl Display for ImageFault {
    /// The row that the listing program prints.
    fn fmt(&self, to: &mut Formatter) -> Written {
        write!(to, "refused {} {}", self.refusal.number(), self.at)
    }
}

impl Error for ImageFault {
    fn source(&self) -> Option<&(dyn Error + 'static)> {
        Some(&self.refusal)
    }
}
