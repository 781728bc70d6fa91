//! Images: a program, its first data words and its runs in one file.
//! Paper: "Images and the listing program"; rows 1, 2, 3, 4 and 6 of the refusals.
//! The library checks the whole image before this module splits it into its parts.
use crate::line_byte::LineByte;
use crate::machine::Machine;
use crate::raw;
use crate::refusal::{accepted, ImageFault, Refusal};

/// Checks whether an image can be run with a store of `store_words` words; returns its first fault if not. Refused: [`Refusal::Image`],
/// [`Refusal::Kind`], [`Refusal::Program`], [`Refusal::Store`], [`Refusal::LineBytes`].
pub fn check(image: &[u8], store_words: usize) -> Result<(), ImageFault> {
    let answer = raw::image_check(image, store_words);
    accepted(answer.number).map_err(|refusal| ImageFault { refusal, at: answer.at })
}

/// The payload of the record that begins at offset `at`, as a slice of the image. Refused: [`Refusal::Image`] if the image is too long or
/// the record is cut short, [`Refusal::Kind`] if no record of the image begins there.
///
/// ```
/// use trm::image::payload;
/// use trm::Refusal;
///
/// let image = [4, 0, 0, 0, 1, 0, 0x05, 0, 0, 0]; // kind 1 with one word, 00005H
/// assert_eq!(payload(&image, 0), Ok(&[0x05, 0, 0, 0][..]));
/// assert_eq!(payload(&image[..8], 0), Err(Refusal::Image));
/// assert_eq!(payload(&image, 10), Err(Refusal::Kind));
/// ```
pub fn payload(image: &[u8], at: usize) -> Result<&[u8], Refusal> {
    let part = raw::image_payload(image, at);
    accepted(part.number)?;
    Ok(&image[part.start as usize..][..part.length as usize])
}

/// One run of an image: `count` clocks, all with the same line byte and input word.
#[derive(Clone, Copy, PartialEq, Eq, Hash, Debug)]
pub struct Run {
    /// 1 to 65,536.
    pub count: u32,
    /// The line byte of every clock.
    pub line_byte: LineByte,
    /// The input word of every clock.
    pub input: u32,
}

impl Run {
    /// The line bytes and input words, as [`Machine::run`] takes them.
    pub fn feed(&self) -> (Vec<u8>, Vec<u32>) {
        let count = self.count as usize;
        (vec![self.line_byte.byte(); count], vec![self.input; count])
    }
}

/// An accepted image, split into its parts.
///
/// ```
/// use trm::image::Image;
///
/// // The paper's example: MOV R0, 5; MUL R0, 3; B . and 40 clocks.
/// let bytes = [
///     12, 0, 0, 0, 1, 0, 0x05, 0, 0, 0, 0x03, 0, 0x02, 0, 0xFF, 0xBB, 0x03, 0, // kind 1, three words
///     9, 0, 0, 0, 3, 0, 40, 0, 0, 0, 0, 0, 0, 0, 0, // kind 3: count, line byte, input word
/// ];
/// let image = Image::read(&bytes, 2048)?;
/// let mut machine = image.machine();
/// for run in image.runs() {
///     let (line_bytes, inputs) = run.feed();
///     machine.run(&line_bytes, &inputs)?;
/// }
/// assert_eq!(machine.counts().to_string(), "40 held 0 refills 0 writebacks 0");
/// # Ok::<(), Box<dyn std::error::Error>>(())
/// ```
#[derive(Clone, PartialEq, Eq, Hash, Debug)]
pub struct Image {
    program: Vec<u32>,
    data: Vec<u32>,
    runs: Vec<Run>,
    store_words: usize,
}

impl Image {
    /// Checks an image for a store of `store_words` words, as [`check`] does, and splits it into its parts.
    pub fn read(image: &[u8], store_words: usize) -> Result<Image, ImageFault> {
        check(image, store_words)?;
        let mut read = Image { program: vec![], data: vec![], runs: vec![], store_words };
        for (kind, payload) in records(image) {
            match kind {
                1 => read.program = words(payload),
                2 => read.data = words(payload),
                _ => read.runs.push(run(payload)),
            }
        }
        Ok(read)
    }

    /// The program's words.
    pub fn program(&self) -> &[u32] {
        &self.program
    }

    /// The first data words; the rest of the store is zero.
    pub fn data(&self) -> &[u32] {
        &self.data
    }

    /// The runs, in order.
    pub fn runs(&self) -> &[Run] {
        &self.runs
    }

    /// A machine after reset with the image's program and data.
    pub fn machine(&self) -> Machine {
        let mut store = self.data.clone();
        store.resize(self.store_words, 0);
        Machine::new(self.program.clone(), store).expect("the check accepted the program and the store's length")
    }
}

/// Kind and payload of each record of an accepted image: a length of four bytes, a kind of two, the payload.
fn records(image: &[u8]) -> impl Iterator<Item = (u32, &[u8])> {
    let mut at = 0;
    std::iter::from_fn(move || {
        let kind = number(image.get(at + 4..at + 6)?);
        let payload = payload(image, at).expect("a record of an accepted image");
        at += 6 + payload.len();
        Some((kind, payload))
    })
}

/// A number from little-endian bytes, at most four.
fn number(bytes: &[u8]) -> u32 {
    bytes.iter().rev().fold(0, |number, &byte| number << 8 | u32::from(byte))
}

fn words(payload: &[u8]) -> Vec<u32> {
    payload.chunks(4).map(number).collect()
}

/// The payload of kind 3: count, line byte, input word.
fn run(payload: &[u8]) -> Run {
    let line_byte = LineByte::try_from(payload[4]).expect("the check accepted the line byte");
    Run { count: number(&payload[..4]), line_byte, input: number(&payload[5..]) }
}
