// The clocks of a run: line bytes and input words in, answer bytes and words out.
// Paper: "Clock by clock": held clocks, and "Per clock it writes a byte .. and the word moved".
// The answers are cleared at the start, so that only a clock with a device access has to write them.
use crate::record::State;
use std::ops::Range;
use std::slice::Iter;

pub const STALL: u8 = 4;

pub struct Feed<'a> {
    /// Line bytes of the clocks to come.
    pub clocks: Iter<'a, u8>,
    /// Clocks held so far.
    pub held: u64,
    inputs: &'a [u32],
    bytes: &'a mut [u8],
    words: &'a mut [u32],
}

/// The line byte of the next clock that is not held; held clocks before it are used up one by one.
#[inline(always)]
pub fn unheld(clocks: &mut Iter<u8>, held: &mut u64) -> Option<u8> {
    for &line_byte in clocks {
        if line_byte & STALL == 0 {
            return Some(line_byte);
        }
        *held += 1;
    }
    None
}

impl<'a> Feed<'a> {
    /// All four have the same length.
    #[inline(always)]
    pub fn new(line_bytes: &'a [u8], inputs: &'a [u32], bytes: &'a mut [u8], words: &'a mut [u32]) -> Feed<'a> {
        bytes.fill(0);
        words.fill(0);
        Feed { clocks: line_bytes.iter(), held: 0, inputs, bytes, words }
    }

    /// Uses the clocks of a phase whose counts before them are `counts`, and calls `each` with the count.
    /// False if the feed is used up before; phase and count are then left in the record.
    #[inline(always)]
    pub fn spend(&mut self, state: &mut State, phase: u64, counts: Range<u64>, mut each: impl FnMut(u64)) -> bool {
        let (mut clocks, mut held) = (self.clocks.clone(), self.held);
        let mut whole = true;
        for count in counts {
            if unheld(&mut clocks, &mut held).is_none() {
                (state.phase, state.count) = (phase, count);
                whole = false;
                break;
            }
            each(count);
        }
        (self.clocks, self.held) = (clocks, held);
        whole
    }

    /// A device read in the clock last used: writes the answer byte and word, and returns the word read.
    /// `left` is the number of clocks to come.
    #[inline(always)]
    pub fn read(&mut self, device: u8, left: usize) -> u32 {
        let at = self.inputs.len() - left - 1;
        let word = self.inputs[at];
        self.bytes[at] = device << 2 | 1;
        self.words[at] = word;
        word
    }

    /// A device write in the clock last used.
    #[inline(always)]
    pub fn write(&mut self, device: u8, word: u32, left: usize) {
        let at = self.inputs.len() - left - 1;
        self.bytes[at] = device << 2 | 2;
        self.words[at] = word;
    }
}
