// Reads an image from standard input and prints its listing, as the paper's `trmlist` does, over the independent simulator.
// Paper: "Images and the listing program".
// Called: lister [--plain]; with --plain rows are written by `writeln!`, without it they are formatted by hand.
#![forbid(unsafe_code)]

mod image;
mod rows;

use image::{Image, Run, LONGEST, STORE};
use rows::{Fast, Plain, Rows};
use simulator::{Feed, Record};
use std::fs::File;
use std::io::{Read, Result, Write};
use std::os::fd::AsFd;

/// The line bytes and input words of runs, made once; a run takes the first of them.
struct Feeds {
    line_bytes: Vec<u8>,
    inputs: Vec<u32>,
    bytes: Vec<u8>,
    words: Vec<u32>,
    /// How many of the line bytes, and of the input words, have the value of the last run.
    line_byte: (usize, u8),
    input: (usize, u32),
}

/// Fills the start of a buffer unless it is filled already; `done` says how far and with which value.
fn fill<T: Copy + PartialEq>(buffer: &mut [T], done: &mut (usize, T), count: usize, value: T) {
    if done.1 != value || done.0 < count {
        buffer[..count].fill(value);
        *done = (count, value);
    }
}

impl Feeds {
    fn new() -> Feeds {
        let (bytes, words) = (vec![0; LONGEST], vec![0; LONGEST]);
        Feeds { line_bytes: bytes.clone(), inputs: words.clone(), bytes, words, line_byte: (LONGEST, 0), input: (LONGEST, 0) }
    }

    fn of(&mut self, run: &Run) -> Feed<'_> {
        let count = run.count;
        fill(&mut self.line_bytes, &mut self.line_byte, count, run.line_byte);
        fill(&mut self.inputs, &mut self.input, count, run.input);
        Feed::new(&self.line_bytes[..count], &self.inputs[..count], &mut self.bytes[..count], &mut self.words[..count])
    }
}

fn list(image: &Image, out: &mut impl Rows) -> Result<()> {
    let mut store = image.data.clone();
    store.resize(STORE, 0);
    let mut record: Record = simulator::reset(&store).expect("a store of 2,048 words");
    let mut feeds = Feeds::new();
    for run in &image.runs {
        if run.line_byte & 4 != 0 {
            record.state.clocks += run.count as u64;
            record.state.held += run.count as u64;
            out.clocks().hold(run.count);
        } else {
            out.clocks().run(run.count);
            simulator::trace(&mut record, &image.program, &mut store, feeds.of(run), out);
        }
    }
    out.end(&record.state)
}

fn main() -> Result<()> {
    let plain = std::env::args().nth(1).is_some_and(|option| option == "--plain");
    let mut bytes = Vec::with_capacity(LONGEST + 2);
    std::io::stdin().take(LONGEST as u64 + 1).read_to_end(&mut bytes)?;
    let mut out = File::from(std::io::stdout().as_fd().try_clone_to_owned()?);
    match Image::read(&bytes) {
        Err(refusal) => writeln!(out, "refused {} {}", refusal.number, refusal.offset),
        Ok(image) if plain => list(&image, &mut Plain::new(out, &image.program)?),
        Ok(image) => list(&image, &mut Fast::new(out, &image.program)),
    }
}
