// The rows of a listing, written in two ways: formatted by hand into one buffer, and in the simplest way, by `writeln!`.
// Paper: "Images and the listing program", the fields of a row.
// Every unheld clock belongs to one instruction or interrupt, so what one took is the unheld clocks since the row before.
use simulator::{Events, State};
use std::io::{BufWriter, Result, Write};

const NEVER: u32 = 0x3BC00;

/// Clocks so far, as the rows count them.
#[derive(Default)]
pub struct Clocks {
    /// Clocks at the end of the current run.
    end: u32,
    held: u32,
    /// Unheld clocks at the last row.
    before: u32,
}

impl Clocks {
    pub fn run(&mut self, count: usize) {
        self.end += count as u32;
    }

    pub fn hold(&mut self, count: usize) {
        self.end += count as u32;
        self.held += count as u32;
    }

    /// The clock count with `left` clocks of the run still to come, and the unheld clocks since the last row.
    #[inline(always)]
    fn row(&mut self, left: usize) -> (u32, u32) {
        let clock = self.end - left as u32;
        let unheld = clock - self.held;
        let took = unheld - self.before;
        self.before = unheld;
        (clock, took)
    }
}

/// Where a listing goes.
pub trait Rows: Events {
    fn clocks(&mut self) -> &mut Clocks;
    fn end(&mut self, state: &State) -> Result<()>;
}

// ---- formatting by hand

const FULL: usize = 65536;
/// More than the longest row.
const SPARE: usize = 64;

pub struct Fast<W: Write> {
    out: W,
    clocks: Clocks,
    buffer: Box<[u8; FULL]>,
    used: usize,
    /// For each address the middle of its row: a space, the address, a space, the word, a space.
    middles: Vec<[u8; 11]>,
    failed: Option<std::io::Error>,
}

fn hexadecimal(text: &mut [u8], mut value: u32) {
    for place in text.iter_mut().rev() {
        *place = b"0123456789ABCDEF"[value as usize & 15];
        value >>= 4;
    }
}

fn middle(at: usize, word: u32) -> [u8; 11] {
    let mut text = *b" 000 00000 ";
    hexadecimal(&mut text[1..4], at as u32);
    hexadecimal(&mut text[5..10], word);
    text
}

impl<W: Write> Fast<W> {
    pub fn new(out: W, program: &[u32]) -> Fast<W> {
        let middles = (0..4096).map(|at| middle(at, program.get(at).copied().unwrap_or(NEVER))).collect();
        let buffer = vec![0; FULL].into_boxed_slice().try_into().expect("its length");
        let mut fast = Fast { out, clocks: Clocks::default(), buffer, used: 0, middles, failed: None };
        fast.put(b"clock at word took\n");
        fast
    }

    #[cold]
    #[inline(never)]
    fn flush(&mut self) {
        if self.failed.is_none() {
            self.failed = self.out.write_all(&self.buffer[..self.used]).err();
        }
        self.used = 0;
    }

    #[inline(always)]
    fn put<const N: usize>(&mut self, text: &[u8; N]) {
        self.buffer[self.used..self.used + N].copy_from_slice(text);
        self.used += N;
    }

    /// A number in decimal, two digits at a time.
    #[inline(always)]
    fn put_number(&mut self, mut value: u32) {
        if value < 10 {
            return self.put(&[b'0' + value as u8]);
        }
        let mut digits = [0; 10];
        let mut at = 10;
        while value >= 100 {
            let two = PAIRS[value as usize % 100];
            value /= 100;
            at -= 2;
            digits[at..at + 2].copy_from_slice(&two);
        }
        if value >= 10 {
            at -= 2;
            digits[at..at + 2].copy_from_slice(&PAIRS[value as usize]);
        } else {
            at -= 1;
            digits[at] = b'0' + value as u8;
        }
        let length = 10 - at;
        self.buffer[self.used..self.used + length].copy_from_slice(&digits[at..]);
        self.used += length;
    }

    #[inline(always)]
    fn put_row<const N: usize>(&mut self, left: usize, middle: &[u8; N]) {
        if self.used > FULL - SPARE {
            self.flush();
        }
        let (clock, took) = self.clocks.row(left);
        self.put_number(clock);
        self.put(middle);
        self.put_number(took);
        self.put(b"\n");
    }
}

const PAIRS: [[u8; 2]; 100] = {
    let mut pairs = [[0; 2]; 100];
    let mut value = 0;
    while value < 100 {
        pairs[value] = [b'0' + (value / 10) as u8, b'0' + (value % 10) as u8];
        value += 1;
    }
    pairs
};

impl<W: Write> Events for Fast<W> {
    #[inline(always)]
    fn finished(&mut self, at: usize, left: usize) {
        let middle = self.middles[at & 0xFFF];
        self.put_row(left, &middle);
    }

    fn interrupted(&mut self, at: usize, interrupt_line: u32, left: usize) {
        let mut text = *b" 000 irq0 ";
        hexadecimal(&mut text[1..4], at as u32);
        text[8] += interrupt_line as u8;
        self.put_row(left, &text);
    }
}

impl<W: Write> Rows for Fast<W> {
    fn clocks(&mut self) -> &mut Clocks {
        &mut self.clocks
    }

    fn end(&mut self, state: &State) -> Result<()> {
        self.flush();
        if let Some(error) = self.failed.take() {
            return Err(error);
        }
        end(&mut self.out, state)
    }
}

// ---- the simplest way

pub struct Plain<'p, W: Write> {
    out: BufWriter<W>,
    clocks: Clocks,
    program: &'p [u32],
}

impl<'p, W: Write> Plain<'p, W> {
    pub fn new(out: W, program: &'p [u32]) -> Result<Plain<'p, W>> {
        let mut out = BufWriter::new(out);
        writeln!(out, "clock at word took")?;
        Ok(Plain { out, clocks: Clocks::default(), program })
    }
}

impl<W: Write> Events for Plain<'_, W> {
    fn finished(&mut self, at: usize, left: usize) {
        let (clock, took) = self.clocks.row(left);
        let word = self.program.get(at).copied().unwrap_or(NEVER);
        writeln!(self.out, "{clock} {at:03X} {word:05X} {took}").expect("standard output");
    }

    fn interrupted(&mut self, at: usize, interrupt_line: u32, left: usize) {
        let (clock, took) = self.clocks.row(left);
        writeln!(self.out, "{clock} {at:03X} irq{interrupt_line} {took}").expect("standard output");
    }
}

impl<W: Write> Rows for Plain<'_, W> {
    fn clocks(&mut self) -> &mut Clocks {
        &mut self.clocks
    }

    fn end(&mut self, state: &State) -> Result<()> {
        end(&mut self.out, state)?;
        self.out.flush()
    }
}

fn end(out: &mut impl Write, state: &State) -> Result<()> {
    let State { clocks, held, refills, writebacks, .. } = state;
    writeln!(out, "end {clocks} held {held} refills {refills} writebacks {writebacks}")
}
