// A listing program over the independent simulator of tests/rust: an image in, its listing out.
// Paper: "Images and the listing program".
// It replaces trmlist where that cannot be built; a bad image is `refused` without number and offset.
use circuit::{read, Image};
use simulator::{clock, reset, Record};
use std::fmt::Write as _;
use std::io::{self, Read, Write};

const BEYOND: u32 = 0x3BC00;

struct Lister {
    record: Record,
    store: Vec<u32>,
    program: Vec<u32>,
    text: String,
    took: u64,
}

impl Lister {
    fn row(&mut self, at: u64, word: &str) {
        let clocks = self.record.state.clocks;
        // Writing to a string does not fail.
        let _ = writeln!(self.text, "{clocks} {at:03X} {word} {}", self.took);
        self.took = 0;
    }

    /// The interrupt line whose interrupt this clock takes, if it takes one.
    fn raised(&self, line_byte: u8) -> Option<u32> {
        let state = &self.record.state;
        let high = u32::from(line_byte) & state.status as u32 & 3;
        let taken = line_byte & 4 == 0 && state.phase == 0 && state.status & 4 == 0 && high != 0;
        taken.then_some(high & 1 ^ 1)
    }

    fn clock(&mut self, line_byte: u8, input: u32) -> Result<(), u32> {
        let (at, raised) = (self.record.state.pc, self.raised(line_byte));
        let answer = clock(&mut self.record, &self.program, &mut self.store, line_byte, input)?;
        self.took += u64::from(line_byte & 4 == 0);
        if let Some(number) = raised {
            self.row(at, &format!("irq{number}"));
        } else if answer.finished == 1 {
            let word = self.program.get(at as usize).copied().unwrap_or(BEYOND);
            self.row(at, &format!("{word:05X}"));
        }
        Ok(())
    }
}

fn list(image: &Image) -> Result<String, u32> {
    let store = image.store();
    let record = reset(&store)?;
    let text = "clock at word took\n".to_string();
    let mut lister = Lister { record, store, program: image.program.clone(), text, took: 0 };
    for run in &image.runs {
        for _ in 0..run.count {
            lister.clock(run.line_byte, run.input)?;
        }
    }
    let state = &lister.record.state;
    let (clocks, held, refills, writebacks) = (state.clocks, state.held, state.refills, state.writebacks);
    let end = format!("end {clocks} held {held} refills {refills} writebacks {writebacks}\n");
    Ok(lister.text + &end)
}

fn main() -> io::Result<()> {
    let mut bytes = Vec::new();
    io::stdin().read_to_end(&mut bytes)?;
    let listing = read(&bytes).and_then(|image| list(&image).ok());
    let text = listing.unwrap_or_else(|| "refused\n".into());
    io::stdout().write_all(text.as_bytes())
}
