// The published interrupt as a rule over the paper's machine, compared with the circuit with IRQ1 on Published.
// Source: "Interrupts". Paper: all but the interrupt rule, which is replaced by the two sentences at `sampled` and `Stage`.
// It checks that IRQ1 is the only difference between the two, with NOPIRQ, ACKMASK, PSRIRQ and ACKLINE set aside.
use circuit::{list, Image, Setting, Switch};
use compare::groups::{image, switches, GROUPS};
use std::fmt::Write;
use trm::raw::{self, Machine};

/// After a sampled interrupt line come an acknowledge clock and a NOP; a taken branch's second clock is its acknowledge.
#[derive(Clone, Copy, PartialEq, Eq)]
enum Stage {
    Running,
    Acknowledge(u8),
    Nop(u8),
}

struct Rule<'a> {
    machine: Machine,
    program: &'a [u32],
    store: Vec<u32>,
    stage: Stage,
    /// The interrupt line sampled in the first clock of a taken branch that has not ended.
    due: Option<u8>,
    clocks: u64,
    held: u64,
    took: u64,
    interrupts: u64,
    text: String,
}

fn is_ldpsr(word: u32) -> bool {
    word >> 14 == 11 && word & 0x400 == 0
}

/// 14, 15, or 11 with bit 10 set: if it has a second clock, it is a branch that is taken.
fn branches(word: u32) -> bool {
    word >> 14 >= 14 || word >> 14 == 11 && !is_ldpsr(word)
}

/// Interrupt lines are sampled in an instruction's last unheld clock, of a taken branch in its first, with mode and enables as they were
/// before it; never in LDPSR.
fn sampled(before: &Machine, word: u32, line_byte: u8) -> Option<u8> {
    let high = line_byte & before.status as u8 & 3;
    let open = before.status & 4 == 0 && !is_ldpsr(word) && high != 0;
    open.then_some(if high & 1 == 1 { 0 } else { 1 })
}

impl<'a> Rule<'a> {
    fn new(image: &'a Image) -> Rule<'a> {
        let store = image.store();
        Rule {
            machine: raw::reset(&store).machine,
            program: &image.program,
            store,
            stage: Stage::Running,
            due: None,
            clocks: 0,
            held: 0,
            took: 0,
            interrupts: 0,
            text: "clock at word took\n".into(),
        }
    }

    fn row(&mut self, at: u64, word: &str) {
        // Writing to a string does not fail.
        let _ = writeln!(self.text, "{} {at:03X} {word} {}", self.clocks, self.took);
        self.took = 0;
    }

    /// One clock of the paper's machine; true if it ended a word.
    fn step(&mut self, line_byte: u8, input: u32) -> Result<bool, String> {
        let answer = raw::clock_value(&self.machine, self.program, &mut self.store, line_byte, input);
        if answer.number != 0 {
            return Err(format!("clock {}: refused with {}", self.clocks, answer.number));
        }
        self.machine = answer.machine;
        Ok(answer.finished == 1)
    }

    fn clock(&mut self, line_byte: u8, input: u32) -> Result<(), String> {
        self.clocks += 1;
        if line_byte & 4 != 0 {
            self.held += 1;
            return Ok(());
        }
        self.took += 1;
        match self.stage {
            Stage::Running => self.running(line_byte, input)?,
            Stage::Acknowledge(number) => self.stage = Stage::Nop(number),
            Stage::Nop(number) => {
                let at = self.machine.pc;
                self.step(1 << number, input)?;
                self.row(at, &format!("irq{number}"));
                self.interrupts += 1;
                self.stage = Stage::Running;
            }
        }
        Ok(())
    }

    fn running(&mut self, line_byte: u8, input: u32) -> Result<(), String> {
        let before = self.machine;
        let word = self.program.get(before.pc as usize).copied().unwrap_or(0x3BC00);
        let ended = self.step(0, input)?;
        let taken = branches(word) && (before.phase == 5 || !ended);
        if taken && !ended {
            self.due = sampled(&before, word, line_byte);
        }
        if ended {
            self.row(before.pc, &format!("{word:05X}"));
            let after_branch = self.due.take().map(Stage::Nop);
            let after_other = || sampled(&before, word, line_byte).map(Stage::Acknowledge);
            let next = if taken { after_branch } else { after_other() };
            self.stage = next.unwrap_or(Stage::Running);
        }
        Ok(())
    }

    fn run(mut self, image: &Image) -> Result<(String, u64), String> {
        for run in &image.runs {
            for _ in 0..run.count {
                self.clock(run.line_byte, run.input)?;
            }
        }
        let Machine { refills, writebacks, .. } = self.machine;
        let end = format!("end {} held {} refills {refills} writebacks {writebacks}\n", self.clocks, self.held);
        Ok((self.text + &end, self.interrupts))
    }
}

fn group(at: usize, images: u64, seed: u64) -> bool {
    let name = GROUPS[at].name;
    let published = switches(at).with(Switch::Irq1, Setting::Published);
    let (mut clocks, mut interrupts) = (0, 0);
    for seed in (0..images).map(|round| seed.wrapping_add(round)) {
        let image = image(at, seed);
        let circuit = list(&image, published);
        match Rule::new(&image).run(&image) {
            Ok((text, more)) if text == circuit.text => interrupts += more,
            Ok((text, _)) => {
                let at = text.lines().zip(circuit.text.lines()).position(|(a, b)| a != b).map_or(0, |at| at + 1);
                println!("FAILED: S2.3 published interrupt, {name}: seed {seed}, line {at} of the listing differs");
                return false;
            }
            Err(what) => {
                println!("FAILED: S2.3 published interrupt, {name}: seed {seed}, {what}");
                return false;
            }
        }
        clocks += circuit.clocks;
    }
    println!("S2.3 published interrupt as a rule, {name}: {images} images, {clocks} clocks, {interrupts} interrupts");
    interrupts > 0
}

/// Passed and failed groups: those with interrupts.
pub fn compare(images: u64, seed: u64) -> (usize, usize) {
    let with: Vec<usize> = (0..GROUPS.len()).filter(|&at| GROUPS[at].kind.interrupts).collect();
    let passed = with.iter().filter(|&&at| group(at, images, seed)).count();
    (passed, with.len() - passed)
}
