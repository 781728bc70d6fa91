// Programs for the switches: each shows what a switch changes, with both expected results written out by hand.
// Source: Part 1, for the published result. Paper: for the other one.
// Expected results come from the texts and from counting clocks; none is a printout of the circuit.
mod access;
mod agreed;
mod entries;
mod held;
mod interrupts;
mod values;

use circuit::words::{literal, MUL};
use circuit::{Circuit, Lister, Out, Setting, Switch, Switches};
use std::fmt::Write;

/// A row of a listing: clock, address, took; the word is the program's at that address.
#[derive(Clone, Copy)]
pub enum Row {
    Word(u32, u32, u32),
    /// An interrupt: clock, saved PC, interrupt line, took.
    Irq(u32, u32, u32, u32),
}

/// A part of the state at the end.
#[derive(Clone, Copy)]
pub enum State {
    Register(usize, u32),
    High(u32),
    Status(u32),
}

/// What a setting must give: the listing, every device access as (clock, byte, word), and part of the state.
#[derive(Clone, Copy)]
pub struct Expect {
    pub rows: &'static [Row],
    pub accesses: &'static [(u32, u8, u32)],
    pub state: &'static [State],
}

/// Clocks with one line byte and one input word, or a reset, which restarts the listing.
#[derive(Clone, Copy)]
pub enum Step {
    Clocks(u32, u8, u32),
    Reset,
}

pub struct Case {
    pub switch: Switch,
    pub what: &'static str,
    pub program: &'static [u32],
    /// Switches that are on Published in both runs; all others but `switch` are on Paper.
    pub base: &'static [Switch],
    pub steps: &'static [Step],
    pub published: Expect,
    pub paper: Expect,
}

/// A program's last word: MUL R1 1, which is not finished when the clocks end.
pub const LONG: u32 = literal(MUL, 1, 1);

/// Clocks with line byte 0 and input word 0.
pub const fn quiet(count: u32) -> Step {
    Step::Clocks(count, 0, 0)
}

/// Only a listing, and no device access.
pub const fn listing(rows: &'static [Row]) -> Expect {
    Expect { rows, accesses: &[], state: &[] }
}

/// Every case, in the order of the switches.
pub fn cases() -> Vec<&'static Case> {
    let mut all: Vec<&Case> = Vec::new();
    for part in [values::CASES, access::CASES, held::CASES, interrupts::CASES, entries::CASES] {
        all.extend(part);
    }
    all.sort_by_key(|case| case.switch as usize);
    all
}

pub use agreed::AGREED;

/// A case's switches with its own on `setting`.
pub fn switches(case: &Case, setting: Setting) -> Switches {
    let published = |all: Switches, &switch: &Switch| all.with(switch, Setting::Published);
    let base = case.base.iter().fold(Switches::all(Setting::Paper), published);
    base.with(case.switch, setting)
}

/// The text a listing must have; clocks and held clocks are those since the last reset.
fn text(program: &[u32], steps: &[Step], expect: &Expect) -> String {
    let mut text = String::from("clock at word took\n");
    for row in expect.rows {
        // Writing to a string does not fail.
        let _ = match *row {
            Row::Word(clock, at, took) => writeln!(text, "{clock} {at:03X} {:05X} {took}", program[at as usize]),
            Row::Irq(clock, at, interrupt_line, took) => writeln!(text, "{clock} {at:03X} irq{interrupt_line} {took}"),
        };
    }
    let (mut clocks, mut held) = (0, 0);
    for step in steps {
        match step {
            Step::Clocks(count, line_byte, _) => {
                clocks += count;
                held += if line_byte & 4 == 0 { 0 } else { *count };
            }
            Step::Reset => (clocks, held) = (0, 0),
        }
    }
    text + &format!("end {clocks} held {held} refills 0 writebacks 0\n")
}

/// Runs a program and reports what is not as expected.
pub fn run(program: &[u32], steps: &[Step], switches: Switches, expect: &Expect) -> Result<(), String> {
    let mut lister = Lister::new(Circuit::new(switches, program, &[0; 2048]));
    let mut accesses = Vec::new();
    for step in steps {
        match *step {
            Step::Clocks(count, line_byte, input) => {
                for _ in 0..count {
                    let Out { byte, word } = lister.clock(line_byte, input);
                    if byte != 0 {
                        accesses.push((lister.listing.clocks as u32, byte, word));
                    }
                }
            }
            Step::Reset => {
                lister = lister.reset();
                accesses.clear();
            }
        }
    }
    if accesses != expect.accesses {
        return Err(format!("device accesses {accesses:?}, expected {:?}", expect.accesses));
    }
    state(&lister.circuit, expect.state)?;
    let (got, wanted) = (lister.end().text, text(program, steps, expect));
    if got == wanted {
        Ok(())
    } else {
        Err(format!("listing\n{got}expected\n{wanted}"))
    }
}

fn state(circuit: &Circuit, expected: &[State]) -> Result<(), String> {
    for part in expected {
        let (name, got, wanted) = match *part {
            State::Register(number, wanted) => (format!("register {number}"), circuit.registers[number], wanted),
            State::High(wanted) => ("H".into(), circuit.h, wanted),
            State::Status(wanted) => ("status".into(), circuit.status(), wanted),
        };
        if got != wanted {
            return Err(format!("{name} is {got:08X}, expected {wanted:08X}"));
        }
    }
    Ok(())
}
