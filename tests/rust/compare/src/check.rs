// One call on both sides, with everything about it compared.
// Paper: all calls; "It returns the number only and writes nothing".
// The first difference is printed with its seed, and ends the program.
use crate::call::{difference, untouched, Call, Lent, Outcome};
use crate::library::Library;
use crate::sentences;
use crate::side::Simulator;
use crate::tally::Tally;
use std::mem::take;

#[derive(Default)]
pub struct Check {
    pub tally: Tally,
    /// Calls compared, and clocks in them.
    pub calls: u64,
    pub clocks: u64,
    /// Checks passed: groups, clauses, edges, counts.
    pub passed: u64,
    /// The current part of the comparison, and the seed to return to it.
    pub part: String,
    pub seed: u64,
    /// Whether runs are repeated clock by clock for the tally.
    pub observing: bool,
    /// Memory of the library's stores in the last call, to be used again: by value, lent.
    pub rooms: [Vec<u32>; 2],
    /// What the clocks of the board have reached.
    pub board: crate::board::events::Events,
}

impl Check {
    pub fn fail(&self, what: &str) -> ! {
        println!(
            "difference in {}, seed {}, after {} calls and {} clocks",
            self.part, self.seed, self.calls, self.clocks
        );
        println!("{what}");
        println!("(the simulator is named first; --seed {} --rounds 1 leads here again)", self.seed);
        println!("{} passed, 1 failed", self.passed);
        std::process::exit(1);
    }

    fn report(&self, lent: &Lent, call: &Call, what: &str) -> ! {
        let m = &lent.machine;
        let word = lent.program.get(m.pc as usize).copied().unwrap_or(0x3BC00);
        let label = sentences::in_flight(word, m.phase);
        let place = format!("{label} word at PC {:X}H: {word:05X}H, phase {}, count {}", m.pc, m.phase, m.count);
        let sizes = (lent.program.len(), lent.store.len());
        let rest = format!("status {:X}H, lengths of program and store {sizes:?}", m.status);
        self.fail(&format!("call: {} {}\n{place}, {rest}\n{what}", call.sentence(), call.describe()))
    }

    /// Executes the call on both sides and returns the common outcome.
    pub fn call(&mut self, lent: &Lent, call: &Call) -> Outcome {
        let ours = call.perform(&Simulator, lent, Vec::new());
        let theirs = call.perform(&Library::ByValue, lent, take(&mut self.rooms[0]));
        self.calls += 1;
        if let Some(what) = difference(call, &ours, &theirs) {
            self.report(lent, call, &what);
        }
        if !ours.guarded || !theirs.guarded {
            self.report(lent, call, "S8.7 a word beside the lent ones was written");
        }
        self.judge(lent, call, &ours);
        self.judge(lent, call, &theirs);
        if matches!(call, Call::Clock { .. }) {
            self.lend(lent, call, &theirs);
        }
        self.count(lent, call, &ours);
        self.rooms[0] = theirs.store;
        ours
    }

    /// The same clock with the record lent, on copies of record and store, must give the same outcome as by value.
    fn lend(&mut self, lent: &Lent, call: &Call, by_value: &Outcome) {
        let lending = call.perform(&Library::Lending, lent, take(&mut self.rooms[1]));
        if let Some(what) = difference(call, by_value, &lending) {
            self.report(lent, call, &format!("S2.32 by value against lent: {what}"));
        }
        if !lending.guarded {
            self.report(lent, call, "S2.32 lent: a word beside the lent ones was written");
        }
        self.tally.lent[usize::from(by_value.number != 0)] += 1;
        self.rooms[1] = lending.store;
    }

    /// Checks one side's outcome by itself against the paper.
    fn judge(&self, lent: &Lent, call: &Call, outcome: &Outcome) {
        if outcome.number != 0 {
            if let Some(what) = untouched(call, lent, outcome) {
                self.report(lent, call, &format!("S3.2 refused with {} and yet changed: {what}", outcome.number));
            }
        } else if let Call::Watch { bytes, device } = call {
            let (found, clock) = (outcome.answers[4].1, outcome.answers[5].1);
            let shows = |byte: &u8| byte & 2 != 0 && u32::from(byte >> 2) == *device;
            let good = match found {
                1 => bytes.get(clock as usize).is_some_and(shows),
                _ => found == 0 && clock == 0 && !bytes.iter().any(shows),
            };
            if !good {
                self.report(lent, call, &format!("S2.37 watch: found {found}, clock {clock}"));
            }
        }
    }

    fn count(&mut self, lent: &Lent, call: &Call, outcome: &Outcome) {
        if outcome.number != 0 {
            self.tally.numbers[(outcome.number as usize).min(10)] += 1;
            return;
        }
        let names = ["reset", "clock", "run", "look", "copy", "watch"];
        let kind = names.iter().position(|name| *name == call.name()).unwrap();
        self.tally.accepted[kind] += 1;
        self.clocks += call.clocks();
        if self.observing {
            let (line_byte, word);
            let (line_bytes, inputs): (&[u8], &[u32]) = match call {
                Call::Run { line_bytes, inputs, .. } => (line_bytes, inputs),
                Call::Clock { line_byte: l, input } => {
                    (line_byte, word) = ([*l], [*input]);
                    (&line_byte, &word)
                }
                _ => return,
            };
            match self.tally.observe(lent, line_bytes, inputs) {
                Err(what) => self.report(lent, call, &what),
                Ok(stepped) if stepped.machine != outcome.machine || stepped.store != outcome.store => {
                    self.report(lent, call, "S2.33 a run and its clocks one by one differ in the simulator")
                }
                Ok(_) => (),
            }
        }
    }

    /// The call must return this number, written in the test, on both sides.
    pub fn expect(&mut self, lent: &Lent, call: &Call, number: u32, why: &str) -> Outcome {
        let ours = call.perform(&Simulator, lent, Vec::new());
        let theirs = call.perform(&Library::ByValue, lent, Vec::new());
        for (side, outcome) in [("simulator", &ours), ("library", &theirs)] {
            if outcome.number != number {
                let what = format!("{why}: {number} expected, {} from the {side}", outcome.number);
                self.report(lent, call, &what);
            }
        }
        self.call(lent, call)
    }

    pub fn pass(&mut self) {
        self.passed += 1;
    }
}
