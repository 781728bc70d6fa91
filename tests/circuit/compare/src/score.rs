// What was compared and the outcome: passes and failures, totals of a group, which switch is noticed where.
// Paper: nothing.
// A switch must be noticed by its programs, and by the groups of images that list it.
use circuit::{Listing, Row, Switch, TABLE};
use compare::groups::{must_show, GROUPS};
use std::fmt;

#[derive(Default)]
pub struct Score {
    pub passed: u64,
    pub failed: u64,
}

impl Score {
    pub fn judge(&mut self, what: &str, result: Result<(), String>) {
        match result {
            Ok(()) => self.passed += 1,
            Err(why) => {
                self.failed += 1;
                println!("FAILED: {what}: {why}");
            }
        }
    }
}

#[derive(Default)]
pub struct Totals {
    pub images: u64,
    instructions: u64,
    interrupts: u64,
    clocks: u64,
    held: u64,
}

impl Totals {
    pub fn of(listing: &Listing) -> Totals {
        let Listing { instructions, interrupts, clocks, held, .. } = *listing;
        Totals { images: 1, instructions, interrupts, clocks, held }
    }

    pub fn add(&mut self, more: &Totals) {
        self.images += more.images;
        self.instructions += more.instructions;
        self.interrupts += more.interrupts;
        self.clocks += more.clocks;
        self.held += more.held;
    }
}

impl fmt::Display for Totals {
    fn fmt(&self, out: &mut fmt::Formatter) -> fmt::Result {
        let Totals { images, instructions, interrupts, clocks, held } = self;
        write!(
            out,
            "{images} images, {instructions} instructions, {interrupts} interrupts, {clocks} clocks, {held} of them held"
        )
    }
}

/// For each switch: whether its programs show it, and in how many images of how many each group does.
pub struct Noticed {
    programs: [bool; TABLE.len()],
    images: [[(u64, u64); GROUPS.len()]; TABLE.len()],
}

impl Default for Noticed {
    fn default() -> Noticed {
        Noticed { programs: [false; TABLE.len()], images: [[(0, 0); GROUPS.len()]; TABLE.len()] }
    }
}

impl Noticed {
    pub fn by_program(&mut self, switch: Switch) {
        self.programs[switch as usize] = true;
    }

    pub fn by_group(&mut self, switch: Switch, group: usize, differs: bool) {
        let (found, of) = &mut self.images[switch as usize][group];
        *found += u64::from(differs);
        *of += 1;
    }

    /// Prints what each switch on Published alone changes; a failure for each that is not noticed where it must be.
    /// Groups are checked only if enough of their images were run again.
    pub fn judge(&self, score: &mut Score, groups: bool) {
        println!("one switch on Published: noticed by its program, and in how many images of each group");
        for (at, row) in TABLE.iter().enumerate() {
            let Row { name, sentence, listed, .. } = row;
            let count = |&(found, of): &(u64, u64)| if of == 0 { "-".into() } else { format!("{found}/{of}") };
            let counts: String = self.images[at].iter().map(|pair| format!(" {:>6}", count(pair))).collect();
            let listed = if *listed { "listed" } else { "" };
            let program = if self.programs[at] { "program" } else { "no program" };
            println!("{at:>4} {sentence:5} {name:8} {listed:6} {program:10}{counts}");
            score.judge(&format!("{sentence} {name}"), self.seen(row.switch, groups));
        }
    }

    fn seen(&self, switch: Switch, groups: bool) -> Result<(), String> {
        if !self.programs[switch as usize] {
            return Err("its programs do not show it".into());
        }
        let missed = |&at: &usize| must_show(at, switch) && self.images[switch as usize][at].0 == 0;
        match (0..GROUPS.len()).find(missed) {
            Some(at) if groups => Err(format!("no image of `{}` shows it", GROUPS[at].name)),
            _ => Ok(()),
        }
    }
}
