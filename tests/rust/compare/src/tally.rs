// What the random calls have reached: stalls by phase, interrupts, refusals, rows of the clock table.
// Paper: "Clock by clock", the interrupt rule and the clock table, written here a second time.
// A run is repeated clock by clock, so that it is also compared with single clocks; a count of zero is a failure.
use crate::call::Lent;
use crate::sentences;
use crate::side::{from_record, to_record};
use simulator::{Line, Record};
use std::ops::RangeInclusive;

/// Rows of the clock table, each with its sentence.
pub const ROWS: [(&str, &str); 24] = [
    ("S2.6", "0-7, 10"),
    ("S2.6", "11 with the cache left as it is"),
    ("S2.6", "14 not taken"),
    ("S2.7", "14 taken"),
    ("S2.7", "15"),
    ("S2.7", "11 jump"),
    ("S2.7", "11 jump and link"),
    ("S2.7", "11 return from interrupt (01)"),
    ("S2.7", "11 return from interrupt (11)"),
    ("S2.8", "8"),
    ("S2.8", "9"),
    ("S2.9", "LD device"),
    ("S2.9", "ST device"),
    ("S2.9", "LD hit"),
    ("S2.9", "ST hit"),
    ("S2.10", "LD clean miss"),
    ("S2.10", "ST clean miss"),
    ("S2.10", "LD dirty miss"),
    ("S2.10", "ST dirty miss"),
    ("S2.11", "LD uncached"),
    ("S2.11", "ST uncached"),
    ("S2.12", "emptying, no dirty line"),
    ("S2.12", "emptying, one dirty line"),
    ("S2.12", "emptying, more dirty lines"),
];

/// Events that random calls easily miss.
const EVENTS: [&str; 6] = [
    "S2.3 interrupt in the clock after a return from interrupt",
    "S2.3 interrupt in the clock after a status word",
    "S2.3 interrupt in the clock after another instruction",
    "S2.3 line high in flight and lost",
    "S2.3 both lines high and enabled",
    "S1.28 PC from FFFH to 0",
];

/// The calls in the order of `accepted`, each with its sentence.
const CALLS: [(&str, &str); 6] =
    [("S1.3", "reset"), ("S2.31", "clock"), ("S2.33", "run"), ("S2.35", "look"), ("S2.35", "copy"), ("S2.37", "watch")];

/// The counts of each phase.
const COUNTS: [RangeInclusive<usize>; 6] = [0..=0, 1..=32, 0..=9, 0..=9, 1..=5, 0..=0];

/// The index of a phase and count, held or not, among the clocks counted.
fn place(held: bool, phase: usize, count: usize) -> usize {
    (usize::from(held) * 6 + phase) * 33 + count
}

#[derive(Default)]
pub struct Tally {
    pub stalls: [u64; 6],
    /// Accepted clocks by phase and count, unheld and held.
    clocks: Vec<u64>,
    events: [u64; 6],
    pub interrupts: [u64; 2],
    pub numbers: [u64; 11],
    pub rows: [u64; 24],
    pub accepted: [u64; 6],
    /// Clocks that were also called with the record lent: accepted, refused.
    pub lent: [u64; 2],
}

/// The row of the clock table and the charge of the word at PC, for a record that is ready.
fn charge(record: &Record, program: &[u32], size: usize) -> (usize, u64) {
    let state = &record.state;
    let word = program.get(state.pc as usize).copied().unwrap_or(0x3BC00);
    match word >> 14 {
        8 => (9, 33),
        9 => (10, 33),
        11 if word & 0x400 != 0 => ([5, 7, 6, 8][(word >> 8 & 3) as usize], 2),
        11 if state.status & 8 != 0 && word & 8 == 0 => {
            let dirty = record.cache.lines.iter().filter(|line| line.dirty == 1).count();
            (21 + dirty.min(2), 1 + 10 * dirty as u64)
        }
        11 => (1, 1),
        operation @ (12 | 13) => access(record, word, operation == 12, size),
        14 => {
            let flags = &state.flags;
            let met = holds(word >> 10 & 15, flags.n == 1, flags.z == 1, flags.c == 1, flags.v == 1);
            (if met { 3 } else { 2 }, if met { 2 } else { 1 })
        }
        15 => (4, 2),
        _ => (0, 1),
    }
}

fn access(record: &Record, word: u32, load: bool, size: usize) -> (usize, u64) {
    let bank = if record.state.status & 4 != 0 { 8 } else { 0 };
    let base = if word & 7 == 7 { 0 } else { record.registers[bank + (word & 7) as usize] };
    let address = (base as usize + (word as usize >> 3 & 255)) % 65536;
    let (row, clocks) = if address >= 65536 - 64 {
        (11, [1, 2])
    } else if record.state.status & 8 == 0 {
        (19, [5, 6])
    } else {
        let block = address % size / 8;
        let Line { full, dirty, block: held } = record.cache.lines[block % 16];
        if full == 1 && usize::from(held) == block {
            (13, [1, 2])
        } else if dirty == 1 {
            (17, [22, 22])
        } else {
            (15, [12, 12])
        }
    };
    (row + usize::from(!load), clocks[usize::from(load)])
}

/// The sixteen conditions of operation 14, the opposites as in the paper.
#[allow(clippy::nonminimal_bool)]
pub fn holds(condition: u32, n: bool, z: bool, c: bool, v: bool) -> bool {
    match condition {
        0 => z,
        1 => !z,
        2 => c,
        3 => !c,
        4 => n,
        5 => !n,
        6 => v,
        7 => !v,
        8 => c && !z,
        9 => !(c && !z),
        10 => n == v,
        11 => n != v,
        12 => n == v && !z,
        13 => !(n == v && !z),
        14 => true,
        _ => false,
    }
}

fn enabled(record: &Record, line_byte: u8) -> u32 {
    u32::from(line_byte) & record.state.status as u32 & 3
}

impl Tally {
    /// Runs accepted clocks one by one; returns the state that they should give, or a charge that is wrong.
    pub fn observe(&mut self, lent: &Lent, line_bytes: &[u8], inputs: &[u32]) -> Result<Lent, String> {
        self.clocks.resize(place(true, 5, 32) + 1, 0);
        let mut record = to_record(&lent.machine);
        let mut store = lent.store.clone();
        let mut begun: Option<(usize, u64)> = None;
        let (mut spent, mut last) = (0, None);
        for (&line_byte, &input) in line_bytes.iter().zip(inputs) {
            let (held, phase, pc) = (line_byte & 4 != 0, record.state.phase, record.state.pc);
            self.clocks[place(held, phase as usize, record.state.count as usize)] += 1;
            self.stalls[phase as usize] += u64::from(held);
            if !held && phase == 0 {
                begun = match self.interrupt(&record, line_byte, last) {
                    true => None,
                    false => Some(charge(&record, &lent.program, store.len())),
                };
                spent = 0;
            } else if !held {
                self.events[3] += u64::from(record.state.status & 4 == 0 && enabled(&record, line_byte) != 0);
            }
            spent += u64::from(!held);
            let answer = simulator::clock(&mut record, &lent.program, &mut store, line_byte, input);
            let finished =
                answer.map_err(|number| format!("S2.33 a clock of a run is refused with {number}"))?.finished;
            if finished == 1 {
                self.finish(begun.take(), spent)?;
                self.events[5] += u64::from(pc == 4095 && record.state.pc == 0);
            }
            if !held {
                let word = lent.program.get(pc as usize).copied().unwrap_or(0x3BC00);
                last = (finished == 1).then_some(word);
            }
        }
        Ok(Lent { machine: from_record(&record), program: lent.program.clone(), store })
    }

    /// Whether a clock that is not held and finds the machine ready takes an interrupt.
    fn interrupt(&mut self, record: &Record, line_byte: u8, last: Option<u32>) -> bool {
        let raised = enabled(record, line_byte);
        if record.state.status & 4 != 0 || raised == 0 {
            return false;
        }
        self.interrupts[usize::from(raised & 1 == 0)] += 1;
        self.events[4] += u64::from(raised == 3);
        match last {
            Some(word) if word >> 14 == 11 && word & 0x500 == 0x500 => self.events[0] += 1,
            Some(word) if word >> 14 == 11 && word & 0x400 == 0 => self.events[1] += 1,
            Some(_) => self.events[2] += 1,
            None => (),
        }
        true
    }

    fn finish(&mut self, begun: Option<(usize, u64)>, spent: u64) -> Result<(), String> {
        let Some((row, charge)) = begun else { return Ok(()) };
        let (id, name) = ROWS[row];
        self.rows[row] += 1;
        if charge == spent {
            Ok(())
        } else {
            Err(format!("{id} {name}: charge {charge}, spent {spent}"))
        }
    }

    /// The smallest count over all phases and counts, held or not.
    fn rarest(&self, held: bool) -> u64 {
        let met = |phase: usize, count: usize| self.clocks.get(place(held, phase, count)).copied().unwrap_or(0);
        let of_phase = |phase: usize| COUNTS[phase].clone().map(move |count| met(phase, count)).min();
        (0..6).filter_map(of_phase).min().unwrap_or(0)
    }

    /// Every count with its name; none may be zero.
    pub fn counts(&self) -> Vec<(String, u64)> {
        let mut counts = Vec::new();
        counts.extend((0..6).map(|phase| (format!("S2.2 stalls in phase {phase}"), self.stalls[phase])));
        counts.extend((0..2).map(|k| (format!("S2.3 interrupts by interrupt line {k}"), self.interrupts[k])));
        counts.extend((0..6).map(|event| (EVENTS[event].into(), self.events[event])));
        counts.push(("S2.25 clocks in the rarest phase and count".into(), self.rarest(false)));
        counts.push(("S2.2 stalls in the rarest phase and count".into(), self.rarest(true)));
        let refused = |number: u32| format!("{} refusals with {number}", sentences::row(number));
        counts.extend((3..=9).map(|number| (refused(number), self.numbers[number as usize])));
        counts.extend(ROWS.iter().zip(self.rows).map(|((id, name), count)| (format!("{id} charged: {name}"), count)));
        counts.extend(
            CALLS.iter().zip(self.accepted).map(|((id, name), count)| (format!("{id} accepted: {name}"), count)),
        );
        counts.push(("S2.32 accepted: lent clock".into(), self.lent[0]));
        counts.push(("S2.32 refused: lent clock".into(), self.lent[1]));
        counts
    }
}
