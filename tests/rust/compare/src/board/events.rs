// What the board's clocks have reached: events that a comparison easily misses.
// Paper: A1, "A serial board above the core".
// A count of zero is a failure.
use super::declared::{Board, BoardClockAnswer, Serial};

/// One accepted clock: the board before it and one clock earlier, what was given, what it answered.
struct Seen<'a> {
    earlier: Option<&'a Board>,
    before: &'a Board,
    given: u8,
    answer: &'a BoardClockAnswer,
}

type Event = (&'static str, fn(&Seen) -> bool);

const EVENTS: [Event; 27] = [
    ("write to 4 accepted", |seen| seen.accepts()),
    ("write to 4 accepted in the first free clock", |seen| seen.accepts() && seen.was_busy()),
    ("write to 4 accepted of a word above 255", |seen| seen.accepts() && seen.answer.word > 255),
    ("write to 4 dropped", |seen| seen.writes(4) && !seen.accepts()),
    ("write to 4 dropped in the last busy clock", |seen| seen.writes(4) && seen.serial().left == 1),
    ("byte received", |seen| seen.receives()),
    ("byte received over an unread one", |seen| seen.receives() && seen.serial().ready == 1 && !seen.reads(4)),
    ("byte received in a held clock", |seen| seen.receives() && seen.held()),
    ("read of 4 that finds the bit set", |seen| seen.reads(4) && seen.serial().ready == 1),
    ("read of 4 in the clock of the stop sample", |seen| seen.reads(4) && seen.receives()),
    ("read of 5 in the clock of the stop sample", |seen| seen.reads(5) && seen.receives()),
    ("read of 5 in the last busy clock", |seen| seen.reads(5) && seen.serial().left == 1),
    ("read of 5 in the first free clock", |seen| seen.reads(5) && seen.serial().left == 0 && seen.was_busy()),
    ("frame begun in the clock after a stop sample", |seen| seen.begins() && seen.received_before()),
    ("frame begun in a held clock", |seen| seen.begins() && seen.held()),
    ("data bit sampled", |seen| seen.samples()),
    ("data bit sampled in a held clock", |seen| seen.samples() && seen.held()),
    ("tick risen", |seen| seen.rises()),
    ("tick risen in a held clock", |seen| seen.rises() && seen.held()),
    ("tick risen in the clock of a clearing write", |seen| seen.rises() && seen.writes(6)),
    ("tick risen in the clock of a lamp write", |seen| seen.rises() && seen.writes(7)),
    ("tick cleared", |seen| seen.before.devices.tick == 1 && seen.answer.board.devices.tick == 0),
    ("tick taken as interrupt 0 in the clock after its rise", |seen| seen.interrupts() && seen.rose_before()),
    ("read of 6 in the clock of a rise", |seen| seen.reads(6) && seen.rises()),
    ("lamps above 255", |seen| seen.writes(7) && seen.answer.board.devices.lamps > 255),
    ("read of 7", |seen| seen.reads(7)),
    ("access to a device not named", |seen| seen.answer.byte != 0 && !(4..=7).contains(&(seen.answer.byte >> 2))),
];

impl Seen<'_> {
    fn serial(&self) -> &Serial {
        &self.before.devices.serial
    }

    fn held(&self) -> bool {
        self.given & 4 != 0
    }

    fn reads(&self, device: u8) -> bool {
        self.answer.byte == device << 2 | 1
    }

    fn writes(&self, device: u8) -> bool {
        self.answer.byte == device << 2 | 2
    }

    fn accepts(&self) -> bool {
        self.writes(4) && self.serial().left == 0
    }

    /// The clock before was the last of a frame being sent.
    fn was_busy(&self) -> bool {
        self.earlier.is_some_and(|board| board.devices.serial.left == 1)
    }

    fn receives(&self) -> bool {
        self.serial().passed == 9613
    }

    fn received_before(&self) -> bool {
        self.earlier.is_some_and(|board| board.devices.serial.passed == 9613)
    }

    fn begins(&self) -> bool {
        self.serial().passed == 0 && self.answer.board.devices.serial.passed == 1
    }

    fn samples(&self) -> bool {
        let clock = self.serial().passed + 1;
        clock > 1012 && clock % 1012 == 506 && !self.receives()
    }

    fn rises(&self) -> bool {
        self.answer.board.machine.clocks.is_multiple_of(116_600)
    }

    fn rose_before(&self) -> bool {
        let clocks = self.before.machine.clocks;
        clocks > 0 && clocks.is_multiple_of(116_600)
    }

    fn interrupts(&self) -> bool {
        let (before, after) = (&self.before.machine, &self.answer.board.machine);
        before.status & 4 == 0 && after.status & 4 != 0 && after.pc == 2
    }
}

#[derive(Default)]
pub struct Events {
    counts: [u64; EVENTS.len()],
    /// Board calls refused, by number.
    pub refused: [u64; 9],
    /// Board calls accepted: reset, clock, run; not joined, joined.
    pub accepted: [[u64; 2]; 3],
}

impl Events {
    /// Notes an accepted clock; `earlier` is the board one clock before `before`, if known.
    pub fn observe(&mut self, earlier: Option<&Board>, before: &Board, given: u8, answer: &BoardClockAnswer) {
        let seen = Seen { earlier, before, given, answer };
        for (count, (_, met)) in self.counts.iter_mut().zip(EVENTS) {
            *count += u64::from(met(&seen));
        }
    }

    /// Every count with its name; none may be zero.
    pub fn counts(&self) -> Vec<(String, u64)> {
        let met = EVENTS.iter().zip(self.counts).map(|((name, _), count)| (format!("A1 {name}"), count));
        let refused = (3..=8).map(|number| (format!("A1 refusals with {number}"), self.refused[number]));
        let [resets, clocks, runs] = self.accepted;
        let accepted = [
            ("reset", resets[0]),
            ("clock", clocks[0]),
            ("joined clock", clocks[1]),
            ("run", runs[0]),
            ("joined run", runs[1]),
        ];
        let accepted = accepted.map(|(name, count)| (format!("A1 accepted: board {name}"), count));
        met.chain(refused).chain(accepted).collect()
    }
}
