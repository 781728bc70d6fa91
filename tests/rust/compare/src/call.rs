// A call with everything that is lent to it, executed on one side, and its outcome.
// Paper: the calls of "Clock by clock"; "It returns the number only and writes nothing".
// Lent words are between guard words, so that a write outside them is detected.
use crate::fields;
use crate::library::Machine;
use crate::sentences;
use crate::side::Side;

/// What is lent to every call but reset and watch, in addition to its own inputs.
#[derive(Clone)]
pub struct Lent {
    pub machine: Machine,
    pub program: Vec<u32>,
    pub store: Vec<u32>,
}

#[derive(Clone, Debug)]
pub enum Call {
    Reset,
    Clock {
        line_byte: u8,
        input: u32,
    },
    /// The answer buffers with their old contents.
    Run {
        line_bytes: Vec<u8>,
        inputs: Vec<u32>,
        bytes: Vec<u8>,
        words: Vec<u32>,
    },
    Look {
        address: u32,
    },
    Copy {
        buffer: Vec<u32>,
    },
    Watch {
        bytes: Vec<u8>,
        device: u32,
    },
}

/// Everything that a call may have changed or returned.
#[derive(Clone)]
pub struct Outcome {
    pub number: u32,
    pub machine: Machine,
    pub store: Vec<u32>,
    pub bytes: Vec<u8>,
    pub words: Vec<u32>,
    /// Byte, word, finished; used; found and clock of a watch: each zero if the call does not return it.
    pub answers: [(&'static str, u64); 6],
    /// No guard word was written.
    pub guarded: bool,
}

const GUARD: usize = 4;
pub const FENCE: u32 = 0xFEED_FACE;
pub const FENCE_BYTE: u8 = 0xA5;

/// A copy of lent items with guards before and after.
pub struct Fenced<T: Copy + PartialEq> {
    items: Vec<T>,
    fence: T,
}

impl<T: Copy + PartialEq> Fenced<T> {
    /// Built in `room`, whose items are overwritten.
    pub fn new(items: &[T], fence: T, mut room: Vec<T>) -> Fenced<T> {
        let guard = [fence; GUARD];
        room.clear();
        room.reserve(items.len() + 2 * GUARD);
        for part in [&guard, items, &guard] {
            room.extend_from_slice(part);
        }
        Fenced { items: room, fence }
    }

    pub fn lend(&mut self) -> &mut [T] {
        let end = self.items.len() - GUARD;
        &mut self.items[GUARD..end]
    }

    /// The items, and whether the guards are unchanged.
    pub fn back(mut self) -> (Vec<T>, bool) {
        let end = self.items.len() - GUARD;
        let guards = self.items[..GUARD].iter().chain(&self.items[end..]);
        let whole = guards.into_iter().all(|guard| *guard == self.fence);
        self.items.truncate(end);
        self.items.drain(..GUARD);
        (self.items, whole)
    }
}

impl Call {
    /// Executes the call on a copy of the store, which is made in `room`.
    pub fn perform(&self, side: &dyn Side, lent: &Lent, room: Vec<u32>) -> Outcome {
        let mut store = Fenced::new(&lent.store, FENCE, room);
        let mut bytes = Fenced::new(self.bytes(), FENCE_BYTE, Vec::new());
        let mut words = Fenced::new(self.words(), FENCE, Vec::new());
        let (m, program) = (&lent.machine, &lent.program[..]);
        let mut machine = lent.machine;
        let mut answers = [("byte", 0), ("word", 0), ("finished", 0), ("used", 0), ("found", 0), ("clock", 0)];
        let number = match self {
            Call::Reset => {
                let answer = side.reset(store.lend());
                machine = answer.machine;
                answer.number
            }
            Call::Clock { line_byte, input } => {
                let answer = side.clock(m, program, store.lend(), *line_byte, *input);
                machine = answer.machine;
                (answers[0].1, answers[1].1) = (answer.byte.into(), answer.word.into());
                answers[2].1 = answer.finished;
                answer.number
            }
            Call::Run { line_bytes, inputs, .. } => {
                let answer = side.run(m, program, store.lend(), line_bytes, inputs, bytes.lend(), words.lend());
                machine = answer.machine;
                (answers[2].1, answers[3].1) = (answer.finished, answer.used);
                answer.number
            }
            Call::Look { address } => {
                let answer = side.look(m, program, store.lend(), *address);
                answers[1].1 = answer.word.into();
                answer.number
            }
            Call::Copy { .. } => side.copy(m, program, store.lend(), words.lend()),
            Call::Watch { bytes: watched, device } => {
                let answer = side.watch(watched, *device);
                (answers[4].1, answers[5].1) = (answer.found.into(), answer.clock);
                answer.number
            }
        };
        let ((store, a), (bytes, b), (words, c)) = (store.back(), bytes.back(), words.back());
        Outcome { number, machine, store, bytes, words, answers, guarded: a && b && c }
    }

    /// Old contents of the byte buffer.
    pub fn bytes(&self) -> &[u8] {
        match self {
            Call::Run { bytes, .. } => bytes,
            _ => &[],
        }
    }

    /// Old contents of the word buffer.
    pub fn words(&self) -> &[u32] {
        match self {
            Call::Run { words, .. } => words,
            Call::Copy { buffer } => buffer,
            _ => &[],
        }
    }

    /// The number of clocks that the call runs if it is accepted.
    pub fn clocks(&self) -> u64 {
        match self {
            Call::Clock { .. } => 1,
            Call::Run { line_bytes, .. } => line_bytes.len() as u64,
            _ => 0,
        }
    }

    pub fn name(&self) -> &'static str {
        match self {
            Call::Reset => "reset",
            Call::Clock { .. } => "clock",
            Call::Run { .. } => "run",
            Call::Look { .. } => "look",
            Call::Copy { .. } => "copy",
            Call::Watch { .. } => "watch",
        }
    }

    /// The sentence on the call.
    pub fn sentence(&self) -> &'static str {
        match self {
            Call::Reset => "S1.3",
            Call::Clock { .. } => "S2.31",
            Call::Run { .. } => "S2.33",
            Call::Look { .. } | Call::Copy { .. } => "S2.35",
            Call::Watch { .. } => "S2.37",
        }
    }

    /// A short text for a report.
    pub fn describe(&self) -> String {
        match self {
            Call::Reset => "reset".into(),
            Call::Clock { line_byte, input } => format!("clock, line byte {line_byte}, input word {input:X}H"),
            Call::Run { line_bytes, inputs, bytes, words } => {
                let sizes = (line_bytes.len(), inputs.len(), bytes.len(), words.len());
                let first: Vec<u8> = line_bytes.iter().take(200).copied().collect();
                format!("run, lengths of lines, inputs, bytes, words {sizes:?}, first line bytes {first:?}")
            }
            Call::Look { address } => format!("look at {address:X}H"),
            Call::Copy { buffer } => format!("copy into {} words", buffer.len()),
            Call::Watch { bytes, device } => format!("watch for device {device} in {} bytes", bytes.len()),
        }
    }
}

/// The first difference between two outcomes of one call. The watch's choice is checked elsewhere.
pub fn difference(call: &Call, left: &Outcome, right: &Outcome) -> Option<String> {
    if left.number != right.number {
        let row = sentences::rows(left.number, right.number);
        return Some(format!("{row} number: {} against {}", left.number, right.number));
    }
    let answers = || {
        let pairs = left.answers.iter().zip(&right.answers);
        let last = if matches!(call, Call::Watch { .. }) { 5 } else { 6 };
        let differs = pairs.take(last).find(|(l, r)| l.1 != r.1)?;
        Some(format!("answer {}: {:X}H against {:X}H", differs.0 .0, differs.0 .1, differs.1 .1))
    };
    if left.machine != right.machine {
        return fields::difference(&left.machine, &right.machine);
    }
    place("S2.16 store word", &left.store, &right.store)
        .or_else(answers)
        .or_else(|| place("S2.34 answer byte", &left.bytes, &right.bytes))
        .or_else(|| place("answer or copied word", &left.words, &right.words))
}

/// What a refused call changed of record, store and buffers, or answered; none if nothing.
pub fn untouched(call: &Call, lent: &Lent, outcome: &Outcome) -> Option<String> {
    let zeros = crate::side::zeros();
    let given = if matches!(call, Call::Reset) { &zeros } else { &lent.machine };
    if let Some(answer) = outcome.answers.iter().find(|answer| answer.1 != 0) {
        return Some(format!("answer {} of a refused call: {:X}H", answer.0, answer.1));
    }
    if outcome.machine != *given {
        return fields::difference(given, &outcome.machine);
    }
    place("S2.16 store word", &lent.store, &outcome.store)
        .or_else(|| place("S2.34 answer byte", call.bytes(), &outcome.bytes))
        .or_else(|| place("answer or copied word", call.words(), &outcome.words))
}

pub fn place<T: PartialEq + std::fmt::Debug>(name: &str, left: &[T], right: &[T]) -> Option<String> {
    if left == right {
        return None;
    }
    let at = left.iter().zip(right).position(|(l, r)| l != r)?;
    Some(format!("{name} {at}: {:?} against {:?}", left[at], right[at]))
}
