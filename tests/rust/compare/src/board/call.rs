// A call of the board with its own inputs, executed on one side, and its outcome.
// Paper: A1, "A serial board above the core"; "It returns the number only and writes nothing".
// Lent words are between guard words, so that a write outside them is detected.
use super::declared::{Board, Devices};
use super::side::{no_board, Buffers, Lent, Side};
use crate::call::{place, Fenced, FENCE, FENCE_BYTE};
use crate::fields;

#[derive(Clone)]
pub enum Call {
    Reset,
    Clock { joined: bool, given: u8, switches: u8 },
    Run(Run),
}

/// A run, with the old contents of its buffers.
#[derive(Clone)]
pub struct Run {
    pub joined: bool,
    pub given: Vec<u8>,
    pub switches: Vec<u8>,
    pub levels: Vec<u8>,
    pub bytes: Vec<u8>,
    pub words: Vec<u32>,
}

/// Everything that a call may have changed or returned.
pub struct Outcome {
    pub number: u32,
    pub board: Board,
    pub store: Vec<u32>,
    pub levels: Vec<u8>,
    pub bytes: Vec<u8>,
    pub words: Vec<u32>,
    pub answers: [(&'static str, u64); 5],
    pub guarded: bool,
}

/// The fields of the devices: name and highest value.
pub const FIELDS: [(&str, u64); 8] = [
    ("serial.left", 10_120),
    ("serial.sent", 255),
    ("serial.passed", 9613),
    ("serial.bits", 255),
    ("serial.byte", 255),
    ("serial.ready", 1),
    ("tick", 1),
    ("lamps", 1023),
];

/// A field of the devices, in the order of `FIELDS`.
pub fn field(devices: &mut Devices, number: usize) -> &mut u64 {
    let serial = &mut devices.serial;
    match number {
        0 => &mut serial.left,
        1 => &mut serial.sent,
        2 => &mut serial.passed,
        3 => &mut serial.bits,
        4 => &mut serial.byte,
        5 => &mut serial.ready,
        6 => &mut devices.tick,
        _ => &mut devices.lamps,
    }
}

impl Run {
    /// Buffers of the run's length with old contents.
    pub fn new(joined: bool, given: Vec<u8>, switches: Vec<u8>) -> Run {
        let count = given.len();
        Run { joined, given, switches, levels: vec![0xEE; count], bytes: vec![0xEE; count], words: vec![0xEEEE; count] }
    }
}

impl Call {
    /// Executes the call on copies of what it may write.
    pub fn perform(&self, side: Side, lent: &Lent) -> Outcome {
        let none = Run::new(false, Vec::new(), Vec::new());
        let run = if let Call::Run(run) = self { run } else { &none };
        let mut store = Fenced::new(&lent.store, FENCE, Vec::new());
        let mut levels = Fenced::new(&run.levels, FENCE_BYTE, Vec::new());
        let mut bytes = Fenced::new(&run.bytes, FENCE_BYTE, Vec::new());
        let mut words = Fenced::new(&run.words, FENCE, Vec::new());
        let (board, program) = (&lent.board, &lent.program[..]);
        let mut answers = [("level", 0), ("byte", 0), ("word", 0), ("finished", 0), ("used", 0)];
        let (board, number) = match self {
            Call::Reset => {
                let answer = side.reset(store.lend());
                (answer.board, answer.number)
            }
            Call::Clock { joined, given, switches } => {
                let answer = side.clock(*joined, board, program, store.lend(), *given, *switches);
                (answers[0].1, answers[1].1) = (answer.level.into(), answer.byte.into());
                (answers[2].1, answers[3].1) = (answer.word.into(), answer.finished);
                (answer.board, answer.number)
            }
            Call::Run(run) => {
                let buffers = Buffers { levels: levels.lend(), bytes: bytes.lend(), words: words.lend() };
                let answer = side.run(run.joined, board, program, store.lend(), &run.given, &run.switches, buffers);
                (answers[3].1, answers[4].1) = (answer.finished, answer.used);
                (answer.board, answer.number)
            }
        };
        let ((store, a), (levels, b)) = (store.back(), levels.back());
        let ((bytes, c), (words, d)) = (bytes.back(), words.back());
        Outcome { number, board, store, levels, bytes, words, answers, guarded: a && b && c && d }
    }

    /// A short text for a report.
    pub fn describe(&self) -> String {
        match self {
            Call::Reset => "board reset".into(),
            Call::Clock { joined, given, switches } => {
                format!("board clock, joined {joined}, given {given}, switches {switches:X}H")
            }
            Call::Run(run) => {
                let sizes = (run.given.len(), run.switches.len(), run.levels.len(), run.bytes.len(), run.words.len());
                let first: Vec<u8> = run.given.iter().take(200).copied().collect();
                format!("board run, joined {}, lengths {sizes:?}, first given {first:?}", run.joined)
            }
        }
    }
}

/// The first field in which two boards differ.
pub fn board_difference(left: &Board, right: &Board) -> Option<String> {
    let (mut l, mut r) = (left.devices, right.devices);
    for (number, (name, _)) in FIELDS.iter().enumerate() {
        let (old, new) = (*field(&mut l, number), *field(&mut r, number));
        if old != new {
            return Some(format!("A1 board field {name}: {old} against {new}"));
        }
    }
    fields::difference(&left.machine, &right.machine)
}

/// The first difference between two outcomes of one call.
pub fn difference(left: &Outcome, right: &Outcome) -> Option<String> {
    if left.number != right.number {
        return Some(format!("A1 number: {} against {}", left.number, right.number));
    }
    let answers = || {
        let (l, r) = left.answers.iter().zip(&right.answers).find(|(l, r)| l.1 != r.1)?;
        Some(format!("A1 answer {}: {:X}H against {:X}H", l.0, l.1, r.1))
    };
    board_difference(&left.board, &right.board)
        .or_else(|| place("A1 store word", &left.store, &right.store))
        .or_else(answers)
        .or_else(|| place("A1 level", &left.levels, &right.levels))
        .or_else(|| place("A1 answer byte", &left.bytes, &right.bytes))
        .or_else(|| place("A1 answer word", &left.words, &right.words))
}

/// What a refused call changed or answered; none if nothing.
pub fn untouched(call: &Call, lent: &Lent, outcome: &Outcome) -> Option<String> {
    if let Some(answer) = outcome.answers.iter().find(|answer| answer.1 != 0) {
        return Some(format!("answer {} of a refused call: {:X}H", answer.0, answer.1));
    }
    let board = if matches!(call, Call::Reset) { no_board() } else { lent.board };
    let changed = board_difference(&board, &outcome.board);
    let changed = changed.or_else(|| place("A1 store word", &lent.store, &outcome.store));
    let Call::Run(run) = call else { return changed };
    changed
        .or_else(|| place("A1 level", &run.levels, &outcome.levels))
        .or_else(|| place("A1 answer byte", &run.bytes, &outcome.bytes))
        .or_else(|| place("A1 answer word", &run.words, &outcome.words))
}
