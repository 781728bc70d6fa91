// The board's calls on the two sides: the simulator and the library.
// Paper: A1, "A serial board above the core"; "It returns the number only and writes nothing".
// A refused clock or run returns the board as given and zeros; a refused reset a board of zeros.
use super::declared::*;
use crate::side::{from_record, to_record, zeros};
use simulator::board as model;

#[derive(Clone, Copy, PartialEq, Eq, Debug)]
pub enum Side {
    Simulator,
    Library,
}

/// What is lent to every call but reset, in addition to its own inputs.
#[derive(Clone)]
pub struct Lent {
    pub board: Board,
    pub program: Vec<u32>,
    pub store: Vec<u32>,
}

/// The buffers of a run.
pub struct Buffers<'a> {
    pub levels: &'a mut [u8],
    pub bytes: &'a mut [u8],
    pub words: &'a mut [u32],
}

pub fn no_devices() -> Devices {
    let serial = Serial { left: 0, sent: 0, passed: 0, bits: 0, byte: 0, ready: 0 };
    Devices { serial, tick: 0, lamps: 0 }
}

pub fn no_board() -> Board {
    Board { machine: zeros(), devices: no_devices() }
}

fn to_model(board: &Board) -> model::Board {
    let Devices { serial: s, tick, lamps } = board.devices;
    let serial =
        model::Serial { left: s.left, sent: s.sent, passed: s.passed, bits: s.bits, byte: s.byte, ready: s.ready };
    model::Board { machine: to_record(&board.machine), devices: model::Devices { serial, tick, lamps } }
}

fn from_model(board: &model::Board) -> Board {
    let model::Devices { serial: s, tick, lamps } = board.devices;
    let serial = Serial { left: s.left, sent: s.sent, passed: s.passed, bits: s.bits, byte: s.byte, ready: s.ready };
    Board { machine: from_record(&board.machine), devices: Devices { serial, tick, lamps } }
}

impl Side {
    pub fn reset(self, store: &[u32]) -> BoardResetAnswer {
        if self == Side::Library {
            // SAFETY: as in `clock`.
            return unsafe { trm_board_reset(store.as_ptr(), store.len()) };
        }
        match model::reset(store) {
            Ok(board) => BoardResetAnswer { board: from_model(&board), number: 0 },
            Err(number) => BoardResetAnswer { board: no_board(), number },
        }
    }

    pub fn clock(
        self,
        joined: bool,
        board: &Board,
        program: &[u32],
        store: &mut [u32],
        given: u8,
        switches: u8,
    ) -> BoardClockAnswer {
        if self == Side::Library {
            let (p, np, s, ns) = (program.as_ptr(), program.len(), store.as_mut_ptr(), store.len());
            let call = if joined { trm_board_clock_joined } else { trm_board_clock };
            // SAFETY: each pointer and length are those of one slice; what may be written is from a `&mut`.
            return unsafe { call(*board, p, np, s, ns, given, switches) };
        }
        let mut after = to_model(board);
        let call = if joined { model::clock_joined } else { model::clock };
        let answer = call(&mut after, program, store, given, switches);
        let number = answer.err().unwrap_or(0);
        let model::Answer { level, byte, word, finished } = answer.unwrap_or_default();
        BoardClockAnswer { board: from_model(&after), number, level, byte, word, finished }
    }

    #[allow(clippy::too_many_arguments)]
    pub fn run(
        self,
        joined: bool,
        board: &Board,
        program: &[u32],
        store: &mut [u32],
        given: &[u8],
        switches: &[u8],
        buffers: Buffers,
    ) -> BoardRunAnswer {
        let Buffers { levels, bytes, words } = buffers;
        if self == Side::Library {
            let (p, np, s, ns) = (program.as_ptr(), program.len(), store.as_mut_ptr(), store.len());
            let (g, ng, w, nw) = (given.as_ptr(), given.len(), switches.as_ptr(), switches.len());
            let (l, nl, b, nb) = (levels.as_mut_ptr(), levels.len(), bytes.as_mut_ptr(), bytes.len());
            let (o, no) = (words.as_mut_ptr(), words.len());
            let call = if joined { trm_board_run_joined } else { trm_board_run };
            // SAFETY: as in `clock`.
            return unsafe { call(*board, p, np, s, ns, g, ng, w, nw, l, nl, b, nb, o, no) };
        }
        let mut after = to_model(board);
        let call = if joined { model::run_joined } else { model::run };
        let answer = call(&mut after, program, store, given, switches, levels, bytes, words);
        let number = answer.err().unwrap_or(0);
        let ran = answer.unwrap_or_default();
        BoardRunAnswer { board: from_model(&after), number, used: ran.used, finished: ran.finished }
    }
}
