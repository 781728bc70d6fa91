// A stand-in for the library: the C interface over a copy of the simulator, to test the comparison.
// Paper: the calls of "Clock by clock", and those of A1; the record's layout is that of include/trm.h.
// A refused clock or run returns the record as given and zeros, a refused reset a record of zeros.
use planted::board as model;
use planted::{Cache, Flags, Line, Record, State};
use std::slice::{from_raw_parts, from_raw_parts_mut};

#[repr(C)]
#[derive(Clone, Copy)]
pub struct Machine {
    status: u64,
    pc: u64,
    n: u64,
    z: u64,
    c: u64,
    v: u64,
    phase: u64,
    count: u64,
    product: u64,
    remainder: u64,
    quotient: u64,
    h: u32,
    size: u32,
    clocks: u64,
    held: u64,
    refills: u64,
    writebacks: u64,
    regs: [u32; 16],
    full: [u8; 16],
    dirty: [u8; 16],
    block: [u16; 16],
    words: [u32; 128],
}

#[repr(C)]
pub struct ResetAnswer {
    machine: Machine,
    number: u32,
}

#[repr(C)]
pub struct ClockValueAnswer {
    machine: Machine,
    number: u32,
    byte: u8,
    word: u32,
    finished: u64,
}

#[repr(C)]
pub struct ClockAnswer {
    number: u32,
    byte: u8,
    word: u32,
    finished: u64,
}

#[repr(C)]
pub struct RunAnswer {
    machine: Machine,
    number: u32,
    used: u64,
    finished: u64,
}

#[repr(C)]
pub struct LookAnswer {
    number: u32,
    word: u32,
}

#[repr(C)]
pub struct WatchAnswer {
    number: u32,
    found: u32,
    clock: u64,
}

fn to_record(m: &Machine) -> Record {
    let lines = std::array::from_fn(|i| Line { full: m.full[i], dirty: m.dirty[i], block: m.block[i] });
    let state = State {
        pc: m.pc,
        h: m.h,
        status: m.status,
        flags: Flags { n: m.n, z: m.z, c: m.c, v: m.v },
        phase: m.phase,
        count: m.count,
        product: m.product,
        remainder: m.remainder,
        quotient: m.quotient,
        size: m.size,
        clocks: m.clocks,
        held: m.held,
        refills: m.refills,
        writebacks: m.writebacks,
    };
    Record { state, registers: m.regs, cache: Cache { lines, words: m.words } }
}

fn from_record(record: &Record) -> Machine {
    let (state, lines) = (&record.state, &record.cache.lines);
    Machine {
        h: state.h,
        status: state.status,
        pc: state.pc,
        n: state.flags.n,
        z: state.flags.z,
        c: state.flags.c,
        v: state.flags.v,
        phase: state.phase,
        count: state.count,
        product: state.product,
        remainder: state.remainder,
        quotient: state.quotient,
        size: state.size,
        clocks: state.clocks,
        held: state.held,
        refills: state.refills,
        writebacks: state.writebacks,
        regs: record.registers,
        full: std::array::from_fn(|i| lines[i].full),
        dirty: std::array::from_fn(|i| lines[i].dirty),
        block: std::array::from_fn(|i| lines[i].block),
        words: record.cache.words,
    }
}

#[no_mangle]
pub unsafe extern "C" fn trm_reset(store: *const u32, n: usize) -> ResetAnswer {
    let answer = planted::reset(from_raw_parts(store, n));
    let number = *answer.as_ref().err().unwrap_or(&0);
    ResetAnswer { machine: from_record(&answer.unwrap_or_default()), number }
}

#[no_mangle]
pub unsafe extern "C" fn trm_clock_value(
    m: Machine,
    program: *const u32,
    np: usize,
    store: *mut u32,
    n: usize,
    line_byte: u8,
    input: u32,
) -> ClockValueAnswer {
    let mut record = to_record(&m);
    let (program, store) = (from_raw_parts(program, np), from_raw_parts_mut(store, n));
    let answer = planted::clock(&mut record, program, store, line_byte, input);
    let number = answer.err().unwrap_or(0);
    let answer = answer.unwrap_or_default();
    let machine = from_record(&record);
    ClockValueAnswer { machine, number, byte: answer.byte, word: answer.word, finished: answer.finished }
}

#[no_mangle]
pub unsafe extern "C" fn trm_clock(
    m: *mut Machine,
    program: *const u32,
    np: usize,
    store: *mut u32,
    n: usize,
    line_byte: u8,
    input: u32,
) -> ClockAnswer {
    let answer = trm_clock_value(*m, program, np, store, n, line_byte, input);
    let ClockValueAnswer { machine, number, byte, word, finished } = answer;
    *m = machine;
    ClockAnswer { number, byte, word, finished }
}

#[no_mangle]
pub unsafe extern "C" fn trm_run(
    m: Machine,
    program: *const u32,
    np: usize,
    store: *mut u32,
    n: usize,
    line_bytes: *const u8,
    nl: usize,
    inputs: *const u32,
    ni: usize,
    bytes: *mut u8,
    nb: usize,
    words: *mut u32,
    nw: usize,
) -> RunAnswer {
    let mut record = to_record(&m);
    let (program, store) = (from_raw_parts(program, np), from_raw_parts_mut(store, n));
    let (line_bytes, inputs) = (from_raw_parts(line_bytes, nl), from_raw_parts(inputs, ni));
    let (bytes, words) = (from_raw_parts_mut(bytes, nb), from_raw_parts_mut(words, nw));
    let answer = planted::run(&mut record, program, store, line_bytes, inputs, bytes, words);
    let number = answer.err().unwrap_or(0);
    let answer = answer.unwrap_or_default();
    RunAnswer { machine: from_record(&record), number, used: answer.used, finished: answer.finished }
}

#[no_mangle]
pub unsafe extern "C" fn trm_look(
    m: Machine,
    program: *const u32,
    np: usize,
    store: *const u32,
    n: usize,
    address: u32,
) -> LookAnswer {
    let (program, store) = (from_raw_parts(program, np), from_raw_parts(store, n));
    let answer = planted::look(&to_record(&m), program, store, address);
    LookAnswer { number: answer.err().unwrap_or(0), word: answer.unwrap_or(0) }
}

#[no_mangle]
pub unsafe extern "C" fn trm_copy(
    m: Machine,
    program: *const u32,
    np: usize,
    store: *const u32,
    n: usize,
    buffer: *mut u32,
    k: usize,
) -> u32 {
    let (program, store) = (from_raw_parts(program, np), from_raw_parts(store, n));
    planted::copy(&to_record(&m), program, store, from_raw_parts_mut(buffer, k)).err().unwrap_or(0)
}

#[no_mangle]
pub unsafe extern "C" fn trm_watch(bytes: *const u8, n: usize, device: u32) -> WatchAnswer {
    let answer = planted::watch(from_raw_parts(bytes, n), device);
    let found = answer.ok().flatten();
    WatchAnswer { number: answer.err().unwrap_or(0), found: found.is_some().into(), clock: found.unwrap_or(0) }
}

#[repr(C)]
#[derive(Clone, Copy)]
pub struct Serial {
    left: u64,
    sent: u64,
    passed: u64,
    bits: u64,
    byte: u64,
    ready: u64,
}

#[repr(C)]
#[derive(Clone, Copy)]
pub struct Devices {
    serial: Serial,
    tick: u64,
    lamps: u64,
}

#[repr(C)]
#[derive(Clone, Copy)]
pub struct Board {
    machine: Machine,
    devices: Devices,
}

#[repr(C)]
pub struct BoardResetAnswer {
    board: Board,
    number: u32,
}

#[repr(C)]
pub struct BoardClockAnswer {
    board: Board,
    number: u32,
    level: u8,
    byte: u8,
    word: u32,
    finished: u64,
}

#[repr(C)]
pub struct BoardRunAnswer {
    board: Board,
    number: u32,
    used: u64,
    finished: u64,
}

fn to_model(board: &Board) -> model::Board {
    let Devices { serial: Serial { left, sent, passed, bits, byte, ready }, tick, lamps } = board.devices;
    let serial = model::Serial { left, sent, passed, bits, byte, ready };
    model::Board { machine: to_record(&board.machine), devices: model::Devices { serial, tick, lamps } }
}

fn from_model(board: &model::Board) -> Board {
    let model::Devices { serial, tick, lamps } = board.devices;
    let model::Serial { left, sent, passed, bits, byte, ready } = serial;
    let serial = Serial { left, sent, passed, bits, byte, ready };
    Board { machine: from_record(&board.machine), devices: Devices { serial, tick, lamps } }
}

#[no_mangle]
pub unsafe extern "C" fn trm_board_reset(store: *const u32, n: usize) -> BoardResetAnswer {
    let answer = model::reset(from_raw_parts(store, n));
    let number = *answer.as_ref().err().unwrap_or(&0);
    BoardResetAnswer { board: from_model(&answer.unwrap_or_default()), number }
}

type Clock = fn(&mut model::Board, &[u32], &mut [u32], u8, u8) -> Result<model::Answer, u32>;

fn board_clock(
    call: Clock,
    b: &Board,
    program: &[u32],
    store: &mut [u32],
    given: u8,
    switches: u8,
) -> BoardClockAnswer {
    let mut board = to_model(b);
    let answer = call(&mut board, program, store, given, switches);
    let number = answer.err().unwrap_or(0);
    let model::Answer { level, byte, word, finished } = answer.unwrap_or_default();
    BoardClockAnswer { board: from_model(&board), number, level, byte, word, finished }
}

#[no_mangle]
pub unsafe extern "C" fn trm_board_clock(
    board: Board,
    program: *const u32,
    np: usize,
    store: *mut u32,
    n: usize,
    given: u8,
    switches: u8,
) -> BoardClockAnswer {
    let (program, store) = (from_raw_parts(program, np), from_raw_parts_mut(store, n));
    board_clock(model::clock, &board, program, store, given, switches)
}

#[no_mangle]
pub unsafe extern "C" fn trm_board_clock_joined(
    board: Board,
    program: *const u32,
    np: usize,
    store: *mut u32,
    n: usize,
    given: u8,
    switches: u8,
) -> BoardClockAnswer {
    let (program, store) = (from_raw_parts(program, np), from_raw_parts_mut(store, n));
    board_clock(model::clock_joined, &board, program, store, given, switches)
}

fn board_run(board: &model::Board, answer: Result<planted::Ran, u32>) -> BoardRunAnswer {
    let number = answer.err().unwrap_or(0);
    let answer = answer.unwrap_or_default();
    BoardRunAnswer { board: from_model(board), number, used: answer.used, finished: answer.finished }
}

#[no_mangle]
pub unsafe extern "C" fn trm_board_run(
    board: Board,
    program: *const u32,
    np: usize,
    store: *mut u32,
    n: usize,
    given: *const u8,
    ng: usize,
    switches: *const u8,
    ns: usize,
    levels: *mut u8,
    nl: usize,
    bytes: *mut u8,
    nb: usize,
    words: *mut u32,
    nw: usize,
) -> BoardRunAnswer {
    let mut board = to_model(&board);
    let (program, store) = (from_raw_parts(program, np), from_raw_parts_mut(store, n));
    let (given, switches) = (from_raw_parts(given, ng), from_raw_parts(switches, ns));
    let (levels, bytes, words) =
        (from_raw_parts_mut(levels, nl), from_raw_parts_mut(bytes, nb), from_raw_parts_mut(words, nw));
    let answer = model::run(&mut board, program, store, given, switches, levels, bytes, words);
    board_run(&board, answer)
}

#[no_mangle]
pub unsafe extern "C" fn trm_board_run_joined(
    board: Board,
    program: *const u32,
    np: usize,
    store: *mut u32,
    n: usize,
    given: *const u8,
    ng: usize,
    switches: *const u8,
    ns: usize,
    levels: *mut u8,
    nl: usize,
    bytes: *mut u8,
    nb: usize,
    words: *mut u32,
    nw: usize,
) -> BoardRunAnswer {
    let mut board = to_model(&board);
    let (program, store) = (from_raw_parts(program, np), from_raw_parts_mut(store, n));
    let (given, switches) = (from_raw_parts(given, ng), from_raw_parts(switches, ns));
    let (levels, bytes, words) =
        (from_raw_parts_mut(levels, nl), from_raw_parts_mut(bytes, nb), from_raw_parts_mut(words, nw));
    let answer = model::run_joined(&mut board, program, store, given, switches, levels, bytes, words);
    board_run(&board, answer)
}
