// The serial board of the library against the independent board: runs with the line joined to itself, and single clocks.
// Request A1: "Each of its clocks takes the serial line, the switches, interrupt 1 and stall".
// Real time is 8.58 ns a clock: 116,600 clocks are a millisecond.
use crate::words::{branch, literal, load, status, store, RETURN};
use crate::{timed, Best, CALLS, CLOCKS, WORDS};
use std::hint::black_box;
use trm::raw;

struct Load {
    name: &'static str,
    program: Vec<u32>,
    /// The tick at the start.
    tick: u64,
}

fn loads() -> Vec<Load> {
    let of = |name, program, tick| Load { name, program, tick };
    vec![
        of("idle loop", idle(), 0),
        of("polling", polling(), 0),
        of("echo", echo(), 0),
        of("tick interrupts", ticks(), 1),
        of("MUL and DIV", of_the_core("MUL and DIV"), 0),
        of("misses, dirty", of_the_core("misses, dirty"), 0),
    ]
}

/// A program of the core's loads, which accesses no device.
fn of_the_core(name: &str) -> Vec<u32> {
    crate::loads::loads().into_iter().find(|load| load.name == name).unwrap().program
}

/// A branch to itself.
fn idle() -> Vec<u32> {
    vec![branch(14, -1)]
}

/// R1 := 0 - 64, the address of device 0.
fn devices() -> [u32; 2] {
    [literal(0, 1, 0), literal(3, 1, 64)]
}

/// The status is read until a byte is received, which never happens.
fn polling() -> Vec<u32> {
    let [zero, base] = devices();
    vec![zero, base, load(0, 1, 5), literal(4, 0, 1), branch(1, -3), branch(14, -4)]
}

/// A byte is sent; whatever comes back is sent again, one more.
fn echo() -> Vec<u32> {
    let [zero, base] = devices();
    vec![
        zero,
        base,
        literal(0, 2, 65),
        store(2, 1, 4),
        load(0, 1, 5),
        literal(4, 0, 1),
        branch(1, -3),
        load(2, 1, 4),
        literal(2, 2, 1),
        load(0, 1, 5),
        literal(4, 0, 2),
        branch(1, -3),
        branch(14, -10),
    ]
}

/// The tick is high and never cleared: an interrupt and a return, over and over.
fn ticks() -> Vec<u32> {
    vec![status(1), branch(14, 1), RETURN, branch(14, -1)]
}

struct Buffers {
    levels: Vec<u8>,
    bytes: Vec<u8>,
    words: Vec<u32>,
}

impl Buffers {
    fn new() -> Buffers {
        Buffers { levels: vec![0; CLOCKS], bytes: vec![0; CLOCKS], words: vec![0; CLOCKS] }
    }
}

fn runs(turns: usize, load: &Load) {
    let (given, switches) = (vec![0; CLOCKS], vec![5; CLOCKS]);
    let (mut ours, mut theirs) = (Buffers::new(), Buffers::new());
    let library = || {
        let mut store = vec![0; WORDS];
        let mut board = raw::board_reset(&store).board;
        board.devices.tick = load.tick;
        timed(CLOCKS, || {
            let answer = raw::board_run_joined(
                &board, &load.program, &mut store, &given, &switches, &mut ours.levels, &mut ours.bytes, &mut ours.words,
            );
            assert_eq!(answer.number, 0);
        })
    };
    let simulator = || {
        let mut store = vec![0; WORDS];
        let mut board = simulator::board::reset(&store).unwrap();
        board.devices.tick = load.tick;
        timed(CLOCKS, || {
            let ran = simulator::board::run_joined(
                &mut board, &load.program, &mut store, &given, &switches, &mut theirs.levels, &mut theirs.bytes, &mut theirs.words,
            );
            black_box(ran.unwrap());
        })
    };
    Best::of(turns, library, simulator).print(&format!("board run, {}", load.name), "clock");
    assert!(ours.levels == theirs.levels && ours.bytes == theirs.bytes && ours.words == theirs.words);
}

fn clocks(turns: usize, load: &Load) {
    let library = || {
        let mut store = vec![0; WORDS];
        let mut board = raw::board_reset(&store).board;
        timed(CALLS, || {
            for _ in 0..CALLS {
                board = raw::board_clock_joined(&board, &load.program, &mut store, 0, 5).board;
            }
            assert_eq!(board.machine.clocks as usize, CALLS);
        })
    };
    let simulator = || {
        let mut store = vec![0; WORDS];
        let mut board = simulator::board::reset(&store).unwrap();
        timed(CALLS, || {
            for _ in 0..CALLS {
                black_box(simulator::board::clock_joined(&mut board, &load.program, &mut store, 0, 5).unwrap());
            }
        })
    };
    Best::of(turns, library, simulator).print(&format!("board clock, {}", load.name), "call");
}

pub fn board(turns: usize) {
    for load in loads() {
        runs(turns, &load);
    }
    for load in loads() {
        clocks(turns, &load);
    }
}
