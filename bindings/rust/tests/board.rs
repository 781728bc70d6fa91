// The calls of the board: reset, refusals in the order of their rows, ranges of the fields, a run against its clocks.
// Request A1: "A board field outside its range is refused with 5"; paper: "Where calls are turned down".
// Every call is tried with the line given and with the line joined to itself.
mod desk;
use desk::{board, words, NOP};
use std::ptr::{null, null_mut};
use trm::raw;
use trm::{Board, Given, Machine, Refusal};

/// The four calls that take a board.
const CALLS: usize = 4;

/// The arguments of every call.
#[derive(Clone, PartialEq, Debug)]
struct Lent {
    board: raw::Board,
    program: Vec<u32>,
    store: Vec<u32>,
    given: Vec<u8>,
    switches: Vec<u8>,
    levels: Vec<u8>,
    bytes: Vec<u8>,
    words: Vec<u32>,
}

impl Lent {
    /// Accepted: branch never, a store of 64 words, three clocks.
    fn new() -> Lent {
        let store = vec![5; 64];
        let (levels, bytes, words) = (vec![0xA5; 3], vec![0xA5; 3], vec![0xA5; 3]);
        let program = desk::words(&[NOP]);
        Lent {
            board: raw::board_reset(&store).board,
            program,
            store,
            given: vec![1; 3],
            switches: vec![0; 3],
            levels,
            bytes,
            words,
        }
    }

    /// The number of one call, a clock or a run, given or joined; if it is refused, everything must be as the header says.
    fn call(&mut self, which: usize) -> u32 {
        let before = self.clone();
        let Lent { board, program, store, given, switches, levels, bytes, words } = self;
        let (number, after, rest) = if which < 2 {
            let call = [raw::board_clock, raw::board_clock_joined][which];
            let (given, switches) = (given.last().copied().unwrap_or(1), switches.last().copied().unwrap_or(0));
            let a = call(board, program, store, given, switches);
            (a.number, a.board, (u64::from(a.level), u64::from(a.byte), u64::from(a.word), a.finished))
        } else {
            let call = [raw::board_run, raw::board_run_joined][which - 2];
            let a = call(board, program, store, given, switches, levels, bytes, words);
            (a.number, a.board, (a.used, a.finished, 0, 0))
        };
        if number != 0 {
            assert_eq!((after, rest), (before.board, (0, 0, 0, 0)), "call {which}");
            assert_eq!(*self, before, "call {which}");
        }
        number
    }

    /// The numbers of all four calls.
    fn numbers(&self) -> [u32; CALLS] {
        std::array::from_fn(|which| self.clone().call(which))
    }
}

#[test]
fn a1_7_reset_makes_all_devices_zero() {
    let store = vec![3; 128];
    let answer = raw::board_reset(&store);
    assert_eq!((answer.number, answer.board.machine), (0, raw::reset(&store).machine));
    assert_eq!(answer.board.devices, raw::Devices::default());
    let mut board = board(&[NOP], |record| record.devices = raw::Devices { tick: 1, lamps: 9, ..record.devices });
    board.reset();
    assert_eq!(board, Board::new(words(&[NOP]), vec![0; 64]).unwrap());
}

#[test]
fn s3_6_a_refused_reset_is_refused_by_every_call() {
    for words in [0, 1, 63, 65, 65536] {
        assert_eq!(raw::board_reset(&vec![0; words]).number, 4, "{words} words");
    }
    let board = raw::board_reset(&[]).board;
    assert_eq!((board.machine.size, board.devices), (0, raw::Devices::default()));
    for words in [0, 64, 128, 32768] {
        let lent = Lent { board, store: vec![0; words], ..Lent::new() };
        assert_eq!(lent.numbers(), [4; CALLS], "{words} words");
        assert_eq!(Lent { program: vec![], ..lent }.numbers(), [3; CALLS], "{words} words");
    }
}

/// Every set of faults: the lowest row that the call has is its number.
#[test]
fn s3_1_the_rows_go_down() {
    for faults in 0..1u32 << 7 {
        let fault = |place: u32| faults >> place & 1 == 1;
        let mut lent = Lent::new();
        if fault(0) {
            lent.program = vec![0x40000];
        }
        if fault(1) {
            lent.store.push(0);
        }
        if fault(2) {
            lent.board.machine.z = 2;
        }
        if fault(3) {
            lent.board.devices.tick = 2;
        }
        if fault(4) {
            lent.given[2] = 8;
        }
        if fault(5) {
            lent.levels.pop();
        }
        if fault(6) {
            lent.board.machine.clocks = 0xFFFF_FFFF;
        }
        let rows = [3, 4, 5, 5, 6, 7, 8];
        let first = |skipped: u32| (0..7).find(|&row| row != skipped && fault(row)).map_or(0, |row| rows[row as usize]);
        let (clock, run) = (first(5), first(7));
        assert_eq!(lent.numbers(), [clock, clock, run, run], "faults {faults:b}");
    }
}

/// The board fields with their greatest values.
type Field = fn(&mut raw::Devices) -> &mut u64;
const FIELDS: [(&str, Field, u64); 8] = [
    ("left", |devices| &mut devices.serial.left, 10_120),
    ("sent", |devices| &mut devices.serial.sent, 255),
    ("passed", |devices| &mut devices.serial.passed, 9613),
    ("bits", |devices| &mut devices.serial.bits, 255),
    ("byte", |devices| &mut devices.serial.byte, 255),
    ("ready", |devices| &mut devices.serial.ready, 1),
    ("tick", |devices| &mut devices.tick, 1),
    ("lamps", |devices| &mut devices.lamps, 1023),
];

#[test]
fn a1_13_every_field_at_its_limit_and_above() {
    let mut full = Lent::new();
    for (name, field, most) in FIELDS {
        let cases =
            [(most, 0), (most + 1, 5), (most + 65536, 5), (most | 1 << 32, 5), (most | 1 << 63, 5), (u64::MAX, 5)];
        for (value, number) in cases {
            let mut lent = Lent::new();
            *field(&mut lent.board.devices) = value;
            assert_eq!(lent.numbers(), [number; CALLS], "{name} {value}");
            let kept = Board::from_parts(lent.board, lent.program, lent.store).err();
            assert_eq!(kept, (number == 5).then_some(Refusal::Record), "{name} {value}");
        }
        *field(&mut full.board.devices) = most;
    }
    assert_eq!(full.numbers(), [0; CALLS]);
}

#[test]
fn s3_8_refusal_6_of_given_bytes() {
    for byte in 0..=255 {
        let number = if byte > 7 { 6 } else { 0 };
        assert_eq!(Lent { given: vec![0, 0, byte], ..Lent::new() }.numbers(), [number; CALLS], "{byte}");
        assert_eq!(Given::try_from(byte).map(Given::byte), if byte > 7 { Err(Refusal::LineBytes) } else { Ok(byte) });
    }
    for switches in [0, 2, 4] {
        let lent = Lent { switches: vec![0; switches], ..Lent::new() };
        assert_eq!(lent.numbers(), [0, 0, 6, 6], "{switches} switches");
    }
    let mut board = board(&[NOP], |_| ());
    let before = board.clone();
    let mut with_lengths = |n: usize| board.run(&vec![1; n], &vec![0; n]).map(|ran| ran.totals.used);
    assert_eq!((with_lengths(65537), with_lengths(65536)), (Err(Refusal::LineBytes), Ok(65536)));
    assert_eq!(board.machine().counts().clocks, 65536);
    board.reset();
    assert_eq!(
        (board.run(&[9], &[0]), board.run_joined(&[1], &[])),
        (Err(Refusal::LineBytes), Err(Refusal::LineBytes))
    );
    assert_eq!(board.record().devices, before.record().devices);
}

#[test]
fn s3_9_refusal_7_of_each_buffer() {
    for length in [0, 2, 4] {
        let short = |set: fn(&mut Lent, usize)| {
            let mut lent = Lent::new();
            set(&mut lent, length);
            lent.numbers()
        };
        assert_eq!(short(|lent, n| lent.levels.resize(n, 0xA5)), [0, 0, 7, 7], "{length} levels");
        assert_eq!(short(|lent, n| lent.bytes.resize(n, 0xA5)), [0, 0, 7, 7], "{length} bytes");
        assert_eq!(short(|lent, n| lent.words.resize(n, 0xA5)), [0, 0, 7, 7], "{length} words");
    }
    let mut board = board(&[NOP], |_| ());
    let before = board.clone();
    let (mut levels, mut bytes, mut words) = ([9; 2], [9; 2], [9; 1]);
    let refused = board.run_into(&[1; 2], &[0; 2], &mut levels, &mut bytes, &mut words);
    assert_eq!((refused, board == before, levels, bytes, words), (Err(Refusal::Buffers), true, [9; 2], [9; 2], [9]));
    board.run_joined_into(&[1], &[0], &mut levels[..1], &mut bytes[..1], &mut words).unwrap();
    assert_eq!((levels, bytes, words), ([1, 9], [0, 9], [0]));
}

#[test]
fn s3_10_refusal_8_of_clocks() {
    for (left, numbers) in [(0, [8, 8, 8, 8]), (2, [0, 0, 8, 8]), (3, [0; CALLS])] {
        let mut lent = Lent::new();
        lent.board.machine.clocks = 0xFFFF_FFFF - left;
        assert_eq!(lent.numbers(), numbers, "{left} left");
    }
    let mut board = board(&[NOP], |record| record.machine.clocks = 0xFFFF_FFFF);
    let before = board.clone();
    assert_eq!(board.clock(Given::HIGH, 0), Err(Refusal::Clocks));
    assert_eq!(board.clock_joined(Given::STALL, 0), Err(Refusal::Clocks));
    assert_eq!(board.run(&[], &[]).unwrap().totals.used, 0);
    assert_eq!((board.milliseconds(), board == before), (36_835, true)); // 4,294,967,295 / 116,600
}

#[test]
fn s3_1_null_pointers_of_length_0_are_not_looked_at() {
    let (program, mut store) = (words(&[NOP]), [7; 64]);
    let (p, s, none) = (program.as_ptr(), store.as_mut_ptr(), null_mut::<u8>());
    unsafe {
        assert_eq!(raw::trm_board_reset(null(), 0).number, 4);
        let board = raw::trm_board_reset(s, 64).board;
        for clock in [raw::trm_board_clock, raw::trm_board_clock_joined] {
            assert_eq!(clock(board, null(), 0, s, 64, 0, 0).number, 3);
            assert_eq!(clock(board, p, 1, null_mut(), 0, 0, 0).number, 4);
        }
        for run in [raw::trm_board_run, raw::trm_board_run_joined] {
            let a = run(board, p, 1, s, 64, null(), 0, null(), 0, none, 0, none, 0, null_mut(), 0);
            assert_eq!((a.number, a.used, a.finished, a.board), (0, 0, 0, board));
        }
    }
    assert_eq!(store, [7; 64]);
}

/// The machine of a board is one that the machine's own calls take, for looks and copies too.
#[test]
fn s2_35_memory_is_seen_through_the_machine() {
    // MOV R0, 5; LDPSR 8; ST R0, [0]
    let mut board = Board::new(vec![0x00005, 0x2C008, 0x34007, 0x3BBFF], vec![0; 64]).unwrap();
    desk::idle(&mut board, 14);
    assert_eq!((board.machine().store()[0], board.machine().look(0), board.machine().memory()[0]), (0, Ok(5), 5));
    let (record, program, store) = board.clone().into_parts();
    assert_eq!(&Machine::from_parts(record.machine, program.clone(), store.clone()).unwrap(), board.machine());
    assert_eq!(Board::from_parts(record, program, store).unwrap(), board);
}

#[test]
fn a_board_as_text() {
    let mut board = board(&[desk::write(0, 4), NOP], |record| record.machine.regs[0] = 0x41);
    let machine = board.machine().to_string();
    assert_eq!(board.to_string(), format!("{machine}\ntransmitter free; received 00, read; tick 0; lamps 0000000000"));
    for _ in 0..9615 {
        board.clock_joined(Given::LOW, 0).unwrap();
    }
    let devices = "sending 41, 506 clocks left; received 41, not read; tick 0; lamps 0000000000";
    assert_eq!(board.to_string(), format!("{}\n{devices}", board.machine()));
}
