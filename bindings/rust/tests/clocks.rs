// The two entries for a clock and the run, side by side over some thousand clocks: each must give the same result.
// Paper: "Later a second entry lends the record itself for one clock, with the same outcome"; "A run carries out one clock per line byte".
// The program meets every phase, both interrupts, and devices read and written; the test asserts this at its end.
use trm::Instruction::{Arithmetic, Branch, Call, Jump, Load, ReturnFromInterrupt, SetStatus, Store};
use trm::{raw, Machine, Operand, Operation};

const CLOCKS: usize = 6000;

/// The cache on and off in turn, two blocks of one cache line, devices 3 and 4, MUL and DIV, a call.
fn program() -> Vec<u32> {
    let literal = |operation, d, value| Arithmetic { operation, d, operand: Operand::Literal(value) };
    let words = [
        SetStatus { status: 3 },
        Branch { condition: 14, offset: 2 },
        ReturnFromInterrupt { s: 7 },
        ReturnFromInterrupt { s: 7 },
        SetStatus { status: 11 },
        literal(Operation::Not, 1, 63),
        Load { d: 0, s: 1, offset: 3 },
        literal(Operation::Mul, 0, 7),
        Store { d: 0, s: 7, offset: 2 },
        Load { d: 2, s: 7, offset: 130 },
        literal(Operation::Add, 2, 1),
        Store { d: 2, s: 7, offset: 130 },
        literal(Operation::Div, 0, 5),
        Store { d: 0, s: 1, offset: 4 },
        SetStatus { status: 3 },
        Load { d: 3, s: 7, offset: 130 },
        Store { d: 3, s: 7, offset: 64 },
        Call { offset: 1 },
        Branch { condition: 14, offset: 1024 - 15 },
        Jump { s: 7 },
    ];
    words.map(|instruction| instruction.encode().unwrap()).to_vec()
}

/// The line byte of a clock: mostly 0; now and then each line, and all at once.
fn line_byte(clock: usize) -> u8 {
    match clock % 23 {
        5 => raw::LINE_STALL,
        11 => raw::LINE_INTERRUPT_0,
        17 => raw::LINE_INTERRUPT_1,
        20 => raw::LINE_INTERRUPT_0 | raw::LINE_INTERRUPT_1 | raw::LINE_STALL,
        _ => 0,
    }
}

fn input(clock: usize) -> u32 {
    (clock as u32).wrapping_mul(0x9E37_79B9)
}

#[derive(Default)]
struct Met {
    phases: [bool; 6],
    interrupts: [bool; 2],
    reads: bool,
    writes: bool,
}

#[test]
fn s2_32_lent_and_by_value_agree() {
    let program = program();
    let mut store: Vec<u32> = (0..256).collect();
    let mut lent_store = store.clone();
    let mut machine = raw::reset(&store).machine;
    let mut lent = machine;
    let mut met = Met::default();
    for clock in 0..CLOCKS {
        let ready = machine.phase == 0 && line_byte(clock) & raw::LINE_STALL == 0;
        let value = raw::clock_value(&machine, &program, &mut store, line_byte(clock), input(clock));
        let answer = raw::clock(&mut lent, &program, &mut lent_store, line_byte(clock), input(clock));
        assert_eq!(answer.number, 0, "clock {clock}");
        assert_eq!((answer.number, answer.byte), (value.number, value.byte), "clock {clock}");
        assert_eq!((answer.word, answer.finished), (value.word, value.finished), "clock {clock}");
        assert_eq!(lent, value.machine, "clock {clock}");
        assert_eq!(lent_store, store, "clock {clock}");
        machine = value.machine;
        met.phases[machine.phase as usize] = true;
        met.reads |= value.byte & raw::ANSWER_READ != 0;
        met.writes |= value.byte & raw::ANSWER_WRITE != 0;
        if ready && value.finished == 0 && machine.phase == 0 {
            met.interrupts[machine.pc as usize - 2] = true;
        }
    }
    assert_eq!((met.phases, met.interrupts, met.reads, met.writes), ([true; 6], [true; 2], true, true));
    assert!(machine.held > 0 && machine.refills > 0 && machine.writebacks > 0);
}

/// Both entries refuse a line byte above 7 in the same way, and nothing changes.
#[test]
fn s3_2_refused_clocks_agree() {
    let (program, mut store) = (program(), vec![1; 256]);
    let mut machine = raw::reset(&store).machine;
    let before = machine;
    for byte in 8..=255 {
        let value = raw::clock_value(&machine, &program, &mut store, byte, 9);
        let answer = raw::clock(&mut machine, &program, &mut store, byte, 9);
        assert_eq!((value.number, value.byte, value.word, value.finished), (6, 0, 0, 0));
        assert_eq!((answer.number, answer.byte, answer.word, answer.finished), (6, 0, 0, 0));
        assert_eq!((value.machine, machine), (before, before));
    }
    assert_eq!(store, [1; 256]);
}

#[test]
fn s2_33_a_run_is_its_clocks() {
    let mut by_clocks = Machine::new(program(), (0..256).collect()).unwrap();
    let mut by_run = by_clocks.clone();
    let line_bytes: Vec<u8> = (0..CLOCKS).map(line_byte).collect();
    let inputs: Vec<u32> = (0..CLOCKS).map(input).collect();
    let ran = by_run.run(&line_bytes, &inputs).unwrap();
    let (mut accesses, mut finished) = (vec![], 0);
    for clock in 0..CLOCKS {
        let clocked = by_clocks.clock(line_bytes[clock].try_into().unwrap(), inputs[clock]).unwrap();
        accesses.extend(clocked.access.map(|access| (clock, access)));
        finished += u64::from(clocked.finished);
    }
    assert_eq!((ran.totals.used, ran.totals.finished), (CLOCKS as u64, finished));
    assert_eq!(ran.accesses().collect::<Vec<_>>(), accesses);
    assert_eq!(by_run, by_clocks);
}
