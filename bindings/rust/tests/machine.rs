// The calls of a machine and what it shows: the paper's example clock by clock, the cache, interrupts, devices, its text.
// Paper: "Clock by clock", the clock table, the starred cases; every number here is worked out from it by hand.
// Words are written as numbers: operation * 4000H + d * 800H, then 400H + s or a literal.
use trm::{watch, Access, Counts, Flags, LineByte, Machine, Phase, Status};

/// MOV R0, 5; MUL R0, 3; B .
const EXAMPLE: [u32; 3] = [0x00005, 0x20003, 0x3BBFF];

fn machine(program: &[u32]) -> Machine {
    Machine::new(program.to_vec(), vec![0; 2048]).unwrap()
}

/// Runs clocks with line byte 0; returns the instructions finished.
fn run(machine: &mut Machine, clocks: usize) -> u64 {
    machine.run(&vec![0; clocks], &vec![0; clocks]).unwrap().totals.finished
}

#[test]
fn s4_11_the_example_clock_by_clock() {
    let mut machine = machine(&EXAMPLE);
    let mut finished = vec![];
    for clock in 1..=40 {
        if machine.clock(LineByte::NONE, 0).unwrap().finished {
            finished.push(clock);
        }
        let phase = match clock {
            2..=33 => Phase::Arithmetic { done: clock - 1 },
            35 | 37 | 39 => Phase::LastClock,
            _ => Phase::Ready,
        };
        assert_eq!((machine.phase(), machine.in_flight()), (phase, phase != Phase::Ready), "clock {clock}");
    }
    assert_eq!(finished, [1, 34, 36, 38, 40]);
    assert_eq!((machine.pc(), machine.register(0, 0), machine.h()), (2, Some(15), 0));
}

#[test]
fn s2_33_the_example_in_runs() {
    let mut machine = machine(&EXAMPLE);
    assert_eq!(run(&mut machine, 33), 1);
    assert_eq!(machine.registers()[0], 5);
    assert_eq!(run(&mut machine, 1), 1);
    assert_eq!(machine.registers()[0], 15);
    assert_eq!(run(&mut machine, 6), 3);
    assert_eq!(machine.counts(), Counts { clocks: 40, ..Counts::default() });
    machine.reset();
    assert_eq!((machine.pc(), machine.registers(), machine.counts()), (0, [0; 8], Counts::default()));
}

#[test]
fn s2_2_a_held_clock_counts_and_does_nothing_else() {
    let mut machine = machine(&EXAMPLE);
    run(&mut machine, 10);
    let (mut record, program, store) = machine.clone().into_parts();
    machine.clock(LineByte::STALL | LineByte::INTERRUPT_0 | LineByte::INTERRUPT_1, 7).unwrap();
    (record.clocks, record.held) = (11, 1);
    assert_eq!(machine, Machine::from_parts(record, program, store).unwrap());
}

/// R0 after one SUB or ADD of R1, from given registers.
fn after(word: u32, r0: u32, r1: u32) -> (u32, Flags) {
    let (mut record, program, store) = machine(&[word]).into_parts();
    (record.regs[0], record.regs[1]) = (r0, r1);
    let mut machine = Machine::from_parts(record, program, store).unwrap();
    assert!(machine.clock(LineByte::NONE, 0).unwrap().finished);
    (machine.registers()[0], machine.flags())
}

#[test]
fn s5_1_starred_results_and_flags() {
    let (add, sub) = (0x08401, 0x0C401);
    assert_eq!(after(sub, 0, 1), (0xFFFF_FFFF, Flags { n: true, z: false, c: false, v: false }));
    assert_eq!(after(add, 0x7FFF_FFFF, 1), (0x8000_0000, Flags { n: true, z: false, c: false, v: true }));
    assert_eq!(after(add, 0x8000_0000, 0x8000_0000), (0, Flags { n: false, z: true, c: true, v: true }));
    assert_eq!(after(sub, 0, 1).1.to_string(), "N---");
    assert_eq!(after(add, 0x8000_0000, 0x8000_0000).1.to_string(), "-ZCV");
}

#[test]
fn a2_1_carry_of_sums() {
    let add = 0x08401;
    let rows = [(0xFFFF_FFFF, 1, "-ZC-"), (0xFFFF_FFFF, 0, "N---"), (0xFFFF_FFFF, 0xFFFF_FFFF, "N-C-"), (5, 3, "----")];
    for (b, a, flags) in rows {
        assert_eq!(after(add, b, a).1.to_string(), flags, "{b:X}H + {a:X}H");
    }
}

#[test]
fn a2_2_carry_of_differences() {
    let sub = 0x0C401;
    let rows = [
        (5, 3, "--C-"),
        (3, 5, "N---"),
        (0x1234, 0x1234, "-ZC-"),
        (0x8000_0000, 1, "--CV"),
        (0, 0x8000_0000, "N--V"),
        (0x7FFF_FFFF, 0xFFFF_FFFF, "N--V"),
        (0x8000_0003, 0x8000_0001, "--C-"),
    ];
    for (b, a, flags) in rows {
        assert_eq!(after(sub, b, a).1.to_string(), flags, "{b:X}H - {a:X}H");
    }
}

/// MOV R0, 5; LDPSR 8; ST R0, [0]; LD R1, [128]: the starred case of 12 and 22 clocks.
#[test]
fn s5_12_a_store_miss_and_a_dirty_miss() {
    let mut machine = machine(&[0x00005, 0x2C008, 0x34007, 0x30C07]);
    assert_eq!(run(&mut machine, 2), 2);
    assert!(machine.status().cache_on);
    let mut phases = vec![];
    for _ in 0..34 {
        machine.clock(LineByte::NONE, 0).unwrap();
        phases.push(machine.phase());
    }
    let write_back = (0..10).map(|done| Phase::WriteBack { done });
    let refill = || (0..10).map(|done| Phase::Refill { done });
    let clean: Vec<Phase> = refill().chain([Phase::LastClock, Phase::Ready]).collect();
    let dirty: Vec<Phase> = write_back.chain(refill()).chain([Phase::LastClock, Phase::Ready]).collect();
    assert_eq!(phases, [clean, dirty].concat());
    assert_eq!(machine.counts(), Counts { clocks: 36, held: 0, refills: 2, writebacks: 1 });
    assert_eq!((machine.pc(), machine.store()[0]), (4, 5));
    let record = machine.record(); // line 0 holds block 16 = 128 / 8, clean
    assert_eq!((record.full[0], record.dirty[0], record.block[0]), (1, 0, 16));
}

/// After the ST the word is in the cache, and the store still has the old one.
#[test]
fn s2_35_memory_is_seen_through_the_cache() {
    let mut machine = machine(&[0x00005, 0x2C008, 0x34007, 0x30C07]);
    assert_eq!(run(&mut machine, 14), 3);
    assert_eq!((machine.store()[0], machine.look(0), machine.look(2048)), (0, Ok(5), Ok(5)));
    let record = machine.record();
    assert_eq!((record.full[0], record.dirty[0], record.block[0], record.words[0]), (1, 1, 0, 5));
    let mut seen = vec![0; 2048];
    seen[0] = 5;
    assert_eq!(machine.memory(), seen);
}

/// LD R0, [0] with the cache off: 6 clocks.
#[test]
fn s2_11_a_load_past_the_cache() {
    let mut machine = Machine::new(vec![0x30007], vec![9; 64]).unwrap();
    for done in 1..=5 {
        assert!(!machine.clock(LineByte::NONE, 0).unwrap().finished);
        assert_eq!(machine.phase(), Phase::UncachedWait { done });
    }
    assert!(machine.clock(LineByte::NONE, 0).unwrap().finished);
    assert_eq!((machine.registers()[0], machine.program(), machine.store()), (9, &[0x30007][..], &[9; 64][..]));
}

/// MOV R0, 5; then MUL R0, 3 or DIV R0, 3: the registers after one step and after the last.
#[test]
fn s2_13_the_multiplier_and_the_divider_step_by_step() {
    let registers = |word, clocks| {
        let mut machine = machine(&[0x00005, word]);
        run(&mut machine, clocks);
        (machine.record().product, machine.record().remainder, machine.record().quotient)
    };
    assert_eq!(registers(0x20003, 2), ((5 << 31) + 1, 0, 0)); // 5 * (3 mod 2) * 2^31 + 3 / 2
    assert_eq!(registers(0x20003, 33), (15, 0, 0));
    assert_eq!(registers(0x24003, 2), (0, 0, 10)); // t = 5 / 2^31 = 0, and 5 * 2
    assert_eq!(registers(0x24003, 33), (0, 2, 1)); // 5 = 1 * 3 + 2
    assert_eq!(registers(0x24003, 34), (0, 0, 0));
}

/// LDPSR with each of its sixteen values.
#[test]
fn s1_20_every_status() {
    for bits in 0..16 {
        let mut machine = machine(&[0x2C000 + bits]);
        run(&mut machine, 1);
        let enables = [bits & 1 != 0, bits & 2 != 0];
        let status = Status { enables, mode: u8::from(bits & 4 != 0), cache_on: bits & 8 != 0 };
        assert_eq!(machine.status(), status, "status {bits}");
    }
    let status = Status { enables: [false, true], mode: 1, cache_on: true };
    assert_eq!(status.to_string(), "mode 1, cache on, interrupts -1 enabled");
}

/// LDPSR 3; B .; RTI R7; RTI R7: each interrupt goes to its address, and back to the branch.
#[test]
fn s2_3_interrupts_use_the_second_bank() {
    for (line_byte, place) in [(LineByte::INTERRUPT_0, 2), (LineByte::INTERRUPT_1, 3)] {
        let mut machine = machine(&[0x2C003, 0x3BBFF, 0x2C507, 0x2C507]);
        run(&mut machine, 1);
        let enabled = Status { enables: [true, true], mode: 0, cache_on: false };
        assert_eq!(machine.status(), enabled);
        let taken = machine.clock(line_byte, 0).unwrap();
        assert_eq!((taken.finished, taken.access), (false, None));
        assert_eq!((machine.pc(), machine.status()), (place, Status { mode: 1, ..enabled }));
        assert_eq!(machine.registers(), [0, 0, 0, 0, 0, 0, 0, 1]);
        assert_eq!((machine.register(0, 7), machine.register(1, 7)), (Some(0), Some(1)));
        assert_eq!(run(&mut machine, 2), 1);
        assert_eq!((machine.pc(), machine.status(), machine.registers()), (1, enabled, [0; 8]));
    }
}

#[test]
fn s1_1_registers_that_are_not_there() {
    let machine = machine(&EXAMPLE);
    assert_eq!((machine.register(2, 0), machine.register(0, 8)), (None, None));
    assert_eq!(machine.register(usize::MAX, usize::MAX), None);
}

/// NOT R1, 63; LD R0, [R1+5]; ST R0, [R1+7]: devices 5 and 7.
#[test]
fn s2_34_devices_in_a_run() {
    let mut machine = machine(&[0x0483F, 0x30029, 0x34039]);
    let ran = machine.run(&[0; 4], &[11, 22, 33, 44]).unwrap();
    assert_eq!((ran.totals.used, ran.totals.finished), (4, 3));
    assert_eq!((&ran.bytes[..], &ran.words[..]), (&[0, 0, 21, 30][..], &[0, 0, 33, 33][..]));
    let accesses: Vec<_> = ran.accesses().collect();
    assert_eq!(accesses, [(2, Access::Read { device: 5, word: 33 }), (3, Access::Write { device: 7, word: 33 })]);
    assert_eq!((watch(&ran.bytes, 7), watch(&ran.bytes, 5)), (Ok(Some(3)), Ok(None)));
    assert_eq!(watch(&ran.bytes[3..], 7), Ok(Some(0)));
}

#[test]
fn a_machine_as_text() {
    let mut machine = machine(&EXAMPLE);
    run(&mut machine, 20);
    let text = "\
PC 001, H 00000000, flags ----, mode 0, cache off, interrupts -- enabled
bank 0: 00000005 00000000 00000000 00000000 00000000 00000000 00000000 00000000
bank 1: 00000000 00000000 00000000 00000000 00000000 00000000 00000000 00000000
arithmetic, 19 clocks done; clocks 20 held 0 refills 0 writebacks 0";
    assert_eq!(machine.to_string(), text);
}
