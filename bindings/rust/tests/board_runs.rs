// A run of the board against its clocks, and a line joined to itself against the same levels given.
// Request A1: "Each of its clocks takes the serial line, the switches, interrupt 1 and stall"; "a line joined to itself".
// The starts are chosen so that bytes are accepted and received, and ticks rise, within some thousand clocks; the test asserts this.
mod desk;
use desk::{branch, literal, read, status, write};
use trm::Instruction::{ReturnFromInterrupt, Store};
use trm::{raw, Access, Board, Given, Instruction, Operation};

const CLOCKS: usize = 3000;

/// Every device read and written in turn, the cache on, handlers for both interrupts.
fn program() -> Vec<Instruction> {
    vec![
        status(11),
        branch(14, 1, 6),
        branch(14, 2, 4), // interrupt 0
        ReturnFromInterrupt { s: 7 },
        write(0, 6), // clears the tick
        ReturnFromInterrupt { s: 7 },
        literal(Operation::Add, 2, 77), // 6: the loop
        write(2, 4),
        read(3, 5),
        read(4, 4),
        read(5, 7),
        write(2, 7),
        read(6, 6),
        Store { d: 4, s: 7, offset: 9 },
        Store { d: 2, s: 7, offset: 9 + 128 },
        read(0, 40),
        write(0, 5),
        branch(14, 17, 6),
    ]
}

/// Boards within reach of a stop sample, a free transmitter and a tick.
fn starts() -> Vec<Board> {
    let serial = |left, passed, ready| raw::Serial { left, sent: 0xA5, passed, bits: 0x3C, byte: 0x5A, ready };
    let chosen = [(0, serial(0, 0, 0)), (116_000, serial(700, 9000, 0)), (4_000_000, serial(10_120, 9613, 1))];
    let boards = chosen.map(|(clocks, serial)| {
        let (mut record, program, _) = desk::board(&program(), |_| ()).into_parts();
        record.machine.size = 256;
        record.machine.clocks = clocks;
        record.devices = raw::Devices { serial, tick: 0, lamps: 1023 };
        Board::from_parts(record, program, (0..256).collect()).unwrap()
    });
    boards.to_vec()
}

/// Given bytes and switches: all eight bytes, some held clocks in a row.
fn inputs() -> (Vec<u8>, Vec<u8>) {
    let mix = |clock: usize| (clock as u32 + 1).wrapping_mul(0x9E37_79B9) >> 9;
    let given = |clock| if clock % 97 < 5 { 4 | (mix(clock) & 3) as u8 } else { (mix(clock) & 3) as u8 };
    ((0..CLOCKS).map(given).collect(), (0..CLOCKS).map(|clock| mix(clock) as u8).collect())
}

#[test]
fn a1_2_a_run_is_its_clocks() {
    let (given, switches) = inputs();
    let mut met = [false; 6];
    for start in starts() {
        for joined in [false, true] {
            let (mut by_run, mut by_clocks) = (start.clone(), start.clone());
            let ran =
                if joined { by_run.run_joined(&given, &switches) } else { by_run.run(&given, &switches) }.unwrap();
            let (mut levels, mut accesses, mut finished) = (vec![], vec![], 0);
            for clock in 0..CLOCKS {
                let (before, input) = (by_clocks.clone(), Given::try_from(given[clock]).unwrap());
                let clocked = match joined {
                    true => by_clocks.clock_joined(input, switches[clock]),
                    false => by_clocks.clock(input, switches[clock]),
                }
                .unwrap();
                assert_eq!(before.level(), clocked.level, "clock {clock}");
                levels.push(u8::from(clocked.level));
                accesses.extend(clocked.access.map(|access| (clock, access)));
                finished += u64::from(clocked.finished);
                met[0] |= before.transmitter_free() && !by_clocks.transmitter_free();
                met[1] |= before.record().devices.serial.passed == 9613;
                met[2] |= !before.tick() && by_clocks.tick();
                met[3] |= before.tick() && !by_clocks.tick();
                met[4] |= before.lamps() != by_clocks.lamps();
                met[5] |= matches!(clocked.access, Some(Access::Read { device: 4, .. })) && before.received().is_some();
            }
            assert_eq!((ran.totals.used, ran.totals.finished), (CLOCKS as u64, finished));
            assert_eq!((&ran.levels, ran.accesses().collect()), (&levels, accesses));
            assert_eq!(by_run, by_clocks);
        }
    }
    assert_eq!(met, [true; 6], "accepted, received, tick up and down, lamps, a read that finds the bit");
}

/// The joined line, the same levels given, and the bit of the line inverted, which the joined calls do not look at.
#[test]
fn a1_11_joined_is_the_same_levels_given() {
    let (given, switches) = inputs();
    for start in starts() {
        let (mut joined, mut given_levels, mut inverted) = (start.clone(), start.clone(), start);
        let ran = joined.run_joined(&given, &switches).unwrap();
        let with_levels: Vec<u8> = given.iter().zip(&ran.levels).map(|(byte, level)| byte & 6 | level).collect();
        assert_eq!(given_levels.run(&with_levels, &switches).unwrap(), ran);
        let other_lines: Vec<u8> = given.iter().map(|byte| byte ^ 1).collect();
        assert_eq!(inverted.run_joined(&other_lines, &switches).unwrap(), ran);
        assert_eq!((given_levels, inverted), (joined.clone(), joined));
    }
}

/// A caller who gives the level of one clock to the next is one clock late.
#[test]
fn a1_11_a_level_fed_back_is_one_clock_late() {
    let start = desk::board(&[write(0, 4), desk::STAY], |_| ());
    let (mut joined, mut fed) = (start.clone(), start);
    let mut level = true;
    for clock in 1..=9616 {
        joined.clock_joined(Given::LOW, 0).unwrap();
        level = fed.clock(Given::line(level), 0).unwrap().level;
        let passed = |board: &Board| board.record().devices.serial.passed;
        let (one, other) = (passed(&joined), passed(&fed));
        let expected = match clock {
            1 => (0, 0),
            2..=9614 => (clock - 1, clock - 2),
            9615 => (0, 9613), // received; in the last bit, which is high, it waits
            _ => (0, 0),
        };
        assert_eq!((one, other), expected, "clock {clock}");
    }
}

/// Two boards joined to each other: each hears what the other sends.
#[test]
fn a1_6_two_boards_joined_to_each_other() {
    let sender = |byte| desk::board(&[write(0, 4), desk::STAY], |record| record.machine.regs[0] = byte);
    let (mut one, mut other) = (sender(0x1F2), sender(0x35));
    for _ in 0..9615 {
        let (to_one, to_other) = (Given::line(other.level()), Given::line(one.level()));
        one.clock(to_one, 0).unwrap();
        other.clock(to_other, 0).unwrap();
    }
    assert_eq!((one.received(), other.received()), (Some(0x35), Some(0xF2)));
}
